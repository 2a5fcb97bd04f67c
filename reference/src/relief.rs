//! Relief: finds a ring of waiting processes with a full wait, and enlarges one
//! channel by one. The search goes from the outside in (request 7): it strips away
//! who is on no ring, and looks only at who is left.

use crate::calls::test_sound;
use crate::lane::{Lane, Wait};
use crate::network::{CAPACITY, OUTSIDE, PROCESSES};
use crate::refusal::Refusal;

/// The ring that was found, and the channel that grows.
#[derive(Clone, Copy, PartialEq, Eq, Debug)]
pub struct Ring {
    members: [u8; PROCESSES],
    length: usize,
    pub channel: u8,
}

impl Ring {
    /// The ring from its lowest process, each followed by the one it points to.
    pub fn members(&self) -> &[u8] {
        &self.members[..self.length]
    }
}

/// What relief did. The first `length` bytes of the buffer hold the ring.
#[derive(Clone, Copy, PartialEq, Eq, Debug)]
pub struct Relieved {
    pub length: usize,
    pub channel: u8,
}

/// Enlarges a channel of the first ring that needs it, and writes that ring.
pub fn relieve(lane: &mut Lane, buffer: &mut [u8]) -> Result<Relieved, Refusal> {
    test_sound(lane)?;
    let ring = lane.find_ring()?;
    let members = ring.members();
    buffer.get_mut(..members.len()).ok_or(Refusal::Buffer)?.copy_from_slice(members);
    lane.enlarge(ring.channel);
    Ok(Relieved { length: members.len(), channel: ring.channel })
}

impl Lane {
    /// The same on a lane that is known to be sound. It is seldom asked for, and
    /// so kept out of the loop of a run.
    #[inline(never)]
    pub(crate) fn relieve(&mut self) -> Result<Ring, Refusal> {
        let ring = self.find_ring()?;
        self.enlarge(ring.channel);
        Ok(ring)
    }

    fn enlarge(&mut self, channel: u8) {
        self.channels[usize::from(channel)].capacity += 1;
        self.count_call();
    }

    /// The ring of the lowest process that stands on one with a full wait on a
    /// channel below 256. Only for a sound lane.
    pub(crate) fn find_ring(&self) -> Result<Ring, Refusal> {
        let pointings = self.pointings();
        let mut left = pointings.strip();
        let mut refusal = Refusal::NoRing;
        while left != 0 {
            let start = left.trailing_zeros() as usize;
            let mut members = [0; PROCESSES];
            let mut length = 0;
            let mut smallest = NO_CHANNEL;
            let mut at = start;
            // Who is left stands on a ring, so the walk comes back to its start.
            loop {
                // A ring is looked at once, from its lowest process.
                left &= !(1 << at);
                members[length] = at as u8;
                length += 1;
                if let Some(channel) = pointings.full[at] {
                    let capacity = self.channels[usize::from(channel)].capacity;
                    smallest = smallest.min((capacity, channel));
                }
                at = usize::from(pointings.to[at]);
                if at == start {
                    break;
                }
            }
            match smallest {
                NO_CHANNEL => {}
                (CAPACITY, _) => refusal = Refusal::Ceiling,
                (_, channel) => return Ok(Ring { members, length, channel }),
            }
        }
        Err(refusal)
    }

    /// The processes that are left when, again and again, each that nobody left
    /// points to is stripped away: those on rings. Only for a sound lane.
    pub fn left(&self) -> [bool; PROCESSES] {
        let left = self.pointings().strip();
        std::array::from_fn(|process| left & 1 << process != 0)
    }

    /// Whom each process points to.
    #[inline]
    fn pointings(&self) -> Pointings {
        let mut to = [OUTSIDE; PROCESSES];
        let mut full = [None; PROCESSES];
        let mut counts = [0; PROCESSES];
        let (mut pointing, mut pointed) = (0, 0);
        for process in 0..usize::from(self.network.processes).min(PROCESSES) {
            let end = match self.wait(process) {
                None => continue,
                Some(Wait::Empty(channel)) => self.network.records[usize::from(channel)].sender,
                Some(Wait::Full(channel)) => {
                    full[process] = Some(channel);
                    self.network.records[usize::from(channel)].receiver
                }
            };
            // Outside there is no count.
            if let Some(count) = counts.get_mut(usize::from(end)) {
                *count += 1;
                to[process] = end;
                pointing |= 1 << process;
                pointed |= 1 << end;
            }
        }
        Pointings { to, full, pointing, pointed, counts }
    }
}

/// In the place of the smallest channel and its capacity: none.
const NO_CHANNEL: (u16, u8) = (u16::MAX, 0);

/// A set of processes, process 0 in the lowest bit.
type Set = u32;

/// Whom each process points to: the wait-for graph, in which one edge at most goes
/// out from each.
struct Pointings {
    /// Outside where a process points to none.
    to: [u8; PROCESSES],
    /// The channel where it waits for room.
    full: [Option<u8>; PROCESSES],
    /// Those that point to a process.
    pointing: Set,
    /// Those that are pointed to.
    pointed: Set,
    /// How many point to each, its in-degree.
    counts: [u8; PROCESSES],
}

impl Pointings {
    /// Strips away each process that nobody left points to, again and again, and
    /// answers who is left.
    ///
    /// Each process left is then pointed to by one that is left, and each points to
    /// one at most. So there are no more pointings than processes to be pointed to:
    /// each process left points to one that is left, no two to the same, and a walk
    /// from any of them comes back to it.
    #[inline]
    fn strip(&self) -> Set {
        let mut counts = self.counts;
        // Those that nobody points to are stripped first.
        let mut left = self.pointed;
        // The worklist: who is stripped no longer counts for the one it points to.
        let mut stripped = self.pointing & !left;
        while stripped != 0 {
            let process = stripped.trailing_zeros() as usize;
            stripped &= stripped - 1;
            let to = self.to[process];
            let count = &mut counts[usize::from(to)];
            *count -= 1;
            if *count == 0 {
                left &= !(1 << to);
                stripped |= self.pointing & 1 << to;
            }
        }
        left
    }
}
