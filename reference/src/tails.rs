//! What scripts meet of request 7: reliefs that find rings, tails of processes
//! that lead into them, or waits of which none is left when the processes that
//! nobody left points to are stripped away. Who is left is found here by walking
//! from each process, and held against what the search strips.

use crate::lane::{Lane, Wait};
use crate::network::{CAPACITY, OUTSIDE, PROCESSES};
use crate::refusal::Refusal;
use crate::relief::Ring;

/// The cases of a relief.
const CASES: usize = 13;
/// Which of them a relief is, or some reliefs are.
pub(crate) type Cases = [bool; CASES];

/// Their names for one way in which a relief comes about.
macro_rules! named {
    ($way:literal) => {
        [
            concat!($way, ": nobody waits"),
            concat!($way, ": some wait, none is left"),
            concat!($way, ": full waits, none is left"),
            concat!($way, ": 13, a full wait in a tail alone"),
            concat!($way, ": 14, a full wait below 256 in a tail alone"),
            concat!($way, ": a tail into the ring"),
            concat!($way, ": a tail of three or more into the ring"),
            concat!($way, ": a tail from below the ring's lowest process"),
            concat!($way, ": a smaller channel, full, in a tail"),
            concat!($way, ": a ring of one with a tail"),
            concat!($way, ": a ring of four or more"),
            concat!($way, ": a lower ring at 256 passed over"),
            concat!($way, ": a lower ring without a full wait"),
        ]
    };
}

pub(crate) const RELIEVE: [&str; CASES] = named!("relieve");
pub(crate) const RUN: [&str; CASES] = named!("relief in a run");
pub(crate) const BENCH: [&str; CASES] = named!("relief in a bench");
pub(crate) const DRIVE: [&str; CASES] = named!("relief in a drive");

/// Which cases a relief of this sound lane is.
pub(crate) fn cases(lane: &Lane) -> Cases {
    let waits = Waits::of(lane);
    let found = lane.find_ring();
    let mut left = [false; PROCESSES];
    for process in waits.on_rings() {
        left[process] = true;
    }
    assert_eq!(lane.left(), left, "left is who stands on a ring");
    let mut cases = [false; CASES];
    let some_left = left.contains(&true);
    let full = || waits.full.iter().flatten();
    // The capacities at which processes wait that lead into a ring.
    let in_tails = || waits.tails().filter_map(|tail| waits.full[tail.from]);
    match found {
        Ok(ring) => waits.enlarged(&ring, &mut cases),
        Err(Refusal::Ceiling) => cases[4] = in_tails().any(|capacity| capacity < CAPACITY),
        Err(_) => {
            let some = waits.some;
            cases[0] = !some;
            cases[1] = some && !some_left;
            cases[2] = !some_left && full().count() > 0;
            cases[3] = in_tails().count() > 0;
        }
    }
    cases
}

/// A process that is on no ring, and leads into one.
struct Tail {
    from: usize,
    /// How many processes it is to the ring, itself included.
    length: usize,
    /// Whom the last of them points to.
    into: usize,
}

/// Who waits for whom.
struct Waits {
    /// Some process waits, for another or for the outside.
    some: bool,
    /// Whom each process points to.
    to: [Option<usize>; PROCESSES],
    /// The capacity at which it waits for room.
    full: [Option<u16>; PROCESSES],
}

impl Waits {
    fn of(lane: &Lane) -> Waits {
        let mut waits = Waits { some: false, to: [None; PROCESSES], full: [None; PROCESSES] };
        for process in 0..lane.network.processes.into() {
            let Some(wait) = lane.wait(process) else { continue };
            waits.some = true;
            let end = match wait {
                Wait::Empty(channel) => lane.network.records[usize::from(channel)].sender,
                Wait::Full(channel) => {
                    waits.full[process] = Some(lane.channels[usize::from(channel)].capacity);
                    lane.network.records[usize::from(channel)].receiver
                }
            };
            waits.to[process] = (end != OUTSIDE).then_some(end.into());
        }
        waits
    }

    /// The processes after this one, each the one that the last one points to. After
    /// as many as there are they come again.
    fn chain(&self, from: usize) -> impl Iterator<Item = usize> + '_ {
        std::iter::successors(self.to[from], |&process| self.to[process]).take(PROCESSES)
    }

    fn is_on_ring(&self, process: usize) -> bool {
        self.chain(process).any(|other| other == process)
    }

    fn on_rings(&self) -> impl Iterator<Item = usize> + '_ {
        (0..PROCESSES).filter(|&process| self.is_on_ring(process))
    }

    /// All processes that are on no ring, and lead into one.
    fn tails(&self) -> impl Iterator<Item = Tail> + '_ {
        let stripped = (0..PROCESSES).filter(|&process| !self.is_on_ring(process));
        stripped.filter_map(|from| {
            let (before, into) =
                self.chain(from).enumerate().find(|&(_, process)| self.is_on_ring(process))?;
            Some(Tail { from, length: before + 1, into })
        })
    }

    /// A relief that enlarges this ring.
    fn enlarged(&self, ring: &Ring, cases: &mut Cases) {
        let members = ring.members();
        let is_member = |process: usize| members.contains(&(process as u8));
        let lowest = usize::from(members[0]);
        let capacity = |process: usize| self.full[process];
        let least = (0..PROCESSES).filter(|&process| is_member(process)).filter_map(capacity).min();
        for tail in self.tails().filter(|tail| is_member(tail.into)) {
            cases[5] = true;
            cases[6] |= tail.length > 2;
            cases[7] |= tail.from < lowest;
            cases[8] |= capacity(tail.from).is_some() && capacity(tail.from) < least;
            cases[9] |= members.len() == 1;
        }
        cases[10] = members.len() > 3;
        for lower in self.on_rings().take_while(|&process| process < lowest) {
            // It was not taken, so that all its full waits are at 256.
            let has_full = capacity(lower).is_some()
                || self.chain(lower).any(|process| capacity(process).is_some());
            cases[11] |= has_full;
            cases[12] |= !has_full;
        }
    }
}

#[cfg(test)]
mod tests {
    use super::*;
    use crate::network::{code, Network, Record};

    /// Whom a process waits for, and at which capacity where it waits for room.
    type Stand = Option<(u8, Option<u16>)>;

    /// Processes that stand like this. The channel of each has its number.
    fn lane(stands: &[Stand]) -> Lane {
        let (mut programs, mut channels) = (Vec::new(), Vec::new());
        let jump = code(8, 0, 0, 0);
        for (process, stand) in (0..).zip(stands) {
            let (first, sender, receiver, capacity) = match *stand {
                None => (jump, process, process, 1),
                Some((other, None)) => (code(11, 0, process, 0), other, process, 1),
                Some((other, Some(full))) => (code(12, 0, process, 0), process, other, full),
            };
            programs.push(vec![first, jump]);
            channels.push(Record { sender, receiver, capacity });
        }
        let mut lane = Lane::fresh(Network::of(&programs, &channels));
        for (channel, stand) in lane.channels.iter_mut().zip(stands) {
            channel.held = stand.and_then(|(_, full)| full).unwrap_or(0);
            channel.peak = channel.held;
        }
        assert!(lane.is_sound());
        lane
    }

    fn names(stands: &[Stand]) -> Vec<&'static str> {
        let names = RELIEVE.iter().zip(cases(&lane(stands)));
        names.filter(|(_, met)| *met).map(|(name, _)| &name["relieve: ".len()..]).collect()
    }

    fn empty(other: u8) -> Stand {
        Some((other, None))
    }

    fn full(other: u8, capacity: u16) -> Stand {
        Some((other, Some(capacity)))
    }

    #[test]
    fn cases_are_what_their_names_say() {
        let one = ["a tail into the ring", "a tail from below the ring's lowest process"];
        for (stands, expected) in [
            (vec![None, None], vec!["nobody waits"]),
            (vec![empty(OUTSIDE)], vec!["some wait, none is left"]),
            (vec![empty(1), None], vec!["some wait, none is left"]),
            (vec![full(1, 1), None], vec!["some wait, none is left", "full waits, none is left"]),
            (vec![empty(0)], vec![]),
            (vec![full(0, 256)], vec![]),
            (vec![full(0, 1)], vec![]),
            (vec![full(1, 1), empty(1)], vec!["13, a full wait in a tail alone"]),
            (vec![empty(1), empty(1)], vec![]),
            (vec![full(1, 1), full(1, 256)], vec!["14, a full wait below 256 in a tail alone"]),
            (vec![full(1, 256), full(1, 256)], vec![]),
            (vec![full(1, 2), empty(0), empty(1)], vec!["a tail into the ring"]),
            (vec![full(1, 2), empty(0), full(1, 2)], vec!["a tail into the ring"]),
            (
                vec![full(1, 2), empty(0), full(1, 1)],
                vec!["a tail into the ring", "a smaller channel, full, in a tail"],
            ),
            (vec![empty(1), full(2, 2), empty(1)], one.to_vec()),
            (vec![empty(1), full(1, 2)], [&one[..], &["a ring of one with a tail"]].concat()),
            (vec![full(1, 2), empty(0), empty(1), empty(2)], vec!["a tail into the ring"]),
            (
                vec![full(1, 2), empty(0), empty(1), empty(2), empty(3)],
                vec!["a tail into the ring", "a tail of three or more into the ring"],
            ),
            (vec![full(1, 1), empty(2), empty(0)], vec![]),
            (vec![full(1, 1), empty(2), empty(3), empty(0)], vec!["a ring of four or more"]),
            (vec![full(0, 256), full(1, 1)], vec!["a lower ring at 256 passed over"]),
            (vec![empty(0), full(1, 1)], vec!["a lower ring without a full wait"]),
            // The tail is that of the lower ring, which is not taken; of the higher one.
            (
                vec![empty(0), full(2, 9), full(1, 9), empty(0)],
                vec!["a lower ring without a full wait"],
            ),
            (vec![full(0, 9), full(1, 1), full(1, 1)], vec![]),
        ] {
            assert_eq!(names(&stands), expected, "{stands:?}");
        }
    }
}
