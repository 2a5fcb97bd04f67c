//! A lane: a network with its state.

use crate::network::*;

/// Cells of all channels together.
pub const CELLS: usize = CHANNELS * CAPACITY as usize;
/// The messages. Channel n has the 256 cells from 256 × n on.
pub type Cells = [i32; CELLS];

#[derive(Clone, Copy, PartialEq, Eq, Debug, Default)]
pub enum Condition {
    #[default]
    Live,
    Stopped,
    Faulted,
}

#[derive(Clone, Copy, PartialEq, Eq, Debug, Default)]
pub struct Process {
    pub registers: [i32; REGISTERS],
    /// The next instruction, counted within the process.
    pub position: u16,
    pub condition: Condition,
    pub moves: u64,
}

#[derive(Clone, Copy, PartialEq, Eq, Debug, Default)]
pub struct Channel {
    /// At first the file's; relief makes it larger.
    pub capacity: u16,
    /// The place of the oldest message, 0 to 255.
    pub oldest: u16,
    pub held: u16,
    /// The high-water mark: the most messages held since the start.
    pub peak: u16,
    pub closed: bool,
}

#[derive(Clone, PartialEq, Eq, Debug)]
pub struct Lane {
    pub network: Network,
    pub processes: [Process; PROCESSES],
    pub channels: [Channel; CHANNELS],
    /// Calls for the outside that were accepted, and reliefs that enlarged.
    pub accepted: u64,
}

/// What keeps a process from moving, with the channel.
#[derive(Clone, Copy, PartialEq, Eq, Debug)]
pub enum Wait {
    Empty(u8),
    Full(u8),
}

impl Channel {
    /// Lays a message behind the others. Only where there is room.
    pub fn put(&mut self, cells: &mut Cells, number: u8, value: i32) {
        cells[place(number, self.oldest + self.held)] = value;
        self.held += 1;
        if self.held > self.peak {
            self.peak = self.held;
        }
    }

    /// Gives the oldest message. Only where one is held.
    pub fn get(&mut self, cells: &Cells, number: u8) -> i32 {
        let value = cells[place(number, self.oldest)];
        self.oldest = (self.oldest + 1) % CAPACITY;
        self.held -= 1;
        value
    }

    pub fn is_full(&self) -> bool {
        self.held >= self.capacity
    }
}

/// The cell of a channel's place, counted round after 255.
fn place(number: u8, place: u16) -> usize {
    usize::from(number) * usize::from(CAPACITY) + usize::from(place % CAPACITY)
}

impl Lane {
    /// The lane at its start. A network that does not fit gives an unsound one.
    pub fn fresh(network: Network) -> Lane {
        let open = |record: Record| Channel { capacity: record.capacity, ..Channel::default() };
        let channels = network.records.map(open);
        Lane { network, processes: [Process::default(); PROCESSES], channels, accepted: 0 }
    }

    pub fn has_ended(&self, process: usize) -> bool {
        self.processes[process].condition != Condition::Live
    }

    /// Whether a channel's receiver is inside and has ended: then what is sent
    /// is not stored, and the channel is never full.
    pub fn is_unheard(&self, channel: u8) -> bool {
        let receiver = self.network.records[usize::from(channel)].receiver;
        receiver != OUTSIDE && self.has_ended(usize::from(receiver))
    }

    /// The instruction at which a process stands.
    pub fn instruction(&self, process: usize) -> Instruction {
        let slot = self.network.slots[process];
        self.network.code[usize::from(slot.first + self.processes[process].position)]
    }

    /// What a pick of this process would wait for, if it would wait. A relief asks
    /// this of all processes in one loop, and takes the answer apart at once.
    #[inline(always)]
    pub fn wait(&self, process: usize) -> Option<Wait> {
        if self.has_ended(process) {
            return None;
        }
        let Instruction { op, b, .. } = self.instruction(process);
        let channel = || self.channels[usize::from(b)];
        match op {
            11 if channel().held == 0 && !channel().closed => Some(Wait::Empty(b)),
            12 if !channel().closed && channel().is_full() && !self.is_unheard(b) => {
                Some(Wait::Full(b))
            }
            _ => None,
        }
    }

    /// What a pick of this process sends if it moves: the channel and the value.
    pub fn sending(&self, process: usize) -> Option<(usize, i32)> {
        let Instruction { op, a, b, .. } = self.instruction(process);
        let sends = op == 12 && !self.channels[usize::from(b)].closed;
        sends.then(|| (usize::from(b), self.processes[process].registers[usize::from(a)]))
    }

    /// Whether some process would wait at a full channel.
    #[inline(always)]
    pub(crate) fn has_full_wait(&self) -> bool {
        (0..self.network.processes.into())
            .any(|process| self.instruction(process).op == 12 && self.waits_for_room(process))
    }

    /// Seldom asked for after a round, and so kept out of the loop of a drive.
    #[inline(never)]
    fn waits_for_room(&self, process: usize) -> bool {
        matches!(self.wait(process), Some(Wait::Full(_)))
    }

    pub fn is_sound(&self) -> bool {
        self.network.fits() && self.processes_sound() && self.channels_sound()
    }

    fn processes_sound(&self) -> bool {
        let (used, spare) = self.processes.split_at(usize::from(self.network.processes));
        used.iter().zip(&self.network.slots).all(|(process, slot)| process.position < slot.count)
            && spare.iter().all(|process| *process == Process::default())
    }

    fn channels_sound(&self) -> bool {
        let (used, spare) = self.channels.split_at(usize::from(self.network.channels));
        let ended = |end: u8| end != OUTSIDE && self.has_ended(usize::from(end));
        let sound = |(channel, record): (&Channel, &Record)| {
            // What is held is at most the peak, and so at most the capacity.
            (1..=CAPACITY).contains(&channel.capacity)
                && channel.held <= channel.peak
                && channel.peak <= channel.capacity
                && channel.oldest < CAPACITY
                && (!ended(record.sender) || channel.closed)
                && (!ended(record.receiver) || channel.held == 0)
        };
        used.iter().zip(&self.network.records).all(sound)
            && spare.iter().all(|channel| *channel == Channel::default())
    }
}
