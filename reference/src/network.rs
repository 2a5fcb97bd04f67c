//! A network: processes, channels and code, and the rules they must meet. The
//! reader of lane files and the test for soundness both use the rules below.

/// An end of a channel that is no process.
pub const OUTSIDE: u8 = 255;
/// Most processes a network can have.
pub const PROCESSES: usize = 16;
/// Most channels a network can have.
pub const CHANNELS: usize = 32;
/// Most instructions a process can have.
pub const COUNT: u16 = 256;
/// The largest capacity of a channel, and the cells that each channel has.
pub const CAPACITY: u16 = 256;
/// Instructions in a code block.
pub const PER_BLOCK: usize = 127;
/// Most instructions a network can have: eight code blocks.
pub const CODE: usize = 8 * PER_BLOCK;
/// Registers of a process.
pub const REGISTERS: usize = 8;

/// One instruction, as it stands in the file.
#[derive(Clone, Copy, PartialEq, Eq, Debug, Default)]
pub struct Instruction {
    pub op: u8,
    pub a: u8,
    pub b: u8,
    pub c: u8,
}

/// Shorthand for an instruction.
pub const fn code(op: u8, a: u8, b: u8, c: u8) -> Instruction {
    Instruction { op, a, b, c }
}

/// Where a process's instructions stand.
#[derive(Clone, Copy, PartialEq, Eq, Debug, Default)]
pub struct Slot {
    pub first: u16,
    pub count: u16,
}

/// The two ends of a channel and the capacity it starts with.
#[derive(Clone, Copy, PartialEq, Eq, Debug, Default)]
pub struct Record {
    pub sender: u8,
    pub receiver: u8,
    pub capacity: u16,
}

#[derive(Clone, PartialEq, Eq, Debug)]
pub struct Network {
    pub processes: u8,
    pub channels: u8,
    pub slots: [Slot; PROCESSES],
    pub records: [Record; CHANNELS],
    pub code: [Instruction; CODE],
}

impl Network {
    /// A network of these programs, one for each process, and these channels.
    /// Panics where they do not find room; everything else is left to `fits`.
    pub fn of(programs: &[Vec<Instruction>], channels: &[Record]) -> Network {
        let mut network = Network {
            processes: programs.len() as u8,
            channels: channels.len() as u8,
            slots: [Slot::default(); PROCESSES],
            records: [Record::default(); CHANNELS],
            code: [Instruction::default(); CODE],
        };
        network.records[..channels.len()].copy_from_slice(channels);
        let mut first = 0;
        for (slot, program) in network.slots.iter_mut().zip(programs) {
            *slot = Slot { first: first as u16, count: program.len() as u16 };
            network.code[first..first + program.len()].copy_from_slice(program);
            first += program.len();
        }
        network
    }

    /// How many instructions the processes have together.
    pub fn total(&self) -> usize {
        self.used_slots().iter().map(|slot| usize::from(slot.count)).sum()
    }

    /// How many code blocks these take.
    pub fn code_blocks(&self) -> usize {
        self.total().div_ceil(PER_BLOCK)
    }

    pub fn used_slots(&self) -> &[Slot] {
        &self.slots[..usize::from(self.processes)]
    }

    pub fn used_records(&self) -> &[Record] {
        &self.records[..usize::from(self.channels)]
    }

    /// The first process slot that does not start where the one before ended,
    /// or has no instruction or too many.
    pub fn wrong_slot(&self) -> Option<usize> {
        let mut expected = 0;
        self.used_slots().iter().position(|slot| {
            let wrong = usize::from(slot.first) != expected || !(1..=COUNT).contains(&slot.count);
            expected += usize::from(slot.count);
            wrong
        })
    }

    /// The first channel record with an end that is absent, with both ends
    /// outside, or with a capacity out of range.
    pub fn wrong_record(&self) -> Option<usize> {
        let is_end = |end: u8| end < self.processes || end == OUTSIDE;
        self.used_records().iter().position(|record| {
            !is_end(record.sender)
                || !is_end(record.receiver)
                || record.sender == OUTSIDE && record.receiver == OUTSIDE
                || !(1..=CAPACITY).contains(&record.capacity)
        })
    }

    /// The first instruction that breaks a rule. Only for a network whose
    /// slots are right and whose total finds room.
    pub fn wrong_instruction(&self) -> Option<usize> {
        for (process, slot) in self.used_slots().iter().enumerate() {
            let first = usize::from(slot.first);
            let program = &self.code[first..first + usize::from(slot.count)];
            let wrong = program.iter().position(|&i| !self.allows(i, process as u8, slot.count));
            if let Some(number) = wrong {
                return Some(first + number);
            }
            if !program.last().is_some_and(|last| last.op == 0 || last.op == 8) {
                return Some(first + program.len() - 1);
            }
        }
        None
    }

    /// Whether a process of so many instructions may hold this one.
    fn allows(&self, Instruction { op, a, b, c }: Instruction, process: u8, count: u16) -> bool {
        let register = |field: u8| usize::from(field) < REGISTERS;
        let target = |field: u8| u16::from(field) < count;
        let channel = |field: u8| self.used_records().get(usize::from(field));
        let incoming = |field: u8| channel(field).is_some_and(|record| record.receiver == process);
        let outgoing = |field: u8| channel(field).is_some_and(|record| record.sender == process);
        match op {
            0 => a == 0 && b == 0 && c == 0,
            1 => register(a),
            2 => register(a) && register(b) && c == 0,
            3..=7 => register(a) && register(b) && register(c),
            8 => a == 0 && b == 0 && target(c),
            9 | 10 => register(a) && b == 0 && target(c),
            11 => register(a) && incoming(b) && target(c),
            12 => register(a) && outgoing(b) && c == 0,
            13 => a == 0 && outgoing(b) && c == 0,
            _ => false,
        }
    }

    /// Whether the network passes all the rules of a lane file.
    pub fn fits(&self) -> bool {
        (1..=PROCESSES).contains(&usize::from(self.processes))
            && (1..=CHANNELS).contains(&usize::from(self.channels))
            && self.wrong_slot().is_none()
            && self.total() <= CODE
            && self.wrong_record().is_none()
            && self.slots[usize::from(self.processes)..].iter().all(|&s| s == Slot::default())
            && self.records[usize::from(self.channels)..].iter().all(|&r| r == Record::default())
            && self.code[self.total()..].iter().all(|&i| i == Instruction::default())
            && self.wrong_instruction().is_none()
    }
}
