//! The clauses of "Sound means", each with edits of a sound lane that break it,
//! and where they can only it.

use crate::lane::{Channel, Condition, Lane, Process};
use crate::network::*;
use crate::programs::Ends;
use crate::random::Random;
use crate::script::Edit;

/// One clause.
pub struct Clause {
    pub name: String,
    kind: Kind,
}

enum Kind {
    Named(Breaks),
    /// Field 1 to 3 of an instruction with this op.
    Field(u8, usize),
    /// A channel in an instruction with this op that is there, but whose end
    /// is not the process.
    End(u8),
}

/// Gives an edit that breaks the clause, where the lane has what that takes.
type Breaks = fn(&mut Random, &Lane) -> Option<Edit>;

/// What the fields of an instruction must be.
#[derive(Clone, Copy, PartialEq)]
enum Field {
    Free,
    Zero,
    Register,
    Target,
    Channel,
}

/// All clauses.
pub fn clauses() -> Vec<Clause> {
    let mut clauses = Vec::new();
    for (name, breaks) in NETWORK.into_iter().chain(STATE) {
        clauses.push(Clause { name: name.to_string(), kind: Kind::Named(breaks) });
    }
    for op in 0..=13 {
        for (field, must) in (1..).zip(fields(op)).filter(|(_, must)| *must != Field::Free) {
            let letter = ["a", "b", "c"][field - 1];
            let name = match must {
                Field::Zero => format!("op {op}: {letter} not zero"),
                Field::Register => format!("op {op}: {letter} no register"),
                Field::Target => format!("op {op}: {letter} not below the count"),
                _ => format!("op {op}: {letter} no channel"),
            };
            clauses.push(Clause { name, kind: Kind::Field(op, field) });
        }
        if fields(op)[1] == Field::Channel {
            let name = format!("op {op}: a channel with another end");
            clauses.push(Clause { name, kind: Kind::End(op) });
        }
    }
    clauses
}

impl Clause {
    /// An edit of this sound lane that breaks the clause, where there is one.
    pub fn broken(&self, random: &mut Random, lane: &Lane) -> Option<Edit> {
        let edit = match self.kind {
            Kind::Named(breaks) => breaks(random, lane)?,
            Kind::Field(op, field) => wrong_field(random, lane, op, field)?,
            Kind::End(op) => wrong_end(random, lane, op)?,
        };
        let mut edited = lane.clone();
        edited.edit(edit);
        (!edited.is_sound()).then_some(edit)
    }
}

fn fields(op: u8) -> [Field; 3] {
    use Field::*;
    match op {
        0 => [Zero; 3],
        1 => [Register, Free, Free],
        2 => [Register, Register, Zero],
        3..=7 => [Register; 3],
        8 => [Zero, Zero, Target],
        9 | 10 => [Register, Zero, Target],
        11 => [Register, Channel, Target],
        12 => [Register, Channel, Zero],
        _ => [Zero, Channel, Zero],
    }
}

const NETWORK: [(&str, Breaks); 29] = [
    ("no process", |_, lane| processes(lane, 0)),
    ("more than 16 processes", |random, lane| {
        processes(lane, random.one(&[17, 18, 32, 255, 256, 65_536, u64::MAX]))
    }),
    ("processes that a shorter number would not hold", |random, lane| {
        processes(lane, u64::from(lane.network.processes) + beyond_bits(random))
    }),
    ("one process more", |_, lane| processes(lane, u64::from(lane.network.processes) + 1)),
    ("one process fewer", |_, lane| processes(lane, u64::from(lane.network.processes) - 1)),
    ("no channel", |_, lane| channels(lane, 0)),
    ("more than 32 channels", |random, lane| {
        channels(lane, random.one(&[33, 34, 64, 255, 256, 65_536, u64::MAX]))
    }),
    ("channels that a shorter number would not hold", |random, lane| {
        channels(lane, u64::from(lane.network.channels) + beyond_bits(random))
    }),
    ("one channel more", |_, lane| channels(lane, u64::from(lane.network.channels) + 1)),
    ("one channel fewer", |_, lane| channels(lane, u64::from(lane.network.channels) - 1)),
    ("a slot's first", |random, lane| {
        let (number, slot) = used_slot(random, lane);
        let any = random.below(CODE) as u16;
        let others = [slot.first.wrapping_sub(1), slot.first + 1, slot.first + 256, any, 65_535];
        Some(Edit::Slot(number, Slot { first: random.one(&others), ..slot }))
    }),
    ("a count of 0", |random, lane| {
        let (number, slot) = used_slot(random, lane);
        Some(Edit::Slot(number, Slot { count: 0, ..slot }))
    }),
    ("a count above 256", |random, lane| {
        // In the last process nothing else need be wrong.
        let last = usize::from(lane.network.processes) - 1;
        let number = if random.percent(70) { last } else { random.below(last + 1) };
        let slot = lane.network.slots[number];
        let count = random.one(&[257, 257, 258, 512, slot.count + 256, 65_535]);
        Some(Edit::Slot(number, Slot { count, ..slot }))
    }),
    ("a count that the next first does not suit", |random, lane| {
        let (number, slot) = used_slot(random, lane);
        let count = random.one(&[slot.count + 1, slot.count - 1]);
        let followed = number + 1 < usize::from(lane.network.processes);
        followed.then_some(Edit::Slot(number, Slot { count, ..slot }))
    }),
    ("more than 1,016 instructions", |_, lane| {
        let number = usize::from(lane.network.processes) - 1;
        let slot = lane.network.slots[number];
        let count = slot.count + (CODE + 1 - lane.network.total()) as u16;
        (count <= COUNT).then_some(Edit::Slot(number, Slot { count, ..slot }))
    }),
    ("a first beyond P", |random, lane| {
        let number = spare(random, lane.network.processes, PROCESSES)?;
        let first = random.one(&[1, 256, 65_535, lane.network.total() as u16]);
        Some(Edit::Slot(number, Slot { first, count: 0 }))
    }),
    ("a count beyond P", |random, lane| {
        let number = spare(random, lane.network.processes, PROCESSES)?;
        let count = random.one(&[1, 256, 65_535]);
        Some(Edit::Slot(number, Slot { first: 0, count }))
    }),
    ("a sender that is no process", |random, lane| {
        let (number, record) = used_record(random, lane);
        Some(Edit::Record(number, Record { sender: no_process(random, lane), ..record }))
    }),
    ("a receiver that is no process", |random, lane| {
        let (number, record) = used_record(random, lane);
        Some(Edit::Record(number, Record { receiver: no_process(random, lane), ..record }))
    }),
    ("both ends outside", |random, lane| {
        let (number, record) = used_record(random, lane);
        let outside = Record { sender: OUTSIDE, receiver: OUTSIDE, ..record };
        Some(Edit::Record(number, outside))
    }),
    ("a record's capacity of 0", |random, lane| {
        let (number, record) = used_record(random, lane);
        Some(Edit::Record(number, Record { capacity: 0, ..record }))
    }),
    ("a record's capacity above 256", |random, lane| {
        let (number, record) = used_record(random, lane);
        let capacity = random.one(&[257, 257, 512, record.capacity + 256, 65_535]);
        Some(Edit::Record(number, Record { capacity, ..record }))
    }),
    ("ends that the code does not suit", |random, lane| {
        let (number, Record { sender, receiver, capacity }) = used_record(random, lane);
        let other = random.below(usize::from(lane.network.processes)) as u8;
        let (sender, receiver) =
            random.one(&[(receiver, sender), (other, receiver), (sender, other)]);
        Some(Edit::Record(number, Record { sender, receiver, capacity }))
    }),
    ("a sender beyond C", |random, lane| {
        let number = spare(random, lane.network.channels, CHANNELS)?;
        let sender = random.one(&[1, 2, 16, 255]);
        Some(Edit::Record(number, Record { sender, ..Record::default() }))
    }),
    ("a receiver beyond C", |random, lane| {
        let number = spare(random, lane.network.channels, CHANNELS)?;
        let receiver = random.one(&[1, 2, 16, 255]);
        Some(Edit::Record(number, Record { receiver, ..Record::default() }))
    }),
    ("a record's capacity beyond C", |random, lane| {
        let number = spare(random, lane.network.channels, CHANNELS)?;
        let capacity = random.one(&[1, 256, 65_535]);
        Some(Edit::Record(number, Record { capacity, ..Record::default() }))
    }),
    ("an op above 13", |random, lane| {
        let number = random.below(lane.network.total());
        Some(Edit::Byte(4 * number, random.one(&[14, 14, 15, 16, 128, 255])))
    }),
    ("a last instruction other than 0 and 8", |random, lane| {
        let (_, slot) = used_slot(random, lane);
        let number = usize::from(slot.first + slot.count) - 1;
        // Each of these has the fields that a stop has, and the jumps those of
        // a jump.
        let ops: &[u8] =
            if lane.network.code[number].op == 0 { &[1, 2, 3, 5, 9] } else { &[9, 10] };
        Some(Edit::Byte(4 * number, random.one(ops)))
    }),
    ("an unused instruction", |random, lane| {
        let (first, last) = (4 * lane.network.total(), 4 * CODE - 1);
        if first > last {
            return None;
        }
        let any = random.between(first, last);
        Some(Edit::Byte(random.one(&[first, first + 3, any, last]), random.one(&[1, 8, 128, 255])))
    }),
];

const STATE: [(&str, Breaks); 23] = [
    ("a position at the count", |random, lane| {
        let number = random.below(usize::from(lane.network.processes));
        Some(stand(lane, number, lane.network.slots[number].count))
    }),
    ("a position above the count", |random, lane| {
        let number = random.below(usize::from(lane.network.processes));
        let count = lane.network.slots[number].count;
        let position = random.one(&[count + 1, count + 256, 256, 65_535]);
        Some(stand(lane, number, position)).filter(|_| position > count)
    }),
    ("a register beyond P", |random, lane| {
        let process = spare(random, lane.network.processes, PROCESSES)?;
        let number = REGISTERS * process + random.below(REGISTERS);
        Some(Edit::Register(number, random.one(&[1, -1, i32::MIN, 65_536])))
    }),
    ("a position beyond P", |random, lane| {
        let position = random.one(&[1, 256, 65_535]);
        spare_process(random, lane, Process { position, ..Process::default() })
    }),
    ("a condition beyond P", |random, lane| {
        let condition = random.one(&[Condition::Stopped, Condition::Faulted]);
        spare_process(random, lane, Process { condition, ..Process::default() })
    }),
    ("moves beyond P", |random, lane| {
        let moves = random.one(&[1, 256, 1 << 32, u64::MAX]);
        spare_process(random, lane, Process { moves, ..Process::default() })
    }),
    ("a capacity of 0", |random, lane| {
        let (number, channel) = channel_with(random, lane, |_, channel| channel.held == 0)?;
        // A peak above that would be wrong too.
        Some(Edit::Channel(number, Channel { capacity: 0, peak: 0, ..channel }))
    }),
    ("a capacity above 256", |random, lane| {
        let (number, channel) = channel_with(random, lane, |_, _| true)?;
        let capacity = random.one(&[257, 257, 258, 512, channel.capacity + 256, 65_535]);
        Some(Edit::Channel(number, Channel { capacity, ..channel }))
    }),
    ("an oldest above 255", |random, lane| {
        let (number, channel) = channel_with(random, lane, |_, _| true)?;
        let oldest = random.one(&[256, 256, 257, 512, channel.oldest + 256, 65_535]);
        Some(Edit::Channel(number, Channel { oldest, ..channel }))
    }),
    ("held above the capacity", |random, lane| {
        let heard = |record: Record, _| !ended(lane, record.receiver);
        let (number, channel) = channel_with(random, lane, heard)?;
        let over = channel.capacity + 1;
        let held = random.one(&[over, over, channel.capacity + 256, 65_535]);
        // Then the peak is below that, or above the capacity as well.
        let peak = random.one(&[held, channel.capacity]);
        Some(Edit::Channel(number, Channel { held, peak, ..channel }))
    }),
    ("a capacity below what is held", |random, lane| {
        let (number, channel) = channel_with(random, lane, |_, channel| channel.held > 1)?;
        let capacity = random.one(&[channel.held - 1, 1]);
        let peak = random.one(&[channel.peak, capacity]);
        Some(Edit::Channel(number, Channel { capacity, peak, ..channel }))
    }),
    ("a peak below what is held", |random, lane| {
        let (number, channel) = channel_with(random, lane, |_, channel| channel.held > 0)?;
        let under = channel.held - 1;
        let any = random.below(channel.held.into()) as u16;
        let peak = random.one(&[under, under, 0, any]);
        Some(Edit::Channel(number, Channel { peak, ..channel }))
    }),
    ("a peak above the capacity", |random, lane| {
        let (number, channel) = channel_with(random, lane, |_, _| true)?;
        let over = channel.capacity + 1;
        let peak = random.one(&[over, over, channel.capacity + 256, channel.peak + 256, 65_535]);
        Some(Edit::Channel(number, Channel { peak, ..channel }))
    }),
    ("a capacity below the peak", |random, lane| {
        let least = |channel: Channel| channel.held.max(1);
        let (number, channel) = channel_with(random, lane, |_, c| c.peak > least(c))?;
        let any = random.between(least(channel).into(), usize::from(channel.peak) - 1) as u16;
        let capacity = random.one(&[channel.peak - 1, least(channel), any]);
        Some(Edit::Channel(number, Channel { capacity, ..channel }))
    }),
    ("a channel that is open though its sender ended", |random, lane| {
        let closed = |record: Record, _| ended(lane, record.sender);
        let (number, channel) = channel_with(random, lane, closed)?;
        Some(Edit::Channel(number, Channel { closed: false, ..channel }))
    }),
    ("a sender that ended and has not closed", |random, lane| {
        let (number, outgoing, incoming) = ends_of_one(random, lane);
        let alone = outgoing.iter().any(|channel| !channel.closed)
            && incoming.iter().all(|channel| channel.held == 0);
        alone.then(|| ended_by_hand(random, lane, number))
    }),
    ("a channel that holds though its receiver ended", |random, lane| {
        let unheard = |record: Record, _| ended(lane, record.receiver);
        let (number, channel) = channel_with(random, lane, unheard)?;
        let held = random.between(1, channel.capacity.into()) as u16;
        let peak = channel.peak.max(held);
        Some(Edit::Channel(number, Channel { held, peak, ..channel }))
    }),
    ("a receiver that ended and holds", |random, lane| {
        let (number, outgoing, incoming) = ends_of_one(random, lane);
        let alone = outgoing.iter().all(|channel| channel.closed)
            && incoming.iter().any(|channel| channel.held > 0);
        alone.then(|| ended_by_hand(random, lane, number))
    }),
    ("a capacity beyond C", |random, lane| {
        let capacity = random.one(&[1, 256, 65_535]);
        spare_channel(random, lane, Channel { capacity, ..Channel::default() })
    }),
    ("an oldest beyond C", |random, lane| {
        let oldest = random.one(&[1, 255, 256, 65_535]);
        spare_channel(random, lane, Channel { oldest, ..Channel::default() })
    }),
    ("held beyond C", |random, lane| {
        let held = random.one(&[1, 256, 65_535]);
        spare_channel(random, lane, Channel { held, ..Channel::default() })
    }),
    ("a peak beyond C", |random, lane| {
        let peak = random.one(&[1, 256, 65_535]);
        spare_channel(random, lane, Channel { peak, ..Channel::default() })
    }),
    ("closed beyond C", |random, lane| {
        spare_channel(random, lane, Channel { closed: true, ..Channel::default() })
    }),
];

fn processes(lane: &Lane, processes: u64) -> Option<Edit> {
    Some(Edit::Network { processes, channels: lane.network.channels.into() })
}

fn channels(lane: &Lane, channels: u64) -> Option<Edit> {
    Some(Edit::Network { processes: lane.network.processes.into(), channels })
}

/// What is lost where a number is cut to 8, 16 or 32 bits.
fn beyond_bits(random: &mut Random) -> u64 {
    random.one(&[1 << 8, 1 << 16, 1 << 32, 1 << 63])
}

fn used_slot(random: &mut Random, lane: &Lane) -> (usize, Slot) {
    let number = random.below(usize::from(lane.network.processes));
    (number, lane.network.slots[number])
}

fn used_record(random: &mut Random, lane: &Lane) -> (usize, Record) {
    let number = random.below(usize::from(lane.network.channels));
    (number, lane.network.records[number])
}

/// A number beyond those in use, where there is one.
fn spare(random: &mut Random, used: u8, all: usize) -> Option<usize> {
    let used = usize::from(used);
    (used < all).then(|| random.between(used, all - 1))
}

/// An end that is neither a process nor outside.
fn no_process(random: &mut Random, lane: &Lane) -> u8 {
    let any = random.between(lane.network.processes.into(), 254) as u8;
    random.one(&[lane.network.processes, 16, 17, 254, any])
}

fn ended(lane: &Lane, end: u8) -> bool {
    end != OUTSIDE && lane.has_ended(end.into())
}

fn stand(lane: &Lane, number: usize, position: u16) -> Edit {
    let Process { condition, moves, .. } = lane.processes[number];
    Edit::Process { number, position, condition, moves }
}

/// A process beyond P that is like this.
fn spare_process(random: &mut Random, lane: &Lane, process: Process) -> Option<Edit> {
    let number = spare(random, lane.network.processes, PROCESSES)?;
    let Process { position, condition, moves, .. } = process;
    Some(Edit::Process { number, position, condition, moves })
}

/// A channel beyond C that is like this.
fn spare_channel(random: &mut Random, lane: &Lane, channel: Channel) -> Option<Edit> {
    let number = spare(random, lane.network.channels, CHANNELS)?;
    Some(Edit::Channel(number, channel))
}

/// One of the channels of this kind.
fn channel_with(
    random: &mut Random,
    lane: &Lane,
    kind: impl Fn(Record, Channel) -> bool,
) -> Option<(usize, Channel)> {
    let all = lane.network.used_records().iter().zip(lane.channels).enumerate();
    let of_kind = all.filter(|(_, (&record, channel))| kind(record, *channel));
    let found: Vec<_> = of_kind.map(|(number, (_, channel))| (number, channel)).collect();
    (!found.is_empty()).then(|| random.one(&found))
}

/// A process, its outgoing channels and its incoming ones.
fn ends_of_one(random: &mut Random, lane: &Lane) -> (usize, Vec<Channel>, Vec<Channel>) {
    let number = random.below(usize::from(lane.network.processes));
    let ends = &Ends::of(usize::from(lane.network.processes), lane.network.used_records())[number];
    let all = |channels: &[u8]| channels.iter().map(|&c| lane.channels[usize::from(c)]).collect();
    (number, all(&ends.outgoing), all(&ends.incoming))
}

/// The process has ended, and nothing was done with its channels.
fn ended_by_hand(random: &mut Random, lane: &Lane, number: usize) -> Edit {
    let Process { position, moves, .. } = lane.processes[number];
    let condition = random.one(&[Condition::Stopped, Condition::Faulted]);
    Edit::Process { number, position, condition, moves }
}

/// One of the used instructions with this op, and its process.
fn instruction_with(random: &mut Random, lane: &Lane, op: u8) -> Option<(usize, usize)> {
    let mut found = Vec::new();
    for (process, slot) in lane.network.used_slots().iter().enumerate() {
        let first = usize::from(slot.first);
        let all = first..first + usize::from(slot.count);
        let of_op = all.filter(|&number| lane.network.code[number].op == op);
        found.extend(of_op.map(|number| (number, process)));
    }
    (!found.is_empty()).then(|| random.one(&found))
}

fn wrong_field(random: &mut Random, lane: &Lane, op: u8, field: usize) -> Option<Edit> {
    let (number, process) = instruction_with(random, lane, op)?;
    let count = lane.network.slots[process].count;
    let channels = lane.network.channels;
    let byte = match fields(op)[field - 1] {
        Field::Zero => random.one(&[1, 2, 7, 16, 128, 255]),
        Field::Register => random.one(&[8, 8, 9, 15, 16, 128, 255]),
        // With 256 instructions every target is right.
        Field::Target => u8::try_from(random.one(&[count, count, count + 1, 255])).ok()?,
        Field::Channel => random.one(&[channels, channels, 32, 33, 128, 255]),
        Field::Free => return None,
    };
    Some(Edit::Byte(4 * number + field, byte))
}

fn wrong_end(random: &mut Random, lane: &Lane, op: u8) -> Option<Edit> {
    let (number, process) = instruction_with(random, lane, op)?;
    let end = |record: &Record| if op == 11 { record.receiver } else { record.sender };
    let (channel, _) =
        channel_with(random, lane, |record, _| usize::from(end(&record)) != process)?;
    Some(Edit::Byte(4 * number + 2, channel as u8))
}
