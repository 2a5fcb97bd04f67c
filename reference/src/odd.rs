//! Edits after which a sound lane is sound still, and in a state that calls
//! seldom or never bring about.

use crate::lane::{Channel, Condition, Lane, Process};
use crate::network::*;
use crate::programs::Ends;
use crate::random::Random;
use crate::script::{Edit, ALL_CELLS};

/// Such edits of a sound lane, made one after the other.
pub fn edits(random: &mut Random, lane: &Lane) -> Vec<Edit> {
    match random.below(19) {
        0 | 1 => vec![register(random, lane)],
        2 => vec![cell(random, lane)],
        3 => vec![Edit::Accepted(count(random))],
        4..=7 => process(random, lane),
        8..=11 => {
            let number = random.below(usize::from(lane.network.channels));
            vec![channel(random, lane, number)]
        }
        12 | 13 => {
            let number = random.below(usize::from(lane.network.processes));
            end(random, lane, number)
        }
        14 => vec![own_capacity(random, lane)],
        15 => code_byte(random, lane).into_iter().collect(),
        16 | 17 => division(random, lane),
        _ => jam(random, lane),
    }
}

/// A count at or near its largest, or any.
fn count(random: &mut Random) -> u64 {
    let any = random.bits();
    random.one(&[u64::MAX, u64::MAX, u64::MAX - 1, u64::MAX - 2, 1 << 32, 0, any])
}

fn register(random: &mut Random, lane: &Lane) -> Edit {
    let number = random.below(REGISTERS * usize::from(lane.network.processes));
    let value = random.value();
    Edit::Register(number, random.one(&[i32::MIN, i32::MAX, 0, -1, value, value]))
}

/// Any cell, or one that holds a channel's oldest message.
fn cell(random: &mut Random, lane: &Lane) -> Edit {
    let number = random.below(usize::from(lane.network.channels));
    let oldest = usize::from(lane.channels[number].oldest);
    let any = random.below(ALL_CELLS);
    let number = random.one(&[256 * number + oldest, any, ALL_CELLS - 1]);
    Edit::Cell(number, random.value())
}

/// A live process where it stands, at any position or at one with any op, and
/// with any moves. A channel that it is to send on or close may be closed.
fn process(random: &mut Random, lane: &Lane) -> Vec<Edit> {
    let number = random.below(usize::from(lane.network.processes));
    let Process { position, moves, .. } = lane.processes[number];
    let any = random.below(lane.network.slots[number].count.into()) as u16;
    let op = random.below(14) as u8;
    let with_op = positions(lane, number, |i| i.op == op);
    let rare = if with_op.is_empty() { any } else { random.one(&with_op) };
    let position = random.one(&[position, any, rare, rare]);
    let count = count(random);
    let moves = random.one(&[moves, count]);
    let mut edits = vec![Edit::Process { number, position, condition: Condition::Live, moves }];
    let i = lane.network.code[usize::from(lane.network.slots[number].first + position)];
    if (12..=13).contains(&i.op) && random.percent(30) {
        let channel = usize::from(i.b);
        edits.push(Edit::Channel(channel, Channel { closed: true, ..lane.channels[channel] }));
    }
    edits
}

/// The positions of a process that have such an instruction.
fn positions(lane: &Lane, process: usize, kind: impl Fn(&Instruction) -> bool) -> Vec<u16> {
    let slot = lane.network.slots[process];
    let program = &lane.network.code[usize::from(slot.first)..][..usize::from(slot.count)];
    (0..).zip(program).filter(|(_, i)| kind(i)).map(|(position, _)| position).collect()
}

/// A process that is about to divide.
fn division(random: &mut Random, lane: &Lane) -> Vec<Edit> {
    let divides = |i: &Instruction| (6..=7).contains(&i.op) && i.b != i.c;
    let of = |number| positions(lane, number, divides).into_iter().map(move |at| (number, at));
    let all: Vec<(usize, u16)> = (0..lane.network.processes.into()).flat_map(of).collect();
    if all.is_empty() {
        return Vec::new();
    }
    let (number, position) = random.one(&all);
    let i = lane.network.code[usize::from(lane.network.slots[number].first + position)];
    let register = |field: u8| REGISTERS * number + usize::from(field);
    let moves = lane.processes[number].moves;
    let (dividend, divisor) = operands(random);
    vec![
        Edit::Process { number, position, condition: Condition::Live, moves },
        Edit::Register(register(i.b), dividend),
        Edit::Register(register(i.c), divisor),
    ]
}

/// The least number by −1, any by zero or −1, or two numbers, not both positive,
/// with or without a remainder.
fn operands(random: &mut Random) -> (i32, i32) {
    let value = random.value();
    match random.below(6) {
        0 => (i32::MIN, -1),
        1 => (value, random.one(&[0, -1])),
        _ => {
            let divisor = random.one(&[-10, -7, -3, -2, 2, 3, 7, 10, i32::MIN, i32::MAX]);
            let multiple = divisor.wrapping_mul(random.between(0, 40) as i32 - 20);
            let dividend = random.one(&[value, value, multiple, multiple, i32::MIN, i32::MAX]);
            (if divisor > 0 && dividend > 0 { -dividend } else { dividend }, divisor)
        }
    }
}

/// A channel in any state that its two ends allow.
pub fn channel(random: &mut Random, lane: &Lane, number: usize) -> Edit {
    let record = lane.network.records[number];
    let any = random.between(1, CAPACITY.into()) as u16;
    let capacity = random.one(&[1, 2, 3, record.capacity, 255, 256, 256, any]);
    let held = match random.below(4) {
        _ if lane.is_unheard(number as u8) => 0,
        0 => 0,
        1 => random.below(usize::from(capacity) + 1) as u16,
        _ => capacity,
    };
    let peak = peak(random, held, capacity);
    let closed = ended(lane, record.sender) || random.percent(25);
    let oldest = oldest(random, lane, number);
    Edit::Channel(number, Channel { capacity, oldest, held, peak, closed })
}

/// As many as are held, as many as there is room for, or any number between.
pub fn peak(random: &mut Random, held: u16, capacity: u16) -> u16 {
    let any = random.between(held.into(), capacity.into()) as u16;
    random.one(&[held, held, capacity, any])
}

/// The place as it is, near the last one, or any.
pub fn oldest(random: &mut Random, lane: &Lane, channel: usize) -> u16 {
    let any = random.below(CAPACITY.into()) as u16;
    random.one(&[lane.channels[channel].oldest, 0, 255, 255, 254, 250, any])
}

fn ended(lane: &Lane, end: u8) -> bool {
    end != OUTSIDE && lane.has_ended(end.into())
}

/// A process ends by hand, with its channels closed and emptied as they should
/// be, these first or last.
pub fn end(random: &mut Random, lane: &Lane, number: usize) -> Vec<Edit> {
    let mut edits = Vec::new();
    let mut channels = lane.channels;
    for (channel, record) in channels.iter_mut().zip(lane.network.used_records()) {
        channel.closed |= usize::from(record.sender) == number;
        if usize::from(record.receiver) == number {
            channel.held = 0;
        }
    }
    for (channel, (now, before)) in channels.iter().zip(lane.channels).enumerate() {
        if *now != before {
            edits.push(Edit::Channel(channel, *now));
        }
    }
    let Process { position, moves, .. } = lane.processes[number];
    let condition = random.one(&[Condition::Stopped, Condition::Faulted]);
    let end = Edit::Process { number, position, condition, moves };
    let at = random.one(&[0, edits.len()]);
    edits.insert(at, end);
    edits
}

/// Another capacity in the network itself, which the lane's does not follow.
fn own_capacity(random: &mut Random, lane: &Lane) -> Edit {
    let number = random.below(usize::from(lane.network.channels));
    let capacity = random.between(1, CAPACITY.into()) as u16;
    Edit::Record(number, Record { capacity, ..lane.network.records[number] })
}

/// A byte of the code that may be another one, or an instruction more at the
/// end.
fn code_byte(random: &mut Random, lane: &Lane) -> Option<Edit> {
    let last = usize::from(lane.network.processes) - 1;
    let slot = lane.network.slots[last];
    let longer = Edit::Slot(last, Slot { count: slot.count + 1, ..slot });
    let mut any = || {
        let place = random.below(4 * lane.network.total());
        let byte = random.byte();
        Edit::Byte(place, random.one(&[byte, byte % 8, byte % 32]))
    };
    let edits = [any(), any(), any(), any(), any(), longer];
    edits.into_iter().find(|&edit| {
        let mut edited = lane.clone();
        edited.edit(edit);
        edited.is_sound()
    })
}

/// Processes that wait for one another in a chain, until one comes twice or can
/// wait for none: mostly a ring, with full waits at any capacity.
pub fn jam(random: &mut Random, lane: &Lane) -> Vec<Edit> {
    let ends = Ends::of(usize::from(lane.network.processes), lane.network.used_records());
    let any = random.between(1, CAPACITY.into()) as u16;
    let capacities =
        random.one(&[[256, 256], [256, 256], [255, 256], [1, 1], [1, 2], [any, any], [any, 256]]);
    let mut processes = Vec::new();
    let mut channels = Vec::new();
    let mut at = random.below(ends.len());
    let mut met = [false; PROCESSES];
    while !met[at] {
        met[at] = true;
        let (process, wait) = stand(random, lane, at, &capacities, &channels);
        processes.push(process);
        let Some((channel, other)) = wait else { break };
        channels.push(channel);
        at = other;
    }
    // The processes first: a live one asks nothing of its channels.
    processes.extend(channels);
    processes
}

/// Each process waits for another, where it can, but for a few that stay where they
/// are: mostly several rings at once, with tails that lead into them, and with full
/// waits at any capacities.
pub fn standstill(random: &mut Random, lane: &Lane) -> Vec<Edit> {
    let any = random.between(1, CAPACITY.into()) as u16;
    let capacities = random.one(&[
        [256, 256, 256, 256],
        [256, 256, 256, 1],
        [256, 256, 255, 255],
        [256, 1, 2, 3],
        [any, any, 1, 256],
    ]);
    let mut order: Vec<usize> = (0..lane.network.processes.into()).collect();
    random.shuffle(&mut order);
    let mut processes = Vec::new();
    let mut channels = Vec::new();
    for number in order {
        if random.percent(10) {
            let Process { position, moves, .. } = lane.processes[number];
            let condition = Condition::Live;
            processes.push(Edit::Process { number, position, condition, moves });
        } else {
            let (process, wait) = stand(random, lane, number, &capacities, &channels);
            processes.push(process);
            channels.extend(wait.map(|(channel, _)| channel));
        }
    }
    processes.extend(channels);
    processes
}

/// Lets a process live, and brings it to where it waits for another, if it can on a
/// channel other than these. Answers the edit of the process, and where it waits
/// that of the channel, with the other process.
fn stand(
    random: &mut Random,
    lane: &Lane,
    at: usize,
    capacities: &[u16],
    channels: &[Edit],
) -> (Edit, Option<(Edit, usize)>) {
    let used = |channel: u8| {
        let number = usize::from(channel);
        channels.iter().any(|edit| matches!(edit, Edit::Channel(other, _) if *other == number))
    };
    let waits = waits(lane, at, used);
    let wait = (!waits.is_empty()).then(|| random.one(&waits));
    let Process { position, moves, .. } = lane.processes[at];
    let position = wait.map_or(position, |(position, ..)| position);
    let process = Edit::Process { number: at, position, condition: Condition::Live, moves };
    let Some((_, op, number)) = wait else { return (process, None) };
    let number = usize::from(number);
    let oldest = oldest(random, lane, number);
    let record = lane.network.records[number];
    let (capacity, held, other) = if op == 12 {
        let capacity = random.one(capacities);
        (capacity, capacity, record.receiver)
    } else {
        (lane.channels[number].capacity, 0, record.sender)
    };
    let peak = peak(random, held, capacity);
    let channel = Channel { capacity, oldest, held, peak, closed: false };
    (process, Some((Edit::Channel(number, channel), other.into())))
}

/// The positions at which a process can wait for another, with op and channel.
fn waits(lane: &Lane, process: usize, used: impl Fn(u8) -> bool) -> Vec<(u16, u8, u8)> {
    let waits = |i: &Instruction| {
        let record = || lane.network.records[usize::from(i.b)];
        let other = match i.op {
            11 => record().sender,
            12 => record().receiver,
            _ => OUTSIDE,
        };
        other != OUTSIDE && !used(i.b)
    };
    let first = lane.network.slots[process].first;
    let at = |position: u16| lane.network.code[usize::from(first + position)];
    let positions = positions(lane, process, waits).into_iter();
    positions.map(|position| (position, at(position).op, at(position).b)).collect()
}
