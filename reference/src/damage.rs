//! Damage to files, inputs and picks, aimed at every clause of the refusals.
//! The checks of a damaged file are mostly mended, so that what lies behind
//! them is reached.

use crate::bench::{INPUT, INPUT_RECORD, PICKS};
use crate::file::{mend, BLOCK, BLOCK_NUMBER, CHECKED, RECORDS, SLOTS};
use crate::network::*;
use crate::programs::{allowed_with, Ends};
use crate::random::Random;

/// Damages a good lane file in one place or in several.
pub fn file(random: &mut Random, network: &Network, bytes: &mut Vec<u8>) {
    let damages = if random.percent(70) { 1 } else { random.between(2, 4) };
    let mut clauses = Vec::new();
    for _ in 0..damages {
        clauses.push(random.one(&[1, 2, 3, 3, 4, 4, 5, 5, 6, 6, 7, 7, 7, 7, 7, 8]));
    }
    for &clause in clauses.iter().filter(|&&clause| clause > 2) {
        match clause {
            3 => header(random, bytes),
            4 if random.percent(15) => too_many(bytes),
            4 => slot(random, bytes),
            5 => record(random, bytes),
            6 => filler(random, bytes),
            7 => instruction(random, network, bytes),
            _ => anything(random, bytes),
        }
    }
    match random.below(12) {
        0 => {}
        1 => {
            let block = BLOCK * random.below(bytes.len() / BLOCK);
            mend(&mut bytes[block..block + BLOCK]);
        }
        _ => mend(bytes),
    }
    if clauses.contains(&2) {
        spoil_check(random, bytes);
    }
    if clauses.contains(&1) {
        length(random, bytes);
    }
}

fn length(random: &mut Random, bytes: &mut Vec<u8>) {
    let length = match random.below(8) {
        0 => 0,
        1 => BLOCK,
        2 => BLOCK * 10,
        3 => bytes.len() + 1,
        4 => bytes.len() - 1,
        5 => bytes.len() - BLOCK,
        6 => BLOCK * random.between(1, 12) + random.one(&[0, 1, 256, 511]),
        _ => random.below(6_000),
    };
    bytes.resize(length, 0);
    if random.percent(50) {
        mend(bytes);
    }
}

fn spoil_check(random: &mut Random, bytes: &mut [u8]) {
    for _ in 0..random.between(1, 2) {
        let block = BLOCK * random.below(bytes.len() / BLOCK);
        let at = match random.below(3) {
            0 => block + random.between(CHECKED, CHECKED + 1),
            1 => block + random.between(CHECKED - 4, CHECKED - 1),
            _ => block + random.below(CHECKED),
        };
        bytes[at] ^= 1 << random.below(8);
    }
}

fn header(random: &mut Random, bytes: &mut Vec<u8>) {
    let at = random.below(6);
    bytes[at] = match random.below(5) {
        0 => random.byte(),
        1 => bytes[at].wrapping_add(1),
        2 => bytes[at].wrapping_sub(1),
        3 => [0, 0, 0, 17, 33, 9][at],
        _ => 0,
    };
    // A file with a block more or less, with the number of blocks made to suit.
    if at == 5 && random.percent(60) {
        if random.percent(50) && bytes.len() < 9 * BLOCK {
            let block = bytes.len();
            bytes.resize(block + BLOCK, 0);
            bytes[block + BLOCK_NUMBER + 1] = (block / BLOCK) as u8;
        } else if bytes.len() > 2 * BLOCK {
            bytes.truncate(bytes.len() - BLOCK);
        }
        bytes[5] = (bytes.len() / BLOCK - 1) as u8;
    }
}

fn slot(random: &mut Random, bytes: &mut [u8]) {
    let process = random.below(usize::from(bytes[3]).clamp(1, PROCESSES));
    let at = SLOTS + 4 * process;
    let (field, number) = match random.below(6) {
        0 => (at + 2, random.one(&[0, 0, 257, 257, 256, 65_535, 512])),
        1 => (at, random.one(&[0, 1, 127, 256, 1_016, 65_535])),
        2 => (at, pair(bytes, at).wrapping_add(1)),
        3 => (at, pair(bytes, at).wrapping_sub(1)),
        4 => (at + 2, pair(bytes, at + 2).wrapping_add(random.between(1, 3) as u16)),
        _ => (at + 2, pair(bytes, at + 2).wrapping_sub(random.between(1, 3) as u16)),
    };
    put_pair(bytes, field, number);
}

/// Gives the last process 257 instructions, with the code blocks made to suit.
fn too_many(bytes: &mut Vec<u8>) {
    let slot = SLOTS + 4 * (usize::from(bytes[3]).clamp(1, PROCESSES) - 1);
    let count = COUNT + 1;
    let total = usize::from(pair(bytes, slot)) + usize::from(count);
    let code_blocks = total.div_ceil(PER_BLOCK);
    if code_blocks <= 8 && bytes.len() <= BLOCK * (1 + code_blocks) {
        put_pair(bytes, slot + 2, count);
        bytes.resize(BLOCK * (1 + code_blocks), 0);
        bytes[5] = code_blocks as u8;
        for (number, block) in bytes.chunks_exact_mut(BLOCK).enumerate().skip(1) {
            put_pair(block, BLOCK_NUMBER, number as u16);
        }
    }
}

fn record(random: &mut Random, bytes: &mut [u8]) {
    let processes = bytes[3];
    let channel = random.below(usize::from(bytes[4]).clamp(1, CHANNELS));
    let at = RECORDS + 4 * channel;
    let end = at + random.below(2);
    match random.below(7) {
        0 => bytes[end] = processes,
        1 => bytes[end] = random.one(&[16, 17, 128, 254]),
        2 => bytes[end] = OUTSIDE,
        3 => bytes[at..at + 2].fill(OUTSIDE),
        4 => bytes.swap(at, at + 1),
        5 => put_pair(bytes, at + 2, random.one(&[0, 257, 512, 65_535, 256, 1])),
        _ => bytes[end] = random.below(usize::from(processes).max(1)) as u8,
    }
}

fn filler(random: &mut Random, bytes: &mut [u8]) {
    let used_slots = SLOTS + 4 * usize::from(bytes[3]).min(PROCESSES);
    let used_records = RECORDS + 4 * usize::from(bytes[4]).min(CHANNELS);
    let last = bytes.len() - BLOCK;
    let block = BLOCK * random.between(1, (bytes.len() / BLOCK - 1).max(1));
    let at = match random.below(8) {
        0 => random.between(6, 7),
        1 if used_slots < RECORDS => random.between(used_slots, RECORDS - 1),
        2 => random.between(used_records, CHECKED - 1),
        3 => CHECKED - 1,
        4 => block + BLOCK_NUMBER,
        5 => block + BLOCK_NUMBER + 1,
        6 => last + BLOCK_NUMBER - random.between(1, 4),
        _ => last + random.between(0, BLOCK_NUMBER - 1),
    };
    if random.percent(50) {
        bytes[at] ^= 1 << random.below(8);
    } else {
        bytes[at] = bytes[at].wrapping_add(random.one(&[1, 255]));
    }
}

/// Puts another instruction in the place of one: an allowed one with one field
/// changed, one that may not be the last, or one with a wrong op.
fn instruction(random: &mut Random, network: &Network, bytes: &mut [u8]) {
    let process = random.below(usize::from(network.processes));
    let ends = Ends::of(usize::from(network.processes), network.used_records());
    let Slot { first, count } = network.slots[process];
    let last = random.percent(30);
    let number =
        usize::from(first) + if last { usize::from(count) - 1 } else { random.below(count.into()) };
    let at = BLOCK * (1 + number / PER_BLOCK) + 4 * (number % PER_BLOCK);
    let Some(place) = bytes.get_mut(at..at + 4) else { return };
    let op = random.below(14) as u8;
    let Some(i) = allowed_with(random, &ends[process], count.into(), op) else { return };
    let mut fields = [i.op, i.a, i.b, i.c];
    match random.below(8) {
        0 => fields = [random.one(&[14, 14, 15, 128, 255]), 0, 0, 0],
        1 => fields[0] = random.one(&[14, 14, 15, 128, 255]),
        2 if last => {}
        3 => fields[3] = count as u8,
        4 => fields[random.between(1, 3)] = random.one(&[network.channels, network.channels - 1]),
        _ => {
            fields[random.between(1, 3)] = random.one(&[0, 1, 2, 7, 8, 8, 9, 16, 31, 32, 128, 255])
        }
    }
    place.copy_from_slice(&fields);
}

/// Any byte, or a whole block, or everything behind the header.
fn anything(random: &mut Random, bytes: &mut [u8]) {
    let range = match random.below(8) {
        0 => BLOCK..bytes.len(),
        1 => SLOTS..bytes.len(),
        2 => 0..bytes.len(),
        _ => {
            let at = random.below(bytes.len());
            at..at + 1
        }
    };
    for byte in &mut bytes[range] {
        *byte = random.byte();
    }
}

/// Makes an input one that must be refused.
pub fn input(random: &mut Random, network: &Network, input: &mut Vec<u8>) {
    let channel = |record: &Record| record.sender != OUTSIDE;
    let inside: Vec<u8> =
        (0..).zip(network.used_records()).filter(|(_, r)| channel(r)).map(|(c, _)| c).collect();
    match random.below(5) {
        // Not whole records.
        0 => input.truncate(input.len().saturating_sub(random.between(1, 4))),
        1 => input.resize((input.len() + random.between(1, 4)).min(INPUT + 4), 0),
        // Too long.
        2 => {
            let channel = crate::gen::fed(network).first().copied().unwrap_or(0);
            let length = random.one(&[INPUT + 5, INPUT + 5, INPUT + 1, INPUT + 4, 30_000]);
            input.resize(length, 0);
            for record in input.chunks_mut(INPUT_RECORD) {
                record[0] = channel;
            }
        }
        // A channel that is absent, or has its sender inside.
        kind => {
            let absent = random.between(usize::from(network.channels), 255) as u8;
            let channel = if kind == 3 || inside.is_empty() { absent } else { random.one(&inside) };
            let records = input.len() / INPUT_RECORD;
            let at = INPUT_RECORD * random.below(records + 1);
            if at == input.len() {
                input.extend([channel, 0, 0, 0, 1]);
            } else {
                input[at] = channel;
            }
        }
    }
}

/// Makes pick bytes such that must be refused.
pub fn picks(random: &mut Random, network: &Network, picks: &mut Vec<u8>) {
    let any = random.between(usize::from(network.processes), 254) as u8;
    let unknown = random.one(&[network.processes, 254, any]);
    match random.below(5) {
        0 => picks.resize(PICKS + 1, 0),
        1 => picks.resize(PICKS + random.between(1, 2_000), 255),
        // Too long and an unknown byte: 17 comes first.
        2 => picks.resize(PICKS + 1, unknown),
        _ => {
            let at = random.below(picks.len() + 1);
            if at == picks.len() && at == PICKS {
                picks[PICKS - 1] = unknown;
            } else {
                picks.insert(at, unknown);
                picks.truncate(PICKS);
            }
        }
    }
}

fn pair(bytes: &[u8], at: usize) -> u16 {
    u16::from_be_bytes([bytes[at], bytes[at + 1]])
}

fn put_pair(bytes: &mut [u8], at: usize, number: u16) {
    bytes[at..at + 2].copy_from_slice(&number.to_be_bytes());
}
