//! Lane files: blocks of 512 bytes, each ending in its check.

use crate::check::check;
use crate::network::*;
use crate::refusal::{Misfit, Refusal};
use std::ops::Range;

pub const BLOCK: usize = 512;
/// Bytes of a block that its check covers.
pub const CHECKED: usize = 510;
/// Where a code block's number stands.
pub const BLOCK_NUMBER: usize = 508;
/// Where the process slots start in block 0.
pub const SLOTS: usize = 8;
/// Where the channel records start in block 0.
pub const RECORDS: usize = 72;
/// The place of refusal 4 where the code blocks do not suit the total.
const TOTAL: usize = 16;

/// Reads a lane file, or says what is wrong with it and where.
pub fn read(bytes: &[u8]) -> Result<Network, Misfit> {
    let refuse = |refusal, place| Err(Misfit { refusal, place });
    let blocks = bytes.len() / BLOCK;
    if bytes.len() % BLOCK != 0 || !(2..=9).contains(&blocks) {
        return refuse(Refusal::Length, 0);
    }
    for (number, block) in bytes.chunks_exact(BLOCK).enumerate() {
        if check(&block[..CHECKED]) != pair(block, CHECKED) {
            return refuse(Refusal::Check, number);
        }
    }
    if let Some(place) = wrong_header(bytes, blocks - 1) {
        return refuse(Refusal::Header, place);
    }
    let network = decode(bytes);
    if let Some(slot) = network.wrong_slot() {
        return refuse(Refusal::Slot, slot);
    }
    if network.code_blocks() != blocks - 1 {
        return refuse(Refusal::Slot, TOTAL);
    }
    if let Some(record) = network.wrong_record() {
        return refuse(Refusal::Record, record);
    }
    if let Some(byte) = wrong_filler(bytes, &network) {
        return refuse(Refusal::Filler, byte);
    }
    if let Some(number) = network.wrong_instruction() {
        return refuse(Refusal::Instruction, number);
    }
    Ok(network)
}

/// Writes the network's lane file and answers its length.
pub fn write(network: &Network, bytes: &mut [u8]) -> Result<usize, Refusal> {
    if !network.fits() {
        return Err(Refusal::Unsound);
    }
    let blocks = 1 + network.code_blocks();
    let bytes = bytes.get_mut(..BLOCK * blocks).ok_or(Refusal::Buffer)?;
    bytes.fill(0);
    bytes[..6].copy_from_slice(&[
        0x4C,
        0x4E,
        1,
        network.processes,
        network.channels,
        (blocks - 1) as u8,
    ]);
    for (slot, at) in network.slots.iter().zip((SLOTS..).step_by(4)) {
        put_pair(bytes, at, slot.first);
        put_pair(bytes, at + 2, slot.count);
    }
    for (record, at) in network.records.iter().zip((RECORDS..).step_by(4)) {
        bytes[at] = record.sender;
        bytes[at + 1] = record.receiver;
        put_pair(bytes, at + 2, record.capacity);
    }
    let code_blocks = bytes[BLOCK..].chunks_exact_mut(BLOCK);
    for (number, (block, part)) in (1..).zip(code_blocks.zip(network.code.chunks(PER_BLOCK))) {
        for (field, i) in block.chunks_exact_mut(4).zip(part) {
            field.copy_from_slice(&[i.op, i.a, i.b, i.c]);
        }
        put_pair(block, BLOCK_NUMBER, number);
    }
    mend(bytes);
    Ok(bytes.len())
}

/// The lane file of a network that fits.
pub fn bytes_of(network: &Network) -> Vec<u8> {
    let mut bytes = vec![0; BLOCK * 9];
    let length = write(network, &mut bytes).expect("the network fits");
    bytes.truncate(length);
    bytes
}

/// Gives every whole block the check that it should have.
pub fn mend(bytes: &mut [u8]) {
    for block in bytes.chunks_exact_mut(BLOCK) {
        let right = check(&block[..CHECKED]);
        put_pair(block, CHECKED, right);
    }
}

/// The first of the bytes 0 to 5 that is wrong.
fn wrong_header(bytes: &[u8], code_blocks: usize) -> Option<usize> {
    let right = [
        bytes[0] == 0x4C,
        bytes[1] == 0x4E,
        bytes[2] == 1,
        (1..=PROCESSES).contains(&usize::from(bytes[3])),
        (1..=CHANNELS).contains(&usize::from(bytes[4])),
        usize::from(bytes[5]) == code_blocks,
    ];
    right.iter().position(|right| !right)
}

/// All that the file says, right or wrong, once its header is right.
fn decode(bytes: &[u8]) -> Network {
    let mut network = Network {
        processes: bytes[3],
        channels: bytes[4],
        slots: [Slot::default(); PROCESSES],
        records: [Record::default(); CHANNELS],
        code: [Instruction::default(); CODE],
    };
    for (slot, field) in network.slots.iter_mut().zip(bytes[SLOTS..RECORDS].chunks_exact(4)) {
        *slot = Slot { first: pair(field, 0), count: pair(field, 2) };
    }
    for (record, field) in network.records.iter_mut().zip(bytes[RECORDS..].chunks_exact(4)) {
        *record = Record { sender: field[0], receiver: field[1], capacity: pair(field, 2) };
    }
    let code_blocks = bytes[BLOCK..].chunks_exact(BLOCK);
    for (part, block) in network.code.chunks_exact_mut(PER_BLOCK).zip(code_blocks) {
        for (i, field) in part.iter_mut().zip(block.chunks_exact(4)) {
            *i = code(field[0], field[1], field[2], field[3]);
        }
    }
    network
}

/// The first byte in the file that must be zero and is not, or that is wrong
/// in a block number.
fn wrong_filler(bytes: &[u8], network: &Network) -> Option<usize> {
    let used_slots = SLOTS + 4 * usize::from(network.processes);
    let used_records = RECORDS + 4 * usize::from(network.channels);
    let header = not_zero(bytes, 6..SLOTS)
        .or_else(|| not_zero(bytes, used_slots..RECORDS))
        .or_else(|| not_zero(bytes, used_records..CHECKED));
    if header.is_some() {
        return header;
    }
    let mut unseen = network.total();
    for number in 1..bytes.len() / BLOCK {
        let start = BLOCK * number;
        let used = unseen.min(PER_BLOCK);
        unseen -= used;
        // A block number is at most 8, so its first byte is zero too.
        let zeros = start + 4 * used..start + BLOCK_NUMBER + 1;
        if let Some(byte) = not_zero(bytes, zeros) {
            return Some(byte);
        }
        if usize::from(bytes[start + BLOCK_NUMBER + 1]) != number {
            return Some(start + BLOCK_NUMBER + 1);
        }
    }
    None
}

fn not_zero(bytes: &[u8], range: Range<usize>) -> Option<usize> {
    let start = range.start;
    bytes[range].iter().position(|&byte| byte != 0).map(|offset| start + offset)
}

fn pair(bytes: &[u8], at: usize) -> u16 {
    u16::from_be_bytes([bytes[at], bytes[at + 1]])
}

fn put_pair(bytes: &mut [u8], at: usize, number: u16) {
    bytes[at..at + 2].copy_from_slice(&number.to_be_bytes());
}
