//! The calls on a lane: pick, feed, a burst of feeds, close and take. A refused
//! call leaves lane and cells as they came; of a burst that is said of the value
//! refused.

use crate::lane::{Cells, Condition, Lane};
use crate::network::OUTSIDE;
use crate::refusal::Refusal;

/// The answer of a pick. A wait names its channel.
#[derive(Clone, Copy, PartialEq, Eq, Debug)]
pub enum Answer {
    Moved,
    WaitingEmpty(u8),
    WaitingFull(u8),
    Ended,
}

/// The answer of a take.
#[derive(Clone, Copy, PartialEq, Eq, Debug)]
pub enum Taken {
    Value(i32),
    End,
}

/// The answer of a burst.
#[derive(Clone, Copy, PartialEq, Eq, Debug)]
pub struct Burst {
    /// How many values went in.
    pub fed: usize,
    /// The refusal of the first value that did not, or of an empty list.
    pub refused: Option<Refusal>,
}

/// Does one instruction of one process.
pub fn pick(lane: &mut Lane, cells: &mut [i32], process: usize) -> Result<Answer, Refusal> {
    let cells = cells.try_into().map_err(|_| Refusal::Buffer)?;
    test_sound(lane)?;
    if process >= usize::from(lane.network.processes) {
        return Err(Refusal::Absent);
    }
    Ok(lane.step(cells, process))
}

/// Sends a value on a channel from outside.
pub fn feed(lane: &mut Lane, cells: &mut [i32], channel: usize, value: i32) -> Result<(), Refusal> {
    let (cells, channel) = test_feed(lane, cells, channel)?;
    lane.put_outside(cells, channel, value)
}

/// Sends values on a channel from outside, one after the other, until one is
/// refused. Of an empty list only what does not hang on full or closed is tested.
pub fn burst(lane: &mut Lane, cells: &mut [i32], channel: usize, values: &[i32]) -> Burst {
    match test_feed(lane, cells, channel) {
        Ok((cells, channel)) => lane.put_all_outside(cells, channel, values),
        Err(refusal) => Burst { fed: 0, refused: Some(refusal) },
    }
}

/// Closes a channel from outside.
pub fn close(lane: &mut Lane, channel: usize) -> Result<(), Refusal> {
    test_sound(lane)?;
    let channel = channel_from_outside(lane, channel)?;
    lane.close_outside(channel)
}

/// Takes the oldest message, or the end, from a channel to outside.
pub fn take(lane: &mut Lane, cells: &[i32], channel: usize) -> Result<Taken, Refusal> {
    let cells = cells.try_into().map_err(|_| Refusal::Buffer)?;
    test_sound(lane)?;
    let record = lane.network.used_records().get(channel).ok_or(Refusal::Absent)?;
    if record.receiver != OUTSIDE {
        return Err(Refusal::Inside);
    }
    lane.get_outside(cells, channel as u8)
}

pub(crate) fn test_sound(lane: &Lane) -> Result<(), Refusal> {
    lane.is_sound().then_some(()).ok_or(Refusal::Unsound)
}

/// The tests of a feed that come before closed and full.
fn test_feed<'a>(
    lane: &Lane,
    cells: &'a mut [i32],
    channel: usize,
) -> Result<(&'a mut Cells, u8), Refusal> {
    let cells = cells.try_into().map_err(|_| Refusal::Buffer)?;
    test_sound(lane)?;
    Ok((cells, channel_from_outside(lane, channel)?))
}

fn channel_from_outside(lane: &Lane, channel: usize) -> Result<u8, Refusal> {
    let record = lane.network.used_records().get(channel).ok_or(Refusal::Absent)?;
    if record.sender != OUTSIDE {
        return Err(Refusal::Inside);
    }
    Ok(channel as u8)
}

/// The same on a lane that is known to be sound and has the process or the
/// channel.
impl Lane {
    /// One pick. It is to stand in the loop of a run, without a call.
    #[inline(always)]
    pub(crate) fn step(&mut self, cells: &mut Cells, number: usize) -> Answer {
        let process = &mut self.processes[number];
        if process.condition != Condition::Live {
            return Answer::Ended;
        }
        let first = self.network.slots[number].first;
        let i = self.network.code[usize::from(first + process.position)];
        let (a, b, c) = (usize::from(i.a), usize::from(i.b), usize::from(i.c));
        let registers = &mut process.registers;
        let mut next = process.position + 1;
        match i.op {
            0 => return self.end(number, Condition::Stopped),
            1 => registers[a] = i32::from(i16::from_be_bytes([i.b, i.c])),
            2 => registers[a] = registers[b],
            3 => registers[a] = registers[b].wrapping_add(registers[c]),
            4 => registers[a] = registers[b].wrapping_sub(registers[c]),
            5 => registers[a] = registers[b].wrapping_mul(registers[c]),
            6 if registers[c] != 0 => registers[a] = divided(registers[b], registers[c]).0,
            7 if registers[c] != 0 => registers[a] = divided(registers[b], registers[c]).1,
            8 => next = u16::from(i.c),
            9 => {
                if registers[a] == 0 {
                    next = u16::from(i.c);
                }
            }
            10 => {
                if registers[a] < 0 {
                    next = u16::from(i.c);
                }
            }
            11 => {
                let channel = &mut self.channels[b];
                if channel.held > 0 {
                    registers[a] = channel.get(cells, i.b);
                } else if channel.closed {
                    next = u16::from(i.c);
                } else {
                    return Answer::WaitingEmpty(i.b);
                }
            }
            12 if !self.channels[b].closed => {
                let value = registers[a];
                if !self.is_unheard(i.b) {
                    let channel = &mut self.channels[b];
                    if channel.is_full() {
                        return Answer::WaitingFull(i.b);
                    }
                    channel.put(cells, i.b, value);
                }
            }
            13 if !self.channels[b].closed => self.channels[b].closed = true,
            // A zero divisor, or a channel already closed.
            _ => return self.end(number, Condition::Faulted),
        }
        let process = &mut self.processes[number];
        process.position = next;
        process.moves = process.moves.saturating_add(1);
        Answer::Moved
    }

    /// A process ends: its outgoing channels close, its incoming ones empty.
    #[cold]
    #[inline(never)]
    fn end(&mut self, number: usize, condition: Condition) -> Answer {
        let process = &mut self.processes[number];
        process.condition = condition;
        process.moves = process.moves.saturating_add(1);
        for (channel, record) in self.channels.iter_mut().zip(self.network.used_records()) {
            if usize::from(record.sender) == number {
                channel.closed = true;
            }
            if usize::from(record.receiver) == number {
                channel.held = 0;
            }
        }
        Answer::Moved
    }

    pub(crate) fn put_outside(
        &mut self,
        cells: &mut Cells,
        number: u8,
        value: i32,
    ) -> Result<(), Refusal> {
        let unheard = self.is_unheard(number);
        let channel = &mut self.channels[usize::from(number)];
        if channel.closed {
            return Err(Refusal::Closed);
        }
        if !unheard {
            if channel.is_full() {
                return Err(Refusal::Full);
            }
            channel.put(cells, number, value);
        }
        self.count_call();
        Ok(())
    }

    /// Whether the channel is closed or unheard cannot change on the way, so that is
    /// looked at once.
    fn put_all_outside(&mut self, cells: &mut Cells, number: u8, values: &[i32]) -> Burst {
        let unheard = self.is_unheard(number);
        let channel = &mut self.channels[usize::from(number)];
        if channel.closed && !values.is_empty() {
            return Burst { fed: 0, refused: Some(Refusal::Closed) };
        }
        for (fed, &value) in values.iter().enumerate() {
            if !unheard {
                if channel.is_full() {
                    return Burst { fed, refused: Some(Refusal::Full) };
                }
                channel.put(cells, number, value);
            }
            self.accepted = self.accepted.saturating_add(1);
        }
        Burst { fed: values.len(), refused: None }
    }

    pub(crate) fn close_outside(&mut self, number: u8) -> Result<(), Refusal> {
        let channel = &mut self.channels[usize::from(number)];
        if channel.closed {
            return Err(Refusal::Closed);
        }
        channel.closed = true;
        self.count_call();
        Ok(())
    }

    pub(crate) fn get_outside(&mut self, cells: &Cells, number: u8) -> Result<Taken, Refusal> {
        let channel = &mut self.channels[usize::from(number)];
        let taken = if channel.held > 0 {
            Taken::Value(channel.get(cells, number))
        } else if channel.closed {
            Taken::End
        } else {
            return Err(Refusal::Empty);
        };
        self.count_call();
        Ok(taken)
    }

    pub(crate) fn count_call(&mut self) {
        self.accepted = self.accepted.saturating_add(1);
    }
}

/// The quotient rounded toward minus infinity, and the remainder that belongs to
/// it: zero, or of the divisor's sign. The divisor is not zero.
#[inline(always)]
fn divided(dividend: i32, divisor: i32) -> (i32, i32) {
    if divisor == -1 {
        // The negative of the least number wraps, and is that number again.
        return (dividend.wrapping_neg(), 0);
    }
    // Rust cuts toward zero, which lies one too high for a quotient below zero
    // that is not whole.
    let (quotient, rest) = (dividend / divisor, dividend % divisor);
    if rest != 0 && (rest < 0) != (divisor < 0) {
        (quotient - 1, rest + divisor)
    } else {
        (quotient, rest)
    }
}
