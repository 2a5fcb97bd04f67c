//! The plain order: all input present and closed, processes in turn, one
//! instruction each, channels that never fill.
//!
//! What the instructions mean is written out here a second time, in other
//! words than in `calls`: a slip in one of the two shows when lanes and the
//! plain order are held against each other.

use crate::lane::{Condition, Process};
use crate::network::{Instruction, Network, OUTSIDE};

/// A channel with all that was ever sent on it.
#[derive(Clone, PartialEq, Eq, Debug, Default)]
pub struct Stream {
    pub sent: Vec<i32>,
    pub received: usize,
    pub closed: bool,
}

pub struct Plain<'a> {
    network: &'a Network,
    pub processes: Vec<Process>,
    pub streams: Vec<Stream>,
}

impl Plain<'_> {
    /// The start: `input` has one list for each channel; only those for
    /// channels from outside count.
    pub fn start<'a>(network: &'a Network, input: &[Vec<i32>]) -> Plain<'a> {
        let stream = |(record, values): (&crate::network::Record, &Vec<i32>)| {
            if record.sender == OUTSIDE {
                Stream { sent: values.clone(), received: 0, closed: true }
            } else {
                Stream::default()
            }
        };
        Plain {
            network,
            processes: vec![Process::default(); usize::from(network.processes)],
            streams: network.used_records().iter().zip(input).map(stream).collect(),
        }
    }

    /// Processes 0 to P − 1 do one instruction each.
    pub fn round(&mut self) {
        for number in 0..self.processes.len() {
            if self.processes[number].condition == Condition::Live {
                self.one(number);
            }
        }
    }

    fn one(&mut self, number: usize) {
        let mut process = self.processes[number];
        let Instruction { op, a, b, c } = self.network.code
            [usize::from(self.network.slots[number].first) + usize::from(process.position)];
        let (a, b, c) = (usize::from(a), usize::from(b), usize::from(c));
        let value = |register: usize| i64::from(process.registers[register]);
        let mut jump = None;
        let mut end = None;
        match op {
            0 => end = Some(Condition::Stopped),
            1 => {
                let unsigned = 256 * b as i32 + c as i32;
                process.registers[a] = if unsigned < 32_768 { unsigned } else { unsigned - 65_536 };
            }
            2 => process.registers[a] = process.registers[b],
            3 => process.registers[a] = wrapped(value(b) + value(c)),
            4 => process.registers[a] = wrapped(value(b) - value(c)),
            5 => process.registers[a] = wrapped(value(b) * value(c)),
            6 | 7 => {
                let (dividend, divisor) = (value(b), value(c));
                if divisor == 0 {
                    end = Some(Condition::Faulted);
                } else {
                    let quotient = rounded_down(dividend, divisor);
                    let remainder = dividend - divisor * quotient;
                    process.registers[a] = wrapped(if op == 6 { quotient } else { remainder });
                }
            }
            8 => jump = Some(c),
            9 if value(a) == 0 => jump = Some(c),
            10 if value(a) < 0 => jump = Some(c),
            9 | 10 => {}
            11 => {
                let stream = &mut self.streams[b];
                if let Some(&message) = stream.sent.get(stream.received) {
                    stream.received += 1;
                    process.registers[a] = message;
                } else if stream.closed {
                    jump = Some(c);
                } else {
                    return;
                }
            }
            12 if self.streams[b].closed => end = Some(Condition::Faulted),
            12 => self.streams[b].sent.push(process.registers[a]),
            13 if self.streams[b].closed => end = Some(Condition::Faulted),
            13 => self.streams[b].closed = true,
            _ => unreachable!("no such instruction in a network that fits"),
        }
        process.moves = process.moves.saturating_add(1);
        match end {
            Some(condition) => {
                process.condition = condition;
                for (record, stream) in self.network.used_records().iter().zip(&mut self.streams) {
                    stream.closed |= usize::from(record.sender) == number;
                }
            }
            None => process.position = jump.map_or(process.position + 1, |target| target as u16),
        }
        self.processes[number] = process;
    }
}

/// The quotient of two 32-bit numbers, rounded toward minus infinity. 53 bits
/// are enough: a whole quotient comes out as it is. Any other lies 1 / |divisor|
/// or more away from every whole number and comes out wrong by |quotient| / 2^53
/// at most, which is far less, since |dividend| is at most 2^31.
fn rounded_down(dividend: i64, divisor: i64) -> i64 {
    (dividend as f64 / divisor as f64).floor() as i64
}

/// The 32-bit number that stands for this one when sums and products wrap.
fn wrapped(number: i64) -> i32 {
    let range = 1_i64 << 32;
    let rest = number.rem_euclid(range);
    (if rest < range / 2 { rest } else { rest - range }) as i32
}
