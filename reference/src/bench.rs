//! The bench: one lane file, one input, one order of picks, and a listing.

use crate::calls::{Answer, Taken};
use crate::file;
use crate::lane::{Cells, Condition, Lane, Wait, CELLS};
use crate::network::{CHANNELS, OUTSIDE};
use crate::refusal::Refusal;
use crate::relief::Ring;
use crate::schedule::{test_picks, RELIEF};

/// The least length of the buffer for the listing.
pub const LISTING: usize = 65_536;
/// Most bytes of input: 4,096 records.
pub const INPUT: usize = 20_480;
/// Bytes of one input record: the channel and the value.
pub const INPUT_RECORD: usize = 5;
/// Most pick bytes.
pub const PICKS: usize = 3_000;

/// One who looks on while the bench works.
pub trait Watch {
    fn picking(&mut self, _lane: &Lane, _process: usize) {}
    fn picked(&mut self, _answer: Answer) {}
    fn relieving(&mut self, _lane: &Lane) {}
    fn relieved(&mut self, _answer: Result<Ring, Refusal>) {}
}

/// Nobody looks on.
impl Watch for () {}

/// Plays the picks on a fresh lane and answers how many bytes of the buffer the
/// listing takes. A refusal leaves the buffer as it came.
pub fn bench(
    file: &[u8],
    input: &[u8],
    picks: &[u8],
    listing: &mut [u8],
) -> Result<usize, Refusal> {
    bench_watched(file, input, picks, listing, &mut ())
}

pub fn bench_watched(
    file: &[u8],
    input: &[u8],
    picks: &[u8],
    listing: &mut [u8],
    watch: &mut impl Watch,
) -> Result<usize, Refusal> {
    if listing.len() < LISTING {
        return Err(Refusal::Buffer);
    }
    let network = file::read(file).map_err(|misfit| misfit.refusal)?;
    let mut lane = Lane::fresh(network);
    test_input(&lane, input)?;
    if picks.len() > PICKS {
        return Err(Refusal::Input);
    }
    test_picks(&lane, picks)?;

    let mut listing = Listing { buffer: listing, length: 0 };
    let mut cells: Cells = [0; CELLS];
    let mut inputs = inputs(&lane, input);
    let mut outputs = outputs(&lane);
    for &byte in picks {
        for input in &mut inputs {
            input.advance(&mut lane, &mut cells);
        }
        if byte == RELIEF {
            watch.relieving(&lane);
            let answer = lane.relieve();
            watch.relieved(answer);
            if let Ok(ring) = answer {
                let capacity = lane.channels[usize::from(ring.channel)].capacity;
                listing.line(b"grow", &[i32::from(ring.channel), i32::from(capacity)]);
            }
        } else {
            watch.picking(&lane, usize::from(byte));
            watch.picked(lane.step(&mut cells, usize::from(byte)));
        }
        for output in &mut outputs {
            output.empty(&mut lane, &cells, &mut listing);
        }
    }
    for process in 0..usize::from(lane.network.processes) {
        listing.process(&lane, process);
    }
    Ok(listing.length)
}

/// What is still to be fed on one channel from outside.
struct Input {
    channel: u8,
    /// The values still to come, the next one last.
    values: Vec<i32>,
    closed: bool,
}

impl Input {
    /// Feeds until the channel is full or the values are spent, and then closes.
    fn advance(&mut self, lane: &mut Lane, cells: &mut Cells) {
        while let Some(&value) = self.values.last() {
            if lane.put_outside(cells, self.channel, value).is_err() {
                return;
            }
            self.values.pop();
        }
        if !self.closed {
            self.closed = lane.close_outside(self.channel).is_ok();
        }
    }
}

/// Whether the input is whole records, not too many, each for a channel from
/// outside.
fn test_input(lane: &Lane, input: &[u8]) -> Result<(), Refusal> {
    let known = |record: &[u8]| {
        let record = lane.network.used_records().get(usize::from(record[0]));
        record.is_some_and(|record| record.sender == OUTSIDE)
    };
    if input.len() > INPUT
        || input.len() % INPUT_RECORD != 0
        || !input.chunks_exact(INPUT_RECORD).all(known)
    {
        return Err(Refusal::Input);
    }
    Ok(())
}

/// The channels from outside, rising, each with its values.
fn inputs(lane: &Lane, input: &[u8]) -> Vec<Input> {
    let mut index = [0; CHANNELS];
    let mut inputs = Vec::new();
    for (channel, record) in lane.network.used_records().iter().enumerate() {
        if record.sender == OUTSIDE {
            index[channel] = inputs.len();
            inputs.push(Input { channel: channel as u8, values: Vec::new(), closed: false });
        }
    }
    for record in input.chunks_exact(INPUT_RECORD).rev() {
        let value = i32::from_be_bytes([record[1], record[2], record[3], record[4]]);
        inputs[index[usize::from(record[0])]].values.push(value);
    }
    inputs
}

/// A channel to outside.
struct Output {
    channel: u8,
    ended: bool,
}

impl Output {
    /// Takes all messages, and the end if it is there for the first time.
    fn empty(&mut self, lane: &mut Lane, cells: &Cells, listing: &mut Listing) {
        while !self.ended {
            match lane.get_outside(cells, self.channel) {
                Ok(Taken::Value(value)) => {
                    listing.line(b"out", &[i32::from(self.channel), value]);
                }
                Ok(Taken::End) => {
                    listing.line(b"end", &[i32::from(self.channel)]);
                    self.ended = true;
                }
                Err(_) => return,
            }
        }
    }
}

/// The channels to outside, rising.
fn outputs(lane: &Lane) -> Vec<Output> {
    let records = lane.network.used_records().iter().enumerate();
    let outside = records.filter(|(_, record)| record.receiver == OUTSIDE);
    outside.map(|(channel, _)| Output { channel: channel as u8, ended: false }).collect()
}

/// The listing, and how much of its buffer is written.
struct Listing<'a> {
    buffer: &'a mut [u8],
    length: usize,
}

impl Listing<'_> {
    fn text(&mut self, text: &[u8]) {
        self.buffer[self.length..self.length + text.len()].copy_from_slice(text);
        self.length += text.len();
    }

    fn magnitude(&mut self, mut number: u64) {
        let mut digits = [0; 20];
        let mut first = digits.len();
        loop {
            first -= 1;
            digits[first] = b'0' + (number % 10) as u8;
            number /= 10;
            if number == 0 {
                break;
            }
        }
        self.text(&digits[first..]);
    }

    /// A word, then numbers, each after a space, then the end of the line.
    fn line(&mut self, word: &[u8], numbers: &[i32]) {
        self.text(word);
        for &number in numbers {
            self.text(if number < 0 { b" -" } else { b" " });
            self.magnitude(u64::from(number.unsigned_abs()));
        }
        self.text(b"\n");
    }

    fn process(&mut self, lane: &Lane, process: usize) {
        let condition: &[u8] = match (lane.processes[process].condition, lane.wait(process)) {
            (Condition::Stopped, _) => b" stop ",
            (Condition::Faulted, _) => b" fault ",
            (Condition::Live, Some(Wait::Empty(_))) => b" empty ",
            (Condition::Live, Some(Wait::Full(_))) => b" full ",
            (Condition::Live, None) => b" run ",
        };
        self.text(b"proc ");
        self.magnitude(process as u64);
        self.text(condition);
        self.magnitude(lane.processes[process].moves);
        self.text(b"\n");
    }
}
