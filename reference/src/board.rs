//! A lane and all that happened on it: calls in any order and with any arguments,
//! of which those for the outside keep to its input.

use crate::bursts;
use crate::calls::{burst, close, feed, pick, take, Answer, Burst, Taken};
use crate::lane::{Cells, Lane};
use crate::network::{Network, OUTSIDE, PROCESSES};
use crate::random::Random;
use crate::refusal::Refusal;
use crate::relief::relieve;

/// How often picks, feeds, closings, takes, reliefs and bursts are made.
pub struct Leanings([usize; 6]);

impl Leanings {
    /// Each list of calls has its own.
    pub fn any(random: &mut Random) -> Leanings {
        Leanings([20, 5, 2, 5, 3, 2].map(|weight| random.between(0, weight)))
    }

    /// A kind of call, none where the draw falls to none.
    fn kind(&self, random: &mut Random) -> Option<usize> {
        let total: usize = self.0.iter().sum();
        let mut draw = random.below(total + 1);
        self.0.iter().position(|&weight| {
            let here = draw < weight;
            draw = draw.saturating_sub(weight);
            here
        })
    }
}

pub struct Board<'a> {
    pub lane: Lane,
    pub cells: Box<Cells>,
    /// A list for each channel, of which those from outside count.
    input: &'a [Vec<i32>],
    /// Picks that moved.
    pub moves: u64,
    /// Reliefs that enlarged.
    pub enlarged: u64,
    /// Values that bursts fed.
    pub in_bursts: usize,
    fed: Vec<usize>,
    closed: Vec<bool>,
    pub sent: Vec<Vec<i32>>,
    pub taken: Vec<Vec<i32>>,
    /// Refused calls, by the refusal's number.
    pub refused: [u64; 18],
    /// The calls as lines of a script.
    pub script: Vec<String>,
}

impl Board<'_> {
    /// A fresh lane.
    pub fn new<'a>(network: &Network, input: &'a [Vec<i32>], cells: Box<Cells>) -> Board<'a> {
        let channels = usize::from(network.channels);
        Board {
            lane: Lane::fresh(network.clone()),
            cells,
            input,
            moves: 0,
            enlarged: 0,
            in_bursts: 0,
            fed: vec![0; channels],
            closed: vec![false; channels],
            sent: vec![Vec::new(); channels],
            taken: vec![Vec::new(); channels],
            refused: [0; 18],
            script: Vec::new(),
        }
    }

    /// Puts down a call and counts its refusal.
    fn count<T>(&mut self, call: String, answer: Result<T, Refusal>) -> Option<T> {
        self.script.push(call);
        answer.map_err(|refusal| self.refused[usize::from(refusal.number())] += 1).ok()
    }

    pub fn pick(&mut self, process: usize) -> bool {
        let sending = if process < PROCESSES { self.lane.sending(process) } else { None };
        let answer = pick(&mut self.lane, &mut self.cells[..], process);
        let moved = self.count(format!("pick {process}"), answer) == Some(Answer::Moved);
        if moved {
            self.moves += 1;
            if let Some((channel, value)) = sending {
                self.sent[channel].push(value);
            }
        }
        moved
    }

    fn is_fed(&self, channel: usize) -> bool {
        self.lane.network.used_records().get(channel).is_some_and(|record| record.sender == OUTSIDE)
    }

    /// Feeds the next value of the input. Where there is none left, only a feed
    /// that must be refused is tried.
    pub fn feed(&mut self, channel: usize) -> bool {
        let value = match self.is_fed(channel) {
            false => 99,
            true => match self.input[channel].get(self.fed[channel]) {
                Some(&value) => value,
                None if self.closed[channel] => 99,
                None => return false,
            },
        };
        let answer = feed(&mut self.lane, &mut self.cells[..], channel, value);
        let accepted = self.count(format!("feed {channel} {value}"), answer).is_some();
        if accepted {
            self.sent[channel].push(value);
            self.fed[channel] += 1;
        }
        accepted
    }

    /// A burst of the next values of the input, so many at the most. Where nothing
    /// can be fed, one that must be refused, unless it is empty.
    fn burst(&mut self, channel: usize, most: usize) {
        let input = self.input;
        let values = match self.is_fed(channel) && !self.closed[channel] {
            true => &input[channel][self.fed[channel]..],
            false => &[99; 8],
        };
        let values = &values[..most.min(values.len())];
        let Burst { fed, refused } = burst(&mut self.lane, &mut self.cells[..], channel, values);
        self.count(bursts::line(channel, values), refused.map_or(Ok(()), Err));
        if fed > 0 {
            self.sent[channel].extend(&values[..fed]);
            self.fed[channel] += fed;
            self.in_bursts += fed;
        }
    }

    /// Closes, but a channel from outside only after all its input.
    pub fn close(&mut self, channel: usize) -> bool {
        if self.is_fed(channel) && self.fed[channel] < self.input[channel].len() {
            return false;
        }
        let answer = close(&mut self.lane, channel);
        let accepted = self.count(format!("close {channel}"), answer).is_some();
        if accepted {
            self.closed[channel] = true;
        }
        accepted
    }

    fn take(&mut self, channel: usize) -> bool {
        let answer = take(&mut self.lane, &self.cells[..], channel);
        match self.count(format!("take {channel}"), answer) {
            Some(Taken::Value(value)) => {
                self.taken[channel].push(value);
                true
            }
            Some(Taken::End) | None => false,
        }
    }

    fn relieve(&mut self, buffer: usize) -> bool {
        let answer = relieve(&mut self.lane, &mut vec![0; buffer]);
        let enlarged = self.count(format!("relieve {buffer}"), answer).is_some();
        self.enlarged += u64::from(enlarged);
        enlarged
    }

    /// A call of any kind, or some picks of one process.
    pub fn any_call(&mut self, random: &mut Random, leanings: &Leanings) {
        let kind = leanings.kind(random);
        let channel = random.below(usize::from(self.lane.network.channels) + 2);
        match kind {
            Some(0) | None => {
                let absent = usize::from(random.percent(5));
                let process = random.below(usize::from(self.lane.network.processes) + absent);
                for _ in 0..random.between(1, 6) {
                    self.pick(process);
                }
            }
            Some(1) => _ = self.feed(channel),
            Some(2) => _ = self.close(channel),
            Some(3) => _ = self.take(channel),
            Some(4) => _ = self.relieve(random.below(18)),
            Some(_) => self.burst(channel, random.below(12)),
        }
    }

    /// Feeds, closes and takes all that can be, and picks each process once. Where
    /// nothing came of that, relief is tried. Answers whether anything was done.
    pub fn lap(&mut self) -> bool {
        let mut busy = false;
        for channel in 0..usize::from(self.lane.network.channels) {
            if self.is_fed(channel) && !self.closed[channel] {
                while self.feed(channel) {
                    busy = true;
                }
                busy |= self.close(channel);
            }
            if self.lane.network.records[channel].receiver == OUTSIDE {
                while self.take(channel) {
                    busy = true;
                }
            }
        }
        for process in 0..usize::from(self.lane.network.processes) {
            busy |= self.pick(process);
        }
        busy || self.relieve(PROCESSES)
    }

    /// Whether all input was fed and closed.
    pub fn has_all_input(&self) -> bool {
        (0..self.closed.len()).all(|channel| !self.is_fed(channel) || self.closed[channel])
    }
}
