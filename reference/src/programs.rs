//! Random programs for the processes of random lanes. Most of them pass
//! messages on, so that something happens in the lane.

use crate::network::{code, Instruction, Record};
use crate::random::Random;

/// The channels of one process.
#[derive(Clone, Default)]
pub struct Ends {
    pub incoming: Vec<u8>,
    pub outgoing: Vec<u8>,
}

impl Ends {
    /// The channels of each process of a network.
    pub fn of(processes: usize, channels: &[Record]) -> Vec<Ends> {
        let mut ends = vec![Ends::default(); processes];
        for (channel, record) in (0..).zip(channels) {
            if let Some(sender) = ends.get_mut(usize::from(record.sender)) {
                sender.outgoing.push(channel);
            }
            if let Some(receiver) = ends.get_mut(usize::from(record.receiver)) {
                receiver.incoming.push(channel);
            }
        }
        ends
    }
}

/// One thing that a process does in its turn.
#[derive(Clone, Copy, PartialEq, Debug)]
pub enum Turn {
    Send(u8),
    Receive(u8),
    Work,
}

/// How a process is programmed.
#[derive(Clone, PartialEq, Debug)]
pub enum Style {
    /// Receives, works and sends in some mixture.
    Worker,
    /// Random instructions that the rules allow.
    Wild,
    /// First these turns once, then those again and again, or so many times.
    Turns { before: Vec<Turn>, lap: Vec<Turn>, laps: Option<u8> },
}

/// Registers that programs work with. The two above them count laps.
const WORKING: usize = 6;
const LAPS_LEFT: u8 = 6;
const ONE: u8 = 7;

/// A program of at most so many instructions.
pub fn program(random: &mut Random, ends: &Ends, style: &Style, limit: usize) -> Vec<Instruction> {
    for _ in 0..4 {
        let mut writer = Writer { random, ends, code: Vec::new(), to_finish: Vec::new() };
        match style {
            Style::Worker => writer.worker(),
            Style::Wild => writer.wild(limit),
            Style::Turns { before, lap, laps } => writer.turns(before, lap, *laps),
        }
        if writer.code.len() <= limit {
            return writer.code;
        }
    }
    vec![Instruction::default()]
}

/// An instruction that the rules allow in a process of so many instructions.
pub fn allowed(random: &mut Random, ends: &Ends, count: usize) -> Instruction {
    loop {
        let op = random.below(14) as u8;
        // Stops and closings should not be too many.
        if op == 0 && random.percent(70) || op == 13 && random.percent(80) {
            continue;
        }
        if let Some(instruction) = allowed_with(random, ends, count, op) {
            return instruction;
        }
    }
}

/// The same with this op, unless it needs a channel that the process lacks.
pub fn allowed_with(random: &mut Random, ends: &Ends, count: usize, op: u8) -> Option<Instruction> {
    let [a, b, c] = [0; 3].map(|_: u8| random.below(8) as u8);
    let target = random.below(count) as u8;
    let incoming = !ends.incoming.is_empty();
    let outgoing = !ends.outgoing.is_empty();
    match op {
        0 => Some(code(0, 0, 0, 0)),
        1 if random.percent(80) => Some(set(a, random.between(0, 6) as i16 - 3)),
        1 => Some(code(1, a, random.byte(), random.byte())),
        2 => Some(code(2, a, b, 0)),
        3..=7 => Some(code(op, a, b, c)),
        8 => Some(code(8, 0, 0, target)),
        9 | 10 => Some(code(op, a, 0, target)),
        11 if incoming => Some(code(11, a, random.one(&ends.incoming), target)),
        12 if outgoing => Some(code(12, a, random.one(&ends.outgoing), 0)),
        13 if outgoing => Some(code(13, 0, random.one(&ends.outgoing), 0)),
        _ => None,
    }
}

fn set(register: u8, number: i16) -> Instruction {
    let [high, low] = number.to_be_bytes();
    code(1, register, high, low)
}

struct Writer<'a> {
    random: &'a mut Random,
    ends: &'a Ends,
    code: Vec<Instruction>,
    /// Instructions whose target is the last part, which is not yet written.
    to_finish: Vec<usize>,
}

impl Writer<'_> {
    fn add(&mut self, op: u8, a: u8, b: u8, c: u8) {
        self.code.push(code(op, a, b, c));
    }

    fn here(&self) -> u8 {
        self.code.len() as u8
    }

    fn register(&mut self) -> u8 {
        self.random.below(WORKING) as u8
    }

    fn receive_on(&mut self, register: u8, channel: u8) {
        if self.random.percent(90) {
            self.to_finish.push(self.code.len());
        }
        // Now and then the end is not minded, or tried again and again.
        let target = self.random.below(self.code.len() + 2) as u8;
        self.add(11, register, channel, target);
    }

    fn receive(&mut self, register: u8) {
        if !self.ends.incoming.is_empty() {
            let channel = self.random.one(&self.ends.incoming);
            self.receive_on(register, channel);
        }
    }

    fn send(&mut self, register: u8) {
        if !self.ends.outgoing.is_empty() {
            let channel = self.random.one(&self.ends.outgoing);
            self.add(12, register, channel, 0);
        }
    }

    fn work(&mut self) {
        let (a, b, c) = (self.register(), self.register(), self.register());
        match self.random.below(8) {
            0 => {
                let number = self.random.between(0, 20) as i16 - 10;
                self.code.push(set(a, number));
            }
            1 => self.add(2, a, b, 0),
            2 | 3 => self.add(3, a, b, c),
            4 => self.add(4, a, b, c),
            5 => self.add(5, a, b, c),
            _ => {
                // A divisor that is seldom zero.
                if self.random.percent(96) {
                    let divisor = self.random.one(&[-7, -2, -1, 1, 2, 3, 10]);
                    self.code.push(set(c, divisor));
                }
                let op = self.random.one(&[6, 7]);
                self.add(op, a, b, c);
            }
        }
    }

    fn part(&mut self) {
        let (a, b) = (self.register(), self.register());
        match self.random.below(13) {
            0..=2 => {
                self.receive(a);
                self.send(a);
            }
            3 => {
                self.receive(a);
                self.add(3, a, a, a);
                self.send(a);
            }
            4 => {
                self.receive(a);
                self.work();
                self.send(a);
            }
            5 | 6 => {
                // Two inputs become one.
                self.receive(a);
                self.receive(b);
                let op = self.random.one(&[3, 3, 4, 5, 6, 7]);
                self.add(op, a, a, b);
                self.send(a);
            }
            7 | 8 => self.classifier(a, b),
            9 => {
                self.receive(a);
                for _ in 0..self.random.between(1, 4) {
                    self.send(a);
                }
            }
            10 => {
                self.work();
                self.send(a);
            }
            11 => self.extremes(a, b),
            _ => self.rarity(a),
        }
    }

    /// Compares with a limit and sends one way or another.
    fn classifier(&mut self, a: u8, b: u8) {
        self.receive(a);
        if self.random.percent(50) {
            let limit = self.random.between(0, 100) as i16 - 50;
            self.code.push(set(b, limit));
            self.add(4, b, a, b);
        } else {
            self.add(2, b, a, 0);
        }
        let branch = self.code.len();
        let op = self.random.one(&[9, 10]);
        self.add(op, b, 0, 0);
        self.send(a);
        let over = self.code.len();
        self.add(8, 0, 0, 0);
        self.code[branch].c = self.here();
        self.send(b);
        self.code[over].c = self.here();
    }

    /// The largest numbers, and the least one by −1.
    fn extremes(&mut self, a: u8, b: u8) {
        self.code.push(set(a, i16::MIN));
        self.code.push(set(b, 256));
        self.add(5, a, a, b);
        self.add(5, a, a, b);
        self.code.push(set(b, -1));
        if self.random.percent(30) {
            self.add(3, a, a, b);
        }
        let op = self.random.one(&[3, 4, 5, 6, 7]);
        let result = self.register();
        self.add(op, result, a, b);
        self.send(result);
    }

    /// What should happen now and then: closings, faults, any instruction.
    fn rarity(&mut self, a: u8) {
        match self.random.below(6) {
            0 if !self.ends.outgoing.is_empty() => {
                let channel = self.random.one(&self.ends.outgoing);
                self.add(13, 0, channel, 0);
            }
            1 => {
                self.code.push(set(a, 0));
                self.add(6, a, a, a);
            }
            2 => self.leave_if(a),
            _ => {
                let instruction = allowed(self.random, self.ends, self.code.len() + 1);
                self.code.push(instruction);
            }
        }
    }

    fn leave_if(&mut self, a: u8) {
        self.to_finish.push(self.code.len());
        let op = self.random.one(&[9, 10]);
        self.add(op, a, 0, 0);
    }

    fn worker(&mut self) {
        if self.random.percent(40) {
            for _ in 0..self.random.between(1, 3) {
                self.work();
            }
        }
        if self.random.percent(20) {
            let register = self.register();
            self.send(register);
        }
        // One that receives nothing would never come to an end by itself.
        let share = if self.ends.incoming.is_empty() { 80 } else { 30 };
        let laps = self.random.percent(share).then(|| self.random.between(1, 40) as u8);
        self.count_from(laps);
        let lap = self.here();
        for _ in 0..self.random.between(1, 3) {
            self.part();
        }
        self.count_down(laps);
        self.add(8, 0, 0, lap);
        self.finish(lap);
    }

    fn turns(&mut self, before: &[Turn], lap: &[Turn], laps: Option<u8>) {
        if !before.is_empty() {
            let number = self.random.between(0, 200) as i16 - 100;
            self.code.push(set(0, number));
        }
        self.all(before);
        self.count_from(laps);
        let start = self.here();
        self.all(lap);
        self.count_down(laps);
        self.add(8, 0, 0, start);
        self.finish(start);
    }

    fn all(&mut self, turns: &[Turn]) {
        for turn in turns {
            match *turn {
                Turn::Send(channel) => self.add(12, 0, channel, 0),
                Turn::Receive(channel) => self.receive_on(0, channel),
                Turn::Work => self.work(),
            }
        }
    }

    fn count_from(&mut self, laps: Option<u8>) {
        if let Some(laps) = laps {
            self.code.push(set(LAPS_LEFT, laps.into()));
            self.code.push(set(ONE, 1));
        }
    }

    fn count_down(&mut self, laps: Option<u8>) {
        if laps.is_some() {
            self.add(4, LAPS_LEFT, LAPS_LEFT, ONE);
            self.to_finish.push(self.code.len());
            self.add(9, LAPS_LEFT, 0, 0);
        }
    }

    /// The last part: mostly a stop, but not always at once.
    fn finish(&mut self, lap: u8) {
        let finish = self.here();
        for &at in &self.to_finish {
            self.code[at].c = finish;
        }
        let register = self.register();
        match self.random.below(18) {
            0 => return self.add(8, 0, 0, lap),
            1 => {
                let target = self.random.below(self.code.len() + 1) as u8;
                return self.add(8, 0, 0, target);
            }
            2 => self.send(register),
            3 | 4 if !self.ends.outgoing.is_empty() => {
                let channel = self.random.one(&self.ends.outgoing);
                self.add(13, 0, channel, 0);
                match self.random.below(4) {
                    0 => self.add(12, register, channel, 0), // faults
                    1 => self.add(13, 0, channel, 0),        // faults too
                    _ => {}
                }
            }
            5 => self.add(7, register, register, register),
            _ => {}
        }
        self.add(0, 0, 0, 0);
    }

    fn wild(&mut self, limit: usize) {
        let count = self.random.between(1, limit.min(30));
        for _ in 1..count {
            let instruction = allowed(self.random, self.ends, count);
            self.code.push(instruction);
        }
        let last = self.last(count);
        self.code.push(last);
    }

    fn last(&mut self, count: usize) -> Instruction {
        if self.random.percent(50) {
            code(0, 0, 0, 0)
        } else {
            code(8, 0, 0, self.random.below(count) as u8)
        }
    }
}

/// Adds instructions behind a program, which it seldom reaches.
pub fn pad(random: &mut Random, ends: &Ends, program: &mut Vec<Instruction>, count: usize) {
    while program.len() + 1 < count {
        let instruction = allowed(random, ends, count);
        program.push(instruction);
    }
    if program.len() < count {
        let writer = &mut Writer { random, ends, code: Vec::new(), to_finish: Vec::new() };
        program.push(writer.last(count));
    }
}
