//! Random networks: how many processes, which channels join them, and what each
//! process is for.

use crate::network::*;
use crate::programs::{pad, program, Ends, Style, Turn};
use crate::random::Random;

/// A random network that fits.
pub fn lane(random: &mut Random) -> Network {
    lane_and_length(random).0
}

/// How much input and how many picks a lane calls for.
#[derive(Clone, Copy, PartialEq)]
pub enum Length {
    Any,
    Short,
    Long,
}

pub fn lane_and_length(random: &mut Random) -> (Network, Length) {
    let plan = match random.below(100) {
        0..=27 => Plan::any(random),
        28..=41 => Plan::pipeline(random),
        42..=60 => Plan::rings(random),
        61..=73 => Plan::detour(random),
        74..=80 => Plan::ceiling(random),
        81..=88 => Plan::wild(random),
        89..=93 => Plan::brief(random),
        94..=96 => Plan::stream(random),
        _ => Plan::largest(random),
    };
    let length = plan.length;
    (plan.network(random), length)
}

/// The largest network: 16 processes, 32 channels, 1,016 instructions.
pub fn largest(seed: u64) -> Network {
    let random = &mut Random::new(seed);
    Plan::largest(random).network(random)
}

/// A network with rings, up to the largest capacities or not.
pub fn rings(random: &mut Random) -> Network {
    let plan = if random.percent(50) { Plan::ceiling(random) } else { Plan::rings(random) };
    plan.network(random)
}

/// A network with a clock or two beside rings, which may be at the largest
/// capacities.
pub fn clocked(random: &mut Random) -> Network {
    Plan::clocked(random).network(random)
}

/// A network with rings and with tails of processes that lead into them, beside
/// clocks.
pub fn tails(random: &mut Random) -> Network {
    tails_and_length(random).0
}

pub fn tails_and_length(random: &mut Random) -> (Network, Length) {
    let plan = Plan::tails(random);
    let length = plan.length;
    (plan.network(random), length)
}

/// A network most of whose processes come to an end by themselves, with rings
/// that get stuck on the way.
pub fn ending(random: &mut Random) -> Network {
    let mut plan = match random.below(20) {
        0..=3 => Plan::any(random),
        4..=7 => Plan::detour(random),
        8..=11 => Plan::clocked(random),
        12 => Plan::brimful(random),
        _ => Plan::rings(random),
    };
    plan.end(random);
    plan.network(random)
}

/// A lane before its code is written.
struct Plan {
    styles: Vec<Style>,
    channels: Vec<Record>,
    /// Whether to fill all eight code blocks.
    full: bool,
    length: Length,
}

impl Plan {
    fn with(processes: usize) -> Plan {
        let styles = vec![Style::Worker; processes];
        Plan { styles, channels: Vec::new(), full: false, length: Length::Any }
    }

    fn processes(&self) -> usize {
        self.styles.len()
    }

    /// Adds a channel and answers its number.
    fn join(&mut self, sender: usize, receiver: usize, capacity: u16) -> u8 {
        self.channels.push(Record { sender: sender as u8, receiver: receiver as u8, capacity });
        self.channels.len() as u8 - 1
    }

    /// Any number of channels between any ends.
    fn any(random: &mut Random) -> Plan {
        let mut plan = Plan::with(few(random, PROCESSES));
        let channels = random.between(1, CHANNELS.min(3 * plan.processes() + 1));
        plan.join_any(random, channels);
        plan
    }

    /// Adds channels between any ends, up to so many in all.
    fn join_any(&mut self, random: &mut Random, channels: usize) {
        let outside = usize::from(OUTSIDE);
        while self.channels.len() < channels {
            let (one, other) = (random.below(self.processes()), random.below(self.processes()));
            let (sender, receiver) = match random.below(10) {
                0..=2 => (outside, one),
                3..=5 => (one, outside),
                6 => (one, one),
                _ => (one, other),
            };
            let capacity = capacity(random);
            self.join(sender, receiver, capacity);
        }
    }

    /// From outside through all processes to outside.
    fn pipeline(random: &mut Random) -> Plan {
        let mut plan = Plan::with(few(random, 8));
        let mut sender = usize::from(OUTSIDE);
        for receiver in numbers(random, plan.processes()) {
            plan.join(sender, receiver, capacity(random));
            if random.percent(15) {
                plan.join(sender, receiver, capacity(random));
            }
            sender = receiver;
        }
        plan.join(sender, usize::from(OUTSIDE), capacity(random));
        if random.percent(30) {
            let channels = plan.channels.len() + random.between(1, 3);
            plan.join_any(random, channels);
        }
        plan
    }

    /// One ring or more whose members send before they receive. The other
    /// processes are workers, and may lead into a ring.
    fn rings(random: &mut Random) -> Plan {
        let mut plan = Plan::with(few(random, 9));
        let mut free = numbers(random, plan.processes());
        while !free.is_empty() {
            let members = free.split_off(free.len() - random.between(1, free.len()));
            plan.ring(random, &members);
            if random.percent(50) {
                break;
            }
        }
        if random.percent(70) {
            let channels = (plan.channels.len() + random.between(1, 4)).min(CHANNELS);
            plan.join_any(random, channels);
        }
        plan
    }

    fn ring(&mut self, random: &mut Random, members: &[usize]) {
        let base = self.channels.len() as u8;
        let equal = random.percent(40).then(|| capacity(random));
        for (index, &sender) in members.iter().enumerate() {
            let receiver = members[(index + 1) % members.len()];
            let capacity = equal.unwrap_or_else(|| capacity(random));
            self.join(sender, receiver, capacity);
        }
        for (index, &member) in members.iter().enumerate() {
            let to = base + index as u8;
            let from = base + ((index + members.len() - 1) % members.len()) as u8;
            let mut before = vec![Turn::Send(to); random.below(4)];
            before.push(Turn::Work);
            let mut lap = vec![Turn::Send(to); random.between(1, 3)];
            lap.extend(vec![Turn::Receive(from); random.between(1, 2)]);
            lap.push(Turn::Work);
            if index == 0 && random.percent(60) {
                let out = self.join(member, usize::from(OUTSIDE), capacity(random));
                lap.push(Turn::Send(out));
            }
            random.shuffle(&mut lap);
            let laps = random.percent(40).then(|| random.between(1, 60) as u8);
            self.styles[member] = Style::Turns { before, lap, laps };
        }
    }

    /// Two ways from one process to another, of which the receiver wants the
    /// one that the sender serves last.
    fn detour(random: &mut Random) -> Plan {
        let mut plan = Plan::with(random.between(2, 6));
        let order = numbers(random, plan.processes());
        let (source, sink) = (order[0], order[1]);
        let early = plan.join(source, sink, capacity(random));
        let mut late = plan.join(source, *order.get(2).unwrap_or(&sink), capacity(random));
        let times = random.between(1, 12);
        let mut lap = vec![Turn::Send(early); times];
        lap.push(Turn::Send(late));
        let laps = random.percent(40).then(|| random.between(1, 30) as u8);
        plan.styles[source] = Style::Turns { before: vec![Turn::Work], lap, laps };
        for (index, &between) in order.iter().enumerate().skip(2) {
            let next = *order.get(index + 1).unwrap_or(&sink);
            let from = late;
            late = plan.join(between, next, capacity(random));
            let lap = vec![Turn::Receive(from), Turn::Work, Turn::Send(late)];
            plan.styles[between] = Style::Turns { before: Vec::new(), lap, laps: None };
        }
        let mut lap = vec![Turn::Receive(late)];
        lap.extend(vec![Turn::Receive(early); times]);
        if random.percent(70) {
            let out = plan.join(sink, usize::from(OUTSIDE), capacity(random));
            lap.push(Turn::Send(out));
        }
        if random.percent(30) {
            let fed = plan.join(usize::from(OUTSIDE), source, capacity(random));
            if let Style::Turns { lap, .. } = &mut plan.styles[source] {
                lap.insert(0, Turn::Receive(fed));
            }
        }
        plan.styles[sink] = Style::Turns { before: Vec::new(), lap, laps: None };
        plan
    }

    /// Rings that fill channels up to the largest capacity.
    fn ceiling(random: &mut Random) -> Plan {
        let mut plan = Plan::with(random.between(1, 3));
        let order = numbers(random, plan.processes());
        let members = &order[..random.between(1, order.len())];
        plan.filling_ring(random, members);
        for &other in &order[members.len()..] {
            let near = random.percent(50);
            let capacity = if near { near_the_largest(random) } else { capacity(random) };
            let to = plan.join(other, other, capacity);
            let lap = vec![Turn::Send(to); random.between(1, 60)];
            plan.styles[other] = Style::Turns { before: Vec::new(), lap, laps: None };
        }
        plan.length = Length::Long;
        plan
    }

    /// Clocks, which always move, for ever or for some laps, beside rings: some
    /// whose members send before they receive, some that only fill channels.
    fn clocked(random: &mut Random) -> Plan {
        let mut plan = Plan::with(random.between(2, 7));
        let mut order = numbers(random, plan.processes());
        let clocks = if order.len() > 2 { random.between(1, 2) } else { 1 };
        for clock in order.split_off(order.len() - clocks) {
            plan.clock(random, clock);
        }
        while !order.is_empty() {
            let members = order.split_off(order.len() - random.between(1, order.len().min(3)));
            if random.percent(65) {
                plan.ring(random, &members);
            } else {
                plan.filling_ring(random, &members);
            }
        }
        plan
    }

    fn clock(&mut self, random: &mut Random, process: usize) {
        let lap = vec![Turn::Work; random.below(3)];
        let laps = random.percent(40).then(|| random.between(1, 12) as u8);
        self.styles[process] = Style::Turns { before: Vec::new(), lap, laps };
    }

    /// Rings whose members wait for one another, mostly for ever, or fill channels up
    /// to the largest capacity, beside clocks. The other processes wait for these or
    /// for one another, one behind the other, and now and then for the outside.
    fn tails(random: &mut Random) -> Plan {
        let mut plan = Plan::with(random.between(2, PROCESSES));
        let mut order = numbers(random, plan.processes());
        let clocks = random.below(3).min(order.len() - 1);
        let mut ahead = order.split_off(order.len() - clocks);
        for &clock in &ahead {
            plan.clock(random, clock);
        }
        let high = random.percent(20);
        for _ in 0..random.between(1, 3) {
            let most = order.len().min(5);
            let members = order.split_off(order.len() - random.between(most.min(1), most));
            if high && random.percent(60) {
                plan.filling_ring(random, &members);
                plan.length = Length::Long;
            } else {
                for (index, &member) in members.iter().enumerate() {
                    plan.wait_for(random, member, members[(index + 1) % members.len()]);
                }
            }
            ahead.extend(members);
        }
        for process in order {
            let last = ahead[ahead.len() - 1];
            let other = match random.below(20) {
                0 => usize::from(OUTSIDE),
                1..=11 => last,
                _ => random.one(&ahead),
            };
            plan.wait_for(random, process, other);
            ahead.push(process);
        }
        plan
    }

    /// Lets a process come to wait for another one, for room on a channel that
    /// nobody receives from or for a message that nobody sends. Some have a third
    /// one to wait for too.
    fn wait_for(&mut self, random: &mut Random, process: usize, other: usize) {
        let mut lap = vec![self.waiting_turn(random, process, other)];
        if random.percent(25) && self.channels.len() < CHANNELS - PROCESSES {
            let third = random.below(self.processes());
            lap.push(self.waiting_turn(random, process, third));
        }
        let before = vec![Turn::Work; random.below(2)];
        self.styles[process] = Style::Turns { before, lap, laps: None };
    }

    fn waiting_turn(&mut self, random: &mut Random, process: usize, other: usize) -> Turn {
        let capacity = capacity(random);
        if random.percent(55) {
            Turn::Send(self.join(process, other, capacity))
        } else {
            Turn::Receive(self.join(other, process, capacity))
        }
    }

    /// Lets no process take turns for ever.
    fn end(&mut self, random: &mut Random) {
        for style in &mut self.styles {
            if let Style::Turns { laps, .. } = style {
                *laps = Some(laps.unwrap_or(random.between(1, 6) as u8));
            }
        }
    }

    /// A ring whose members only send, near the largest capacity.
    fn filling_ring(&mut self, random: &mut Random, members: &[usize]) {
        for (index, &sender) in members.iter().enumerate() {
            let receiver = members[(index + 1) % members.len()];
            let to = self.join(sender, receiver, near_the_largest(random));
            let lap = vec![Turn::Send(to); random.between(8, 60)];
            self.styles[sender] = Style::Turns { before: Vec::new(), lap, laps: None };
        }
    }

    /// A ring whose members each send as much as a channel can hold at the most.
    fn brimful(random: &mut Random) -> Plan {
        let mut plan = Plan::with(random.between(1, 3));
        let members = numbers(random, plan.processes());
        plan.filling_ring(random, &members);
        for style in &mut plan.styles {
            if let Style::Turns { lap, laps, .. } = style {
                lap.resize(64, lap[0]);
                *laps = Some((CAPACITY / 64) as u8);
            }
        }
        plan
    }

    /// Several receives in a row and few picks, so that the listing often ends
    /// between the last message and the end.
    fn brief(random: &mut Random) -> Plan {
        let mut plan = Plan::with(random.between(1, 2));
        for process in 0..plan.processes() {
            let from = plan.join(usize::from(OUTSIDE), process, capacity(random));
            let to = plan.join(process, usize::from(OUTSIDE), capacity(random));
            let mut lap = vec![Turn::Receive(from); random.between(1, 4)];
            lap.extend(vec![Turn::Send(to); random.below(3)]);
            plan.styles[process] = Style::Turns { before: Vec::new(), lap, laps: None };
        }
        plan.length = Length::Short;
        plan
    }

    /// Long streams, so that places are counted round more than once.
    fn stream(random: &mut Random) -> Plan {
        let mut plan = Plan::with(random.between(1, 2));
        let mut sender = usize::from(OUTSIDE);
        for process in 0..=plan.processes() {
            let inside = process < plan.processes();
            let receiver = if inside { process } else { usize::from(OUTSIDE) };
            let to = plan.join(sender, receiver, capacity(random));
            if let Some(style) = plan.styles.get_mut(sender) {
                let times = random.between(4, 20);
                let lap =
                    (0..times).flat_map(|_| [Turn::Receive(to - 1), Turn::Send(to)]).collect();
                *style = Style::Turns { before: Vec::new(), lap, laps: None };
            }
            sender = process;
        }
        plan.length = Length::Long;
        plan
    }

    fn wild(random: &mut Random) -> Plan {
        let mut plan = Plan::any(random);
        for style in &mut plan.styles {
            if random.percent(80) {
                *style = Style::Wild;
            }
        }
        plan
    }

    fn largest(random: &mut Random) -> Plan {
        let mut plan = Plan::with(PROCESSES);
        plan.join_any(random, CHANNELS);
        plan.full = true;
        plan
    }

    /// Gives the channels other numbers, so that their order says nothing.
    fn mix_channels(&mut self, random: &mut Random) {
        let numbers = numbers(random, self.channels.len());
        let mut channels = self.channels.clone();
        for (old, &new) in numbers.iter().enumerate() {
            channels[new] = self.channels[old];
        }
        self.channels = channels;
        for style in &mut self.styles {
            if let Style::Turns { before, lap, .. } = style {
                for turn in before.iter_mut().chain(lap) {
                    match turn {
                        Turn::Send(channel) | Turn::Receive(channel) => {
                            *channel = numbers[usize::from(*channel)] as u8;
                        }
                        Turn::Work => {}
                    }
                }
            }
        }
    }

    fn network(mut self, random: &mut Random) -> Network {
        self.mix_channels(random);
        let ends = Ends::of(self.processes(), &self.channels);
        let limit = (CODE / self.processes()).min(usize::from(COUNT));
        let mut programs = Vec::new();
        for (style, ends) in self.styles.iter().zip(&ends) {
            programs.push(program(random, ends, style, limit));
        }
        self.pad(random, &ends, &mut programs);
        Network::of(&programs, &self.channels)
    }

    /// Makes some programs longer, now and then just so long that the code
    /// blocks are full or one instruction more or less.
    fn pad(&self, random: &mut Random, ends: &[Ends], programs: &mut [Vec<Instruction>]) {
        let total: usize = programs.iter().map(Vec::len).sum();
        let wanted = match random.below(10) {
            _ if self.full => CODE,
            0 => total.next_multiple_of(PER_BLOCK) + random.one(&[0, 0, 1]),
            1 => total + random.below(120),
            2 => total + random.below(600),
            _ => return,
        };
        let mut missing = wanted.min(CODE) - total;
        for process in numbers(random, programs.len()) {
            let program = &mut programs[process];
            let extra = missing.min(usize::from(COUNT) - program.len());
            let count = program.len() + extra;
            pad(random, &ends[process], program, count);
            missing -= extra;
        }
    }
}

/// The numbers below a limit in any order.
fn numbers(random: &mut Random, limit: usize) -> Vec<usize> {
    let mut numbers: Vec<usize> = (0..limit).collect();
    random.shuffle(&mut numbers);
    numbers
}

/// A number of processes: mostly small, seldom up to the most.
fn few(random: &mut Random, most: usize) -> usize {
    match random.below(10) {
        0 | 1 => 1,
        2..=4 => random.between(2, 3),
        5..=7 => random.between(3, 6),
        _ => random.between(1, most),
    }
}

/// A capacity at the largest one or a little below.
fn near_the_largest(random: &mut Random) -> u16 {
    random.one(&[256, 256, 255, 254, 253])
}

fn capacity(random: &mut Random) -> u16 {
    let capacity = match random.below(20) {
        0..=8 => 1,
        9..=12 => 2,
        13..=15 => random.between(3, 5),
        16..=18 => random.between(6, 60),
        _ => random.between(200, 256),
    };
    capacity as u16
}
