//! What a comparison has met, so that one sees what it is worth.

use crate::bench::Watch;
use crate::calls::Answer;
use crate::lane::Lane;
use crate::network::{Instruction, CAPACITY};
use crate::refusal::Refusal;
use crate::relief::Ring;
use crate::tails::{self, BENCH};
use std::fmt;

/// Counts over all cases.
#[derive(Default)]
pub struct Coverage {
    cases: u64,
    /// Refused cases, by number.
    refused: [u64; 18],
    /// Cases whose listing has such a line, and how many such lines there were.
    lines: [(u64, u64); 3],
    /// The same for the conditions in `proc` lines.
    conditions: [(u64, u64); 5],
    picks: Picks,
    /// Reliefs by what they find.
    reliefs: [u64; BENCH.len()],
}

/// What picks and reliefs did.
#[derive(Default)]
pub struct Picks {
    /// Instructions that moved, by number.
    moved: [u64; 14],
    answers: [u64; 4],
    /// Moves and reliefs of a kind worth a look.
    special: [u64; SPECIAL.len()],
    /// The instruction being picked, and which special kinds it would be.
    now: Option<(Instruction, [bool; SPECIAL.len()])>,
}

/// The refusals that a bench can answer.
const REFUSED: [usize; 10] = [1, 2, 3, 4, 5, 6, 7, 8, 15, 17];
const LINES: [&str; 3] = ["out ", "end ", "grow "];
const CONDITIONS: [&str; 5] = ["stop", "fault", "empty", "full", "run"];
const ANSWERS: [&str; 4] = ["moved", "waiting-empty", "waiting-full", "ended"];
const SPECIAL: [&str; 20] = [
    "the end received",
    "sent to an ended receiver",
    "fault at a zero divisor",
    "fault at a 12",
    "fault at a 13",
    "the least number by -1",
    "laid past place 255",
    "relief enlarged",
    "of these in a ring of one",
    "of these in a ring of three or more",
    "relief: 13",
    "relief: 14",
    "divide: negative by positive, with a remainder",
    "divide: positive by negative, with a remainder",
    "divide: both negative, with a remainder",
    "divide: signs differ, a multiple",
    "remainder: negative by positive, with a remainder",
    "remainder: positive by negative, with a remainder",
    "remainder: both negative, with a remainder",
    "remainder: signs differ, a multiple",
];
/// Where the divisions by op 6, and then those by op 7, begin among these.
const DIVISIONS: usize = 12;

impl Coverage {
    /// Counts one case and its answer.
    pub fn count(&mut self, answer: Result<&[u8], Refusal>) {
        self.cases += 1;
        let listing = match answer {
            Ok(listing) => std::str::from_utf8(listing).unwrap_or(""),
            Err(refusal) => {
                self.refused[usize::from(refusal.number())] += 1;
                return;
            }
        };
        let mut lines = [0; LINES.len()];
        let mut conditions = [0; CONDITIONS.len()];
        for line in listing.lines() {
            for (count, start) in lines.iter_mut().zip(LINES) {
                *count += u64::from(line.starts_with(start));
            }
            if line.starts_with("proc ") {
                let condition = line.split(' ').nth(2);
                for (count, name) in conditions.iter_mut().zip(CONDITIONS) {
                    *count += u64::from(condition == Some(name));
                }
            }
        }
        for (total, count) in self.lines.iter_mut().zip(lines) {
            *total = (total.0 + count.min(1), total.1 + count);
        }
        for (total, count) in self.conditions.iter_mut().zip(conditions) {
            *total = (total.0 + count.min(1), total.1 + count);
        }
    }

    /// What was not met, each by its name.
    pub fn missing(&self) -> Vec<String> {
        let refused = REFUSED.map(|number| (format!("refusal {number}"), self.refused[number]));
        let named = |kind: &str, names: &[&str], lanes: &[(u64, u64)]| -> Vec<Counted> {
            let counts = names.iter().zip(lanes);
            counts.map(|(name, &(lanes, _))| (format!("{kind} {name}"), lanes)).collect()
        };
        let lines = named("a line", &LINES, &self.lines);
        let conditions = named("condition", &CONDITIONS, &self.conditions);
        let reliefs = BENCH.iter().zip(self.reliefs);
        let reliefs: Vec<Counted> =
            reliefs.map(|(name, count)| (name.to_string(), count)).collect();
        let picks = self.picks.counts();
        names_of_none([&refused[..], &lines, &conditions, &picks, &reliefs].concat())
    }
}

impl Watch for Coverage {
    fn picking(&mut self, lane: &Lane, process: usize) {
        self.picks.picking(lane, process);
    }

    fn picked(&mut self, answer: Answer) {
        self.picks.picked(answer);
    }

    fn relieving(&mut self, lane: &Lane) {
        for (count, met) in self.reliefs.iter_mut().zip(tails::cases(lane)) {
            *count += u64::from(met);
        }
    }

    fn relieved(&mut self, answer: Result<Ring, Refusal>) {
        self.picks.relieved(answer);
    }
}

/// A kind of case by its name, and how often it was met.
pub type Counted = (String, u64);

/// The names of what was met no time.
pub fn names_of_none(counts: Vec<Counted>) -> Vec<String> {
    counts.into_iter().filter(|&(_, count)| count == 0).map(|(name, _)| name).collect()
}

impl Picks {
    /// All that is counted.
    pub fn counts(&self) -> Vec<Counted> {
        let moved = self.moved.iter().enumerate();
        let moved = moved.map(|(op, &count)| (format!("a move by op {op}"), count));
        let answers = ANSWERS.iter().zip(self.answers);
        let answers = answers.map(|(name, count)| (format!("a pick {name}"), count));
        let special = SPECIAL.iter().zip(self.special);
        let special = special.map(|(name, count)| (name.to_string(), count));
        moved.chain(answers).chain(special).collect()
    }
}

/// Which of the four kinds of division this is, of those that show how a quotient
/// is rounded. By 1 and −1 every number is a multiple; these do not count.
fn division(dividend: i32, divisor: i32) -> Option<usize> {
    if (-1..=1).contains(&divisor) {
        return None;
    }
    match (dividend.signum(), divisor.signum(), dividend % divisor == 0) {
        (-1, 1, false) => Some(0),
        (1, -1, false) => Some(1),
        (-1, -1, false) => Some(2),
        (-1, 1, true) | (1, -1, true) => Some(3),
        _ => None,
    }
}

impl Watch for Picks {
    fn picking(&mut self, lane: &Lane, process: usize) {
        let instruction = lane.instruction(process);
        let Instruction { op, b, c, .. } = instruction;
        let register = |number: u8| lane.processes[process].registers[usize::from(number)];
        let channel = || lane.channels[usize::from(b)];
        let mut special = [false; SPECIAL.len()];
        match op {
            6 | 7 => {
                special[2] = register(c) == 0;
                special[5] = register(b) == i32::MIN && register(c) == -1;
                if let Some(kind) = division(register(b), register(c)) {
                    special[DIVISIONS + 4 * usize::from(op - 6) + kind] = true;
                }
            }
            11 => special[0] = channel().held == 0 && channel().closed,
            12 => {
                special[1] = !channel().closed && lane.is_unheard(b);
                special[3] = channel().closed;
                special[6] = !channel().closed
                    && !lane.is_unheard(b)
                    && channel().oldest + channel().held >= CAPACITY;
            }
            13 => special[4] = channel().closed,
            _ => {}
        }
        self.now = Some((instruction, special));
    }

    fn picked(&mut self, answer: Answer) {
        let kind = match answer {
            Answer::Moved => 0,
            Answer::WaitingEmpty(_) => 1,
            Answer::WaitingFull(_) => 2,
            Answer::Ended => 3,
        };
        self.answers[kind] += 1;
        if let (0, Some((instruction, special))) = (kind, self.now.take()) {
            self.moved[usize::from(instruction.op)] += 1;
            for (count, met) in self.special.iter_mut().zip(special) {
                *count += u64::from(met);
            }
        }
    }

    fn relieved(&mut self, answer: Result<Ring, Refusal>) {
        match answer {
            Ok(ring) => {
                self.special[7] += 1;
                self.special[8] += u64::from(ring.members().len() == 1);
                self.special[9] += u64::from(ring.members().len() > 2);
            }
            Err(Refusal::Ceiling) => self.special[11] += 1,
            Err(_) => self.special[10] += 1,
        }
    }
}

impl fmt::Display for Coverage {
    fn fmt(&self, to: &mut fmt::Formatter) -> fmt::Result {
        let refused: u64 = self.refused.iter().sum();
        writeln!(
            to,
            "{} lanes, {} with a listing, {refused} refused",
            self.cases,
            self.cases - refused
        )?;
        write!(to, "refused with")?;
        for (number, count) in self.refused.iter().enumerate().filter(|(_, &count)| count > 0) {
            write!(to, "  {number}: {count}")?;
        }
        write!(to, "\nlanes (lines) with")?;
        for (name, (lanes, lines)) in LINES.iter().zip(self.lines) {
            write!(to, "  {}: {lanes} ({lines})", name.trim())?;
        }
        for (name, (lanes, lines)) in CONDITIONS.iter().zip(self.conditions) {
            write!(to, "  {name}: {lanes} ({lines})")?;
        }
        write!(to, "\ninstructions that moved")?;
        for (number, count) in self.picks.moved.iter().enumerate() {
            write!(to, "  {number}: {count}")?;
        }
        write!(to, "\npicks")?;
        for (name, count) in ANSWERS.iter().zip(self.picks.answers) {
            write!(to, "  {name}: {count}")?;
        }
        for (name, count) in SPECIAL.iter().zip(self.picks.special) {
            write!(to, "\n{name}: {count}")?;
        }
        for (name, count) in BENCH.iter().zip(self.reliefs) {
            write!(to, "\n{name}: {count}")?;
        }
        writeln!(to)
    }
}
