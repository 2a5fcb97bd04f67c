//! Random scripts of calls. They are played along here, so that edits and calls
//! suit the state of the lane, and so that what they meet can be counted.

use crate::board::Board;
use crate::bursts;
use crate::clauses::{clauses, Clause};
use crate::damage;
use crate::file::{self, BLOCK};
use crate::lane::{Lane, CELLS};
use crate::limit::{self, Limit};
use crate::met::{Met, Played};
use crate::network::{Network, CHANNELS, OUTSIDE, PROCESSES};
use crate::odd;
use crate::plans;
use crate::random::Random;
use crate::replay::Replay;
use crate::schedule::{drive, Driven, End, RELIEF};
use crate::script::{parse, Call, Edit, Line, VALUES};
use std::io;
use std::path::Path;

/// One script in so many makes other steps before the drive at its end.
const OTHER_STEPS: u64 = 3;

/// Writes scripts, one after the other.
pub struct Scripts<'a> {
    random: Random,
    /// For the lanes at the ends of the scripts: the rest does not hang on them.
    limits: Random,
    /// For those with rings and tails, which come before them.
    tails: Random,
    /// Where the lane files go.
    folder: &'a Path,
    clauses: Vec<Clause>,
    pub met: Met,
}

impl Scripts<'_> {
    pub fn new(seed: u64, folder: &Path) -> Scripts<'_> {
        Scripts {
            random: Random::new(seed),
            limits: Random::new(seed ^ 0x6C69_6D69),
            tails: Random::new(seed ^ 0x7461_696C),
            folder,
            clauses: clauses(),
            met: Met::default(),
        }
    }

    /// The next script. Its lane files are written.
    pub fn script(&mut self) -> io::Result<String> {
        let number = self.met.scripts;
        self.met.scripts += 1;
        let random = &mut self.random;
        let network = match random.below(100) {
            0..=67 => plans::lane(random),
            68..=83 => plans::rings(random),
            _ => plans::clocked(random),
        };
        let intact = file::bytes_of(&network);
        let mut damaged = intact.clone();
        damage::file(random, &network, &mut damaged);
        std::fs::write(self.folder.join(format!("lane{number}.bin")), &intact)?;
        std::fs::write(self.folder.join(format!("bad{number}.bin")), &damaged)?;
        let has_other_steps = number % OTHER_STEPS == 0;
        let (ending, input) = match has_other_steps {
            true => limit::case_with_any_input(&mut self.limits, 8),
            false => limit::case(&mut self.limits),
        };
        let file = file::bytes_of(&ending);
        std::fs::write(self.folder.join(format!("limit{number}.bin")), file)?;
        let file = file::bytes_of(&plans::tails(&mut self.tails));
        std::fs::write(self.folder.join(format!("tails{number}.bin")), file)?;
        let mut script = Script {
            random,
            clauses: &self.clauses,
            met: &mut self.met,
            replay: Replay::new(self.folder),
            number,
            text: String::new(),
        };
        script.write()?;
        script.random = &mut self.tails;
        script.tails()?;
        script.random = &mut self.limits;
        script.limit(&ending, &input, has_other_steps)?;
        Ok(script.text)
    }

    /// What was not met, each by its name.
    pub fn missing(&self) -> Vec<String> {
        self.met.missing(self.clauses.iter().map(|clause| clause.name.clone()))
    }
}

/// One script being written.
struct Script<'a> {
    random: &'a mut Random,
    clauses: &'a [Clause],
    met: &'a mut Met,
    replay: Replay,
    number: u64,
    text: String,
}

impl<'a> Script<'a> {
    fn write(&mut self) -> io::Result<()> {
        self.say(&format!("# script {}", self.number))?;
        if self.random.percent(3) {
            self.say(&format!("lane bad{}.bin", self.number))?;
            for _ in 0..5 {
                self.call()?;
            }
        }
        self.fresh()?;
        for _ in 0..self.random.between(50, 90) {
            self.part()?;
        }
        self.say("show")
    }

    /// Plays a line, counts what it met and puts it down. Answers what was
    /// printed after it.
    fn say(&mut self, text: &str) -> io::Result<()> {
        self.answer(text).map(|_| ())
    }

    fn answer(&mut self, text: &str) -> io::Result<String> {
        let line = parse(text.as_bytes());
        let before = self.replay.state.lane.clone();
        // What a run or a drive met is seen by making it once more.
        let again = matches!(line, Line::Call(Call::Run(_) | Call::Drive(_)));
        let cells = if again { self.replay.state.cells[..CELLS].to_vec() } else { Vec::new() };
        let room = self.replay.room;
        let mut out = Vec::new();
        self.replay.play_line(text.as_bytes(), &mut out)?;
        self.text += text;
        self.text += "\n";
        let printed = String::from_utf8(out).expect("scripts here are text");
        let printed = &printed[text.len()..];
        let calls = matches!(line, Line::Call(_) | Line::Write(_));
        let sound = calls && before.is_sound();
        let (before, after) = (&before, &self.replay.state.lane);
        self.met.count(&Played { text, line, before, cells, room, after, printed }, sound);
        Ok(printed.to_string())
    }

    fn lane(&self) -> &Lane {
        &self.replay.state.lane
    }

    fn fresh(&mut self) -> io::Result<()> {
        self.say(&format!("lane lane{}.bin", self.number))
    }

    fn part(&mut self) -> io::Result<()> {
        match self.random.below(100) {
            _ if self.idle() && self.random.percent(15) => self.fresh(),
            0..=50 => self.call(),
            51 | 52 => self.bursts(),
            53..=69 => self.broken(),
            70..=83 => self.odd(),
            84..=87 => self.jam(),
            88 => self.instruction(),
            89 | 90 => self.rooms(),
            91 | 92 => self.read(),
            93 | 94 => self.write_file(),
            95 => self.say("show"),
            96 | 97 => self.bad_line(),
            98 => self.with_odd(),
            _ => self.fresh(),
        }
    }

    /// Whether no process can move.
    fn idle(&self) -> bool {
        let lane = self.lane();
        lane.is_sound()
            && (0..lane.network.processes.into())
                .all(|process| lane.has_ended(process) || lane.wait(process).is_some())
    }

    fn call(&mut self) -> io::Result<()> {
        let lane = self.lane().clone();
        let line = self.call_on(&lane);
        self.say(&line)
    }

    /// A call with arguments that suit this lane, mostly.
    fn call_on(&mut self, lane: &Lane) -> String {
        let random = &mut *self.random;
        let lent = random.one(&["", "", "lent-"]);
        match random.below(100) {
            0..=31 => format!("{lent}pick {}", process(random, lane)),
            32..=46 => format!("{lent}feed {} {}", channel(random, lane, 0), random.value()),
            47..=51 => {
                let channel = channel(random, lane, 0);
                bursts::line(channel, &bursts::values(random, lane, channel))
            }
            52..=54 => format!("close {}", channel(random, lane, 0)),
            55..=71 => format!("{lent}take {}", channel(random, lane, 1)),
            72..=77 => format!("relieve {}", ring_buffer(random, lane)),
            78..=88 => run_line(&pick_bytes(random, lane)),
            _ => format!("drive {}", self.picks(lane)),
        }
    }

    /// A burst or two on a channel from outside, in a state made for them, and now
    /// and then the single feed that comes next.
    fn bursts(&mut self) -> io::Result<()> {
        let lane = self.lane().clone();
        if !lane.is_sound() {
            return Ok(());
        }
        let Some((channel, edits)) = bursts::edits(self.random, &lane) else {
            return self.call();
        };
        self.edit_all(&edits)?;
        for _ in 0..self.random.between(1, 2) {
            let lane = self.lane().clone();
            let values = bursts::values(self.random, &lane, channel);
            let (fed, refused) = bursts::goes_in(&lane, channel, values.len());
            let answer = self.answer(&bursts::line(channel, &values))?;
            let end = refused.map(|refusal| format!("refused {}", refusal.number()));
            let expected = format!(": fed {fed} {}", end.as_deref().unwrap_or("accepted"));
            assert_eq!(answer.split(';').next(), Some(&expected[..]));
        }
        if self.random.percent(30) {
            let value = self.random.value();
            self.say(&format!("feed {channel} {value}"))?;
        }
        Ok(())
    }

    /// A number of picks after which a drive ends in time.
    fn picks(&mut self, lane: &Lane) -> u64 {
        let processes = usize::from(lane.network.processes);
        let random = &mut *self.random;
        match random.below(12) {
            0 => random.below(processes + 1) as u64,
            1 => random.between(200, 4_000) as u64,
            // One that ends by itself may have any number.
            2 | 3 => {
                let mut cells = self.replay.state.cells[..CELLS].to_vec();
                let driven = drive(&mut lane.clone(), &mut cells, 2_000);
                let ends = driven.is_ok_and(|driven| driven.end != End::Spent);
                let any = random.bits() | 1 << 63;
                if ends {
                    random.one(&[u64::MAX, any])
                } else {
                    300
                }
            }
            _ => random.below(8 * processes + 1) as u64,
        }
    }

    /// Breaks a clause, makes a call or two, and mends it; or breaks it in a
    /// copy.
    fn broken(&mut self) -> io::Result<()> {
        let intact = self.lane().clone();
        if !intact.is_sound() {
            return Ok(());
        }
        let Some((clause, edit)) = self.broken_clause(&intact) else { return Ok(()) };
        let name = &clause.name;
        if self.random.percent(15) {
            let answer = self.answer(&format!("with {edit}"))?;
            self.met.clause(name, answer == ": refused 16");
            return Ok(());
        }
        let mut edits = vec![edit];
        if self.random.percent(20) {
            // The same once more, or another one too.
            let other = self.random.one(&[Some(clause), None]);
            let other = other.or_else(|| self.broken_clause(&intact).map(|(clause, _)| clause));
            edits.extend(other.and_then(|clause| clause.broken(self.random, &intact)));
        }
        for edit in &edits {
            self.say(&format!("make {edit}"))?;
        }
        if self.lane().is_sound() {
            return self.mend(&intact, &edits);
        }
        for _ in 0..self.random.between(1, 2) {
            let line = self.call_on(&intact);
            let answer = self.answer(&line)?;
            let answers = [": refused 16", ": fed 0 refused 16"];
            let unsound = answers.iter().any(|start| answer.starts_with(start));
            assert!(unsound, "{name}: {line}{answer}");
            match edits.len() {
                1 => self.met.clause(name, unsound),
                _ => self.met.meet("two wrongs", unsound),
            }
        }
        self.more_on_broken(&intact)?;
        self.mend(&intact, &edits)
    }

    /// What hangs on more than that the lane is unsound.
    fn more_on_broken(&mut self, intact: &Lane) -> io::Result<()> {
        if self.random.percent(10) {
            self.short_write(&intact.network)?;
        }
        if self.random.percent(8) {
            let room = self.room();
            let line = self.call_on(intact);
            self.say(&format!("room {room}"))?;
            self.say(&line)?;
            self.say(&format!("room {CELLS}"))?;
        }
        Ok(())
    }

    /// Takes edits back.
    fn mend(&mut self, intact: &Lane, edits: &[Edit]) -> io::Result<()> {
        for &edit in edits {
            self.say(&format!("make {}", standing(intact, edit)))?;
        }
        Ok(())
    }

    /// A clause that can be broken here, often the one that was so least often.
    fn broken_clause(&mut self, lane: &Lane) -> Option<(&'a Clause, Edit)> {
        let mut order: Vec<&Clause> = self.clauses.iter().collect();
        self.random.shuffle(&mut order);
        if self.random.percent(50) {
            order.sort_by_key(|clause| self.met.clause_count(&clause.name));
        }
        order.into_iter().find_map(|clause| {
            let edit = clause.broken(self.random, lane)?;
            Some((clause, edit))
        })
    }

    /// Another instruction in the place of one, right or wrong, for a call or
    /// two. Each byte alone is a clause; here several can be wrong at once.
    fn instruction(&mut self) -> io::Result<()> {
        let intact = self.lane().clone();
        if !intact.is_sound() {
            return Ok(());
        }
        let process = self.random.below(intact.network.processes.into());
        let slot = intact.network.slots[process];
        let stands = intact.processes[process].position;
        let any = self.random.below(slot.count.into()) as u16;
        let place = 4 * usize::from(slot.first + self.random.one(&[stands, any, slot.count - 1]));
        let mut edits = Vec::new();
        for place in place..place + 4 {
            let byte = self.random.byte();
            let limit = self.random.one(&[1, 2, 8, 9, 14, 16, 32]);
            let byte = self.random.one(&[byte, byte % limit, byte % limit, byte % limit]);
            edits.push(Edit::Byte(place, byte));
        }
        for edit in &edits {
            self.say(&format!("make {edit}"))?;
        }
        let sound = self.lane().is_sound();
        self.met.meet("another instruction, right", sound);
        self.met.meet("another instruction, wrong", !sound);
        self.say(&format!("pick {process}"))?;
        if self.random.percent(30) {
            // Where it is right, the lane may have moved.
            let lane = if sound { self.lane().clone() } else { intact.clone() };
            let line = self.call_on(&lane);
            self.say(&line)?;
        }
        self.mend(&intact, &edits)
    }

    /// An odd state, and mostly a pick of the process that it is about.
    fn odd(&mut self) -> io::Result<()> {
        let lane = self.lane().clone();
        if !lane.is_sound() {
            return Ok(());
        }
        let edits = odd::edits(self.random, &lane);
        self.edit_all(&edits)?;
        if let Some(Edit::Process { number, .. }) = edits.first() {
            if self.random.percent(70) {
                self.say(&format!("pick {number}"))?;
            }
        }
        Ok(())
    }

    fn edit_all(&mut self, edits: &[Edit]) -> io::Result<()> {
        for edit in edits {
            self.say(&format!("make {edit}"))?;
        }
        assert!(self.lane().is_sound(), "odd, but sound: {edits:?}");
        Ok(())
    }

    /// An odd state in a copy.
    fn with_odd(&mut self) -> io::Result<()> {
        let lane = self.lane().clone();
        if lane.is_sound() {
            let edits = odd::edits(self.random, &lane);
            for edit in edits {
                self.say(&format!("with {edit}"))?;
            }
        }
        Ok(())
    }

    /// Processes that wait for one another, once or twice, and what relief,
    /// runs and drives make of it.
    fn jam(&mut self) -> io::Result<()> {
        for _ in 0..self.random.between(1, 2) {
            let lane = self.lane().clone();
            if lane.is_sound() {
                let edits = odd::jam(self.random, &lane);
                self.edit_all(&edits)?;
            }
        }
        for _ in 0..self.random.between(1, 4) {
            let lane = self.lane().clone();
            let line = match self.random.below(5) {
                0 => "run 255 255".to_string(),
                1 => format!("drive {}", self.picks(&lane)),
                _ => format!("relieve {}", ring_buffer(self.random, &lane)),
            };
            self.say(&line)?;
        }
        Ok(())
    }

    /// A lane with rings and with tails that lead into them: its processes come to
    /// wait by picks or are made to by hand, and relief, runs and drives follow.
    fn tails(&mut self) -> io::Result<()> {
        self.say(&format!("lane tails{}.bin", self.number))?;
        for _ in 0..self.random.between(1, 2) {
            let lane = self.lane().clone();
            if self.random.percent(65) {
                let edits = odd::standstill(self.random, &lane);
                self.edit_all(&edits)?;
            } else {
                let rounds = self.random.between(2, 10);
                self.say(&run_line(&rounds_of(&lane, rounds, false)))?;
            }
            for _ in 0..self.random.between(1, 3) {
                let lane = self.lane().clone();
                let line = match self.random.below(5) {
                    0 => run_line(&rounds_of(&lane, self.random.between(1, 3), true)),
                    1 => format!("drive {}", self.picks(&lane)),
                    _ => format!("relieve {}", ring_buffer(self.random, &lane)),
                };
                self.say(&line)?;
            }
        }
        Ok(())
    }

    /// A fresh lane with all input fed and closed, in some scripts after other
    /// steps too, as many picks as a drive of it can need or more, and then a pick
    /// of each process.
    fn limit(&mut self, network: &Network, input: &[Vec<i32>], other: bool) -> io::Result<()> {
        self.say(&format!("lane limit{}.bin", self.number))?;
        let cells = Box::new(self.replay.state.cells[..CELLS].try_into().expect("all cells"));
        let of = if other { Limit::with_any_input } else { Limit::of };
        let limit = of(network, input).expect("a case of the limit");
        let board =
            if other { limit.other_steps(self.random, cells, 30) } else { limit.lane(cells) };
        self.say_all(&board)?;
        let course = limit.course(&board);
        let Driven { picks: made, enlarged, .. } = course.settled();
        let more = limit.picks() + self.random.between(1, 100) as u64;
        let picks = self.random.one(&[limit.picks(), limit.picks(), more, u64::MAX]);
        let answer = self.answer(&format!("drive {picks}"))?;
        let answer = answer.split(';').next();
        assert_eq!(answer, Some(&format!(": settled picks {made} enlarged {enlarged}")[..]));
        for process in 0..network.processes {
            assert_eq!(self.answer(&format!("pick {process}"))?, ": ended");
        }
        self.met.limit(&limit, &board, &course, picks);
        Ok(())
    }

    /// Makes the calls of a board.
    fn say_all(&mut self, board: &Board) -> io::Result<()> {
        for line in &board.script {
            let can_be_lent = ["pick", "feed", "take"].iter().any(|word| line.starts_with(word));
            let lent = if can_be_lent { self.random.one(&["", "", "lent-"]) } else { "" };
            self.say(&format!("{lent}{line}"))?;
        }
        assert!(*self.lane() == board.lane && self.replay.state.cells[..CELLS] == board.cells[..]);
        Ok(())
    }

    /// A number of cells that is not the right one.
    fn room(&mut self) -> usize {
        self.random.one(&[0, 1, 256, CELLS - 1, CELLS - 1, CELLS + 1, CELLS + 1])
    }

    fn rooms(&mut self) -> io::Result<()> {
        let room = self.room();
        self.say(&format!("room {room}"))?;
        for _ in 0..self.random.between(1, 3) {
            self.call()?;
        }
        if self.random.percent(20) {
            self.say("with accepted 1")?;
        }
        self.say(&format!("room {CELLS}"))
    }

    fn read(&mut self) -> io::Result<()> {
        let name = match self.random.below(6) {
            0 => "absent.bin".to_string(),
            1 => format!("lane{}.bin", self.number),
            _ => format!("bad{}.bin", self.number),
        };
        self.say(&format!("read {name}"))
    }

    fn write_file(&mut self) -> io::Result<()> {
        let network = self.lane().network.clone();
        if !network.fits() || self.random.percent(30) {
            return self.short_write(&network);
        }
        let needed = BLOCK * (1 + network.code_blocks());
        let length = needed + self.random.one(&[0, 1, 20]);
        self.say(&format!("write {length}"))
    }

    /// Into a buffer that is just long enough, or too short.
    fn short_write(&mut self, network: &Network) -> io::Result<()> {
        let needed = if network.fits() { BLOCK * (1 + network.code_blocks()) } else { 1_024 };
        let length = self.random.one(&[0, 1, 16, needed - 1, needed]);
        self.say(&format!("write {length}"))
    }

    /// A line that is none, or a note.
    fn bad_line(&mut self) -> io::Result<()> {
        let lane = self.lane().clone();
        let line = self.call_on(&lane);
        let bad = match self.random.below(9) {
            0 => format!(" {line}"),
            1 => format!("{line} "),
            2 => line.replacen(' ', "  ", 1),
            3 => format!("{line} x"),
            4 => line.split(' ').next().unwrap_or("").to_string() + "s 1",
            5 => format!("#{line}"),
            6 => String::new(),
            7 if self.random.percent(10) => bursts::line(0, &[7; VALUES + 1]),
            7 => self.random.one(&BAD).to_string(),
            _ => format!("{line} 18446744073709551616"),
        };
        self.say(&bad)
    }
}

/// Lines with a number just past its limit, or with a word that is not theirs.
const BAD: [&str; 30] = [
    "pick 18446744073709551616",
    "feed 0 2147483648",
    "burst",
    "burst 18446744073709551616",
    "burst 0 1 -2147483649",
    "lent-burst 0 1",
    "lent-feed 0 -2147483649",
    "lent-take 99999999999999999999",
    "lent-close 0",
    "relieve 33",
    "run 256",
    "drive 18446744073709551616",
    "write 4701",
    "room 8194",
    "lane",
    "read ",
    "make network 18446744073709551616 1",
    "make slot 16 first 0 count 1",
    "make slot 0 first 65536 count 1",
    "make record 0 sender 256 receiver 0 capacity 1",
    "make byte 4064 0",
    "make process 0 position 0 ended moves 0",
    "make process 16 position 0 live moves 0",
    "make register 128 0",
    "make channel 0 capacity 1 oldest 0 held 0 open",
    "make channel 0 capacity 1 oldest 0 held 0 peak 0",
    "make channel 0 capacity 1 oldest 0 held 0 peak 65536 open",
    "make channel 32 capacity 1 oldest 0 held 0 peak 0 open",
    "with cell 8193 0",
    "with accepted -1",
];

/// What this edit's place holds now, as an edit: it takes the first one back.
fn standing(lane: &Lane, edit: Edit) -> Edit {
    let network = &lane.network;
    match edit {
        Edit::Network { .. } => {
            Edit::Network { processes: network.processes.into(), channels: network.channels.into() }
        }
        Edit::Slot(number, _) => Edit::Slot(number, network.slots[number]),
        Edit::Record(number, _) => Edit::Record(number, network.records[number]),
        Edit::Byte(place, _) => {
            let i = network.code[place / 4];
            Edit::Byte(place, [i.op, i.a, i.b, i.c][place % 4])
        }
        Edit::Process { number, .. } => {
            let crate::lane::Process { position, condition, moves, .. } = lane.processes[number];
            Edit::Process { number, position, condition, moves }
        }
        Edit::Register(number, _) => {
            Edit::Register(number, lane.processes[number / 8].registers[number % 8])
        }
        Edit::Channel(number, _) => Edit::Channel(number, lane.channels[number]),
        Edit::Accepted(_) => Edit::Accepted(lane.accepted),
        // No clause is about cells.
        Edit::Cell(..) => edit,
    }
}

/// A number from 0 up to the used ones, or one that is not among them.
fn number(random: &mut Random, used: usize, all: usize) -> usize {
    let one = random.below(used.max(1));
    if random.percent(93) {
        return one;
    }
    let near = random.between(used, all + 1);
    random.one(&[used, near, 255, one + 256, one + (1 << 16), one + (1 << 32), usize::MAX])
}

fn process(random: &mut Random, lane: &Lane) -> usize {
    number(random, lane.network.processes.into(), PROCESSES)
}

/// A channel, mostly one with the sender (0) or the receiver (1) outside.
fn channel(random: &mut Random, lane: &Lane, end: usize) -> usize {
    let ends = |(number, record): (usize, &crate::network::Record)| {
        ([record.sender, record.receiver][end] == OUTSIDE).then_some(number)
    };
    let outside: Vec<usize> =
        lane.network.used_records().iter().enumerate().filter_map(ends).collect();
    if !outside.is_empty() && random.percent(85) {
        return random.one(&outside);
    }
    number(random, lane.network.channels.into(), CHANNELS)
}

/// A length around that of the ring which relief will find.
fn ring_buffer(random: &mut Random, lane: &Lane) -> usize {
    let any = random.below(18);
    if !lane.is_sound() {
        return any;
    }
    match lane.find_ring() {
        Ok(ring) => {
            let length = ring.members().len();
            random.one(&[length - 1, length, length, length + 1, PROCESSES, any])
        }
        Err(_) => random.one(&[0, any]),
    }
}

/// All processes in turn, so many times, each time after a relief or not.
fn rounds_of(lane: &Lane, rounds: usize, relief: bool) -> Vec<u8> {
    let round = relief.then_some(RELIEF).into_iter().chain(0..lane.network.processes);
    (0..rounds).flat_map(|_| round.clone()).collect()
}

fn run_line(bytes: &[u8]) -> String {
    bytes.iter().fold("run".to_string(), |line, byte| format!("{line} {byte}"))
}

fn pick_bytes(random: &mut Random, lane: &Lane) -> Vec<u8> {
    let processes = lane.network.processes.max(1);
    let length = match random.below(20) {
        0 => 0,
        1 => 256,
        2 => random.below(257),
        _ => random.between(1, 24),
    };
    let relief = random.one(&[0, 5, 30]);
    let in_turn = random.percent(50);
    let mut bytes = Vec::new();
    for place in 0..length {
        let any = random.below(processes.into()) as u8;
        let turn = (place % usize::from(processes)) as u8;
        bytes.push(match random.percent(relief) {
            true => RELIEF,
            false if in_turn => turn,
            false => any,
        });
    }
    if length > 0 && random.percent(8) {
        let any = random.between(processes.into(), 254) as u8;
        let at = random.below(length);
        bytes[at] = random.one(&[processes, 254, any]);
    }
    bytes
}
