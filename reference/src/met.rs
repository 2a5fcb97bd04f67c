//! What scripts have met, so that one sees what they are worth, and what they
//! have missed.

use crate::bench::Watch;
use crate::board::Board;
use crate::calls::Answer;
use crate::coverage::{names_of_none, Counted, Picks};
use crate::fillings;
use crate::lane::{Cells, Channel, Lane, Wait, CELLS};
use crate::limit::{Course, Limit};
use crate::network::{CAPACITY, CHANNELS, OUTSIDE, PROCESSES};
use crate::refusal::Refusal;
use crate::relief::Ring;
use crate::schedule::RELIEF;
use crate::script::{Call, Line, VALUES};
use crate::tails;
use std::collections::BTreeMap;
use std::fmt;

/// Counts over all lines.
#[derive(Default)]
pub struct Met {
    pub scripts: u64,
    lines: u64,
    bad_lines: u64,
    /// Answers, by the line's first word.
    answers: BTreeMap<(&'static str, String), u64>,
    picks: Picks,
    /// Cases worth a look. One that was looked for and not met stands here too.
    special: BTreeMap<&'static str, u64>,
    /// How often each clause was broken and a call answered 16.
    clauses: BTreeMap<String, u64>,
}

/// The answers that must be met.
const ANSWERS: [(&str, &[&str]); 16] = [
    ("pick", PICK),
    ("lent-pick", PICK),
    ("with", &["moved", "waiting-empty", "waiting-full", "ended", "refused 15", "refused 16"]),
    ("feed", FEED),
    ("lent-feed", FEED),
    ("burst", FEED),
    (EMPTY_BURST, &["accepted", "refused 8", "refused 9", "refused 15", "refused 16"]),
    ("close", &["accepted", "refused 8", "refused 9", "refused 11", "refused 16"]),
    ("take", TAKE),
    ("lent-take", TAKE),
    ("relieve", &["enlarged", "refused 13", "refused 14", "refused 15", "refused 16"]),
    ("run", &["moved", "refused 8", "refused 15", "refused 16"]),
    ("drive", &["settled", "ceiling", "spent", "refused 15", "refused 16"]),
    ("read", &["accepted", "refused 1", "refused 2", "refused 3", "refused 4", "refused 5"]),
    ("read", &["refused 6", "refused 7"]),
    ("write", &["written", "refused 15", "refused 16"]),
];
/// A burst of no values, which stands for itself among the answers.
const EMPTY_BURST: &str = "empty burst";
const PICK: &[&str] =
    &["moved", "waiting-empty", "waiting-full", "ended", "refused 8", "refused 15", "refused 16"];
const FEED: &[&str] =
    &["accepted", "refused 8", "refused 9", "refused 10", "refused 11", "refused 15", "refused 16"];
const TAKE: &[&str] =
    &["value", "end", "refused 8", "refused 9", "refused 12", "refused 15", "refused 16"];

/// One line that was played.
pub struct Played<'a> {
    pub text: &'a str,
    pub line: Line<'a>,
    /// The lane before it, for a run and a drive the cells too, and how many were
    /// lent.
    pub before: &'a Lane,
    pub cells: Vec<i32>,
    pub room: usize,
    pub after: &'a Lane,
    /// All that was printed after it.
    pub printed: &'a str,
}

impl Played<'_> {
    /// What the line is counted under.
    fn word(&self) -> &str {
        match &self.line {
            Line::Call(Call::Burst(_, values)) if values.is_empty() => EMPTY_BURST,
            _ => self.text.split(' ').next().unwrap_or(""),
        }
    }

    /// The answer's first word, with a refusal's number. Of a burst's answer, the
    /// first word after the number of values that went in.
    fn answer(&self) -> String {
        let answer = self.printed.strip_prefix(": ").unwrap_or("");
        let mut words = answer.split([' ', ';']);
        let first = match words.next() {
            Some("fed") => words.nth(1),
            word => word,
        };
        match first {
            Some("refused") => format!("refused {}", words.next().unwrap_or("")),
            word => word.unwrap_or("").to_string(),
        }
    }

    /// How many values of a burst went in.
    pub(crate) fn fed(&self) -> u64 {
        let number = self.printed.strip_prefix(": fed ").and_then(|text| text.split(' ').next());
        number.and_then(|text| text.parse().ok()).unwrap_or(0)
    }

    /// Whether the answer names such a number of enlargements that is not 0.
    fn enlarged(&self) -> bool {
        let answer = self.printed.split(';').next().unwrap_or("");
        answer.contains(" enlarged ") && !answer.ends_with(" enlarged 0")
    }
}

impl Met {
    /// Counts a line. `sound` says whether the lane was before it.
    pub fn count(&mut self, played: &Played, sound: bool) {
        self.lines += 1;
        if played.line == Line::Bad {
            self.bad_lines += 1;
            return;
        }
        let answer = played.answer();
        let word = played.word();
        if let Some((word, _)) = ANSWERS.iter().find(|(other, _)| *other == word) {
            *self.answers.entry((word, answer.clone())).or_default() += 1;
        }
        match &played.line {
            Line::Call(call) => {
                self.order(played, call, sound, &answer);
                if sound && played.room == CELLS {
                    self.call(played, call, &answer);
                }
            }
            Line::Write(length) => {
                let fits = played.before.network.fits();
                let needed = if fits { 512 * (1 + played.before.network.code_blocks()) } else { 0 };
                self.meet("write: 16 before 15", !fits && *length == 0);
                self.meet("write: one byte short", fits && length + 1 == needed);
                self.meet("write: just long enough", fits && *length == needed);
                self.meet("write: more than is needed", fits && *length > needed);
                self.meet("write: unsound but for the network", fits && !sound);
            }
            Line::Lane(_) => self.meet("lane: of a refused file", !played.after.network.fits()),
            _ => {}
        }
    }

    /// A clause was broken, and a call on that lane answered 16.
    pub fn clause(&mut self, name: &str, answered: bool) {
        *self.clauses.entry(name.to_string()).or_default() += u64::from(answered);
    }

    /// How often that was so.
    pub fn clause_count(&self, name: &str) -> u64 {
        self.clauses.get(name).copied().unwrap_or(0)
    }

    /// Counts a case that was looked for.
    pub fn meet(&mut self, name: &'static str, met: bool) {
        *self.special.entry(name).or_default() += u64::from(met);
    }

    /// The same of several.
    fn meet_all<const N: usize>(&mut self, names: [&'static str; N], met: [bool; N]) {
        for (name, met) in names.into_iter().zip(met) {
            self.meet(name, met);
        }
    }

    /// Cases in which two refusals could be answered.
    fn order(&mut self, played: &Played, call: &Call, sound: bool, answer: &str) {
        let absent = match *call {
            Call::Pick(number) | Call::Feed(number, _) | Call::Close(number) => number >= CHANNELS,
            Call::Take(number) | Call::Burst(number, _) => number >= CHANNELS,
            _ => false,
        };
        let cells = played.room == CELLS;
        self.meet("15 before 16", !cells && !sound && answer == "refused 15");
        self.meet("15 before 8", !cells && sound && absent && answer == "refused 15");
        self.meet("16 before 8", !sound && absent && answer == "refused 16");
        if played.word() == EMPTY_BURST {
            self.meet("empty burst: 15 before 16", !cells && !sound);
            self.meet("empty burst: 15 before 8 or 9", !cells && sound && !is_fed(played, call));
            self.meet("empty burst: 16 before 8", cells && !sound && absent);
        }
        let no_cells = matches!(call, Call::Close(_) | Call::Relieve(_));
        self.meet("a call without cells, too few lent", !cells && sound && no_cells);
        let no_buffer = *call == Call::Relieve(0);
        self.meet("relieve: 16 before 15", !sound && no_buffer);
        self.meet("relieve: 13 before 15", no_buffer && answer == "refused 13");
        self.meet("relieve: 14 before 15", no_buffer && answer == "refused 14");
    }

    /// A call on a sound lane with the right cells.
    fn call(&mut self, played: &Played, call: &Call, answer: &str) {
        let lane = played.before;
        let all = || lane.network.used_records().iter().zip(&lane.channels);
        let less = all().any(|(record, channel)| channel.capacity < record.capacity);
        self.meet("a capacity below the file's", less);
        let accepted = ["accepted", "value", "end", "enlarged"].contains(&answer);
        let counts = accepted && played.word() != EMPTY_BURST;
        self.meet("accepted at its largest", counts && lane.accepted == u64::MAX);
        fillings::count(self, played, call, answer);
        match *call {
            Call::Pick(process) => self.pick(lane, process, answer),
            Call::Feed(channel, _) => self.feed(lane, channel, answer),
            Call::Burst(channel, ref values) => self.burst(played, channel, values.len(), answer),
            Call::Close(channel) => {
                let held = lane.channels.get(channel).is_some_and(|channel| channel.held > 0);
                self.meet("close: messages held", held && answer == "accepted");
            }
            Call::Take(channel) => self.take(lane, channel, answer),
            Call::Relieve(length) => self.relieve(lane, length, answer),
            Call::Run(ref bytes) => self.run(lane, bytes, played, answer),
            Call::Drive(picks) => self.drive(lane, picks, played, answer),
        }
    }

    fn run(&mut self, lane: &Lane, bytes: &[u8], played: &Played, answer: &str) {
        let moves = |&byte: &u8| {
            let process = usize::from(byte);
            byte < lane.network.processes
                && !lane.has_ended(process)
                && lane.wait(process).is_none()
        };
        let refused = answer == "refused 8";
        self.meet("run: no bytes", bytes.is_empty());
        self.meet("run: 256 bytes", bytes.len() == 256);
        let first_moves = bytes.first().is_some_and(moves);
        self.meet("run: 8 though the first would move", refused && first_moves);
        self.meet("run: enlarged", played.enlarged());
        let relief = bytes.contains(&RELIEF) && !refused;
        self.meet("run: relief that enlarged nothing", relief && !played.enlarged());
        if relief {
            self.meet_all(tails::RUN, reliefs(lane, &played.cells, bytes));
        }
    }

    fn drive(&mut self, lane: &Lane, picks: u64, played: &Played, answer: &str) {
        let processes = u64::from(lane.network.processes);
        // ": settled picks N enlarged N"
        let made = played.printed.split(' ').nth(3).and_then(|text| text.parse().ok()).unwrap_or(0);
        self.meet("drive: fewer picks than processes", picks < processes);
        self.meet("drive: enlarged", played.enlarged());
        self.meet("drive: more than 2^63 picks", picks > 1 << 63);
        let settled = answer == "settled";
        self.meet("drive: settled in its first round", settled && made == processes);
        self.meet("drive: settled with no round left", settled && picks - made < processes);
        let ceiling = answer == "ceiling";
        self.meet("drive: ceiling with no round left", ceiling && picks - made < processes);
        let rounds = rounds(lane, &played.cells, made / processes);
        self.rounds(&rounds, answer);
        let met = |case: usize| rounds.iter().any(|round| round.tails[case]);
        self.meet_all(tails::DRIVE, std::array::from_fn(met));
    }

    /// The rounds of a drive.
    fn rounds(&mut self, rounds: &[Round], answer: &str) {
        let [settled, ceiling, spent] = ["settled", "ceiling", "spent"].map(|end| answer == end);
        let met = |kind: &dyn Fn(&Round) -> bool| rounds.iter().any(kind);
        let enlarged = |round: &Round| round.relieved.is_ok();
        let moved = met(&|round| enlarged(round) && round.moved);
        self.meet("drive: enlarged after a move", moved);
        self.meet("drive: enlarged after no move", met(&|round| enlarged(round) && !round.moved));
        self.meet("drive: enlarged after a move, settled", moved && settled);
        self.meet("drive: enlarged after a move, ceiling", moved && ceiling);
        // Before request 5 these were not relieved.
        let busy = rounds.iter().all(|round| round.moved);
        self.meet("drive: enlarged, a move in every round", moved && busy);
        let beside = met(&|round| round.beside);
        self.meet("drive: enlarged a stuck ring beside a clock", beside);
        self.meet("drive: enlarged a stuck ring beside a clock, all rounds move", beside && busy);
        let freed = rounds.windows(2).any(|two| two[0].beside && two[1].ring_moved);
        self.meet("drive: enlarged a stuck ring beside a clock, it moved", freed);
        let last = |moved| {
            spent && rounds.last().is_some_and(|round| enlarged(round) && round.moved == moved)
        };
        self.meet("drive: enlarged after the last round, a move, spent", last(true));
        self.meet("drive: enlarged after the last round, no move, spent", last(false));
        self.meet("drive: enlarged after the only round, spent", last(true) && rounds.len() == 1);
        let passed = |round: &Round| round.moved && round.relieved == Err(Refusal::Ceiling);
        self.meet("drive: 14 after a move", met(&passed));
        self.meet("drive: 14 after a move, spent", met(&passed) && spent);
        self.meet("drive: 14 after a move, ceiling", met(&passed) && ceiling);
        let later = rounds.iter().skip_while(|round| !passed(round)).any(enlarged);
        self.meet("drive: 14 after a move, enlarged later", later);
        // Relief hangs on the state after the round, and not on its picks.
        let unseen = met(&|round| enlarged(round) && !round.waited_full);
        self.meet("drive: enlarged though no pick waited full", unseen);
        let gone = met(&|round| round.waited_full && round.relieved == Err(Refusal::NoRing));
        self.meet("drive: 13 though a pick waited full", gone);
    }

    /// A drive with as many picks as it can need, or more.
    pub fn limit(&mut self, limit: &Limit, board: &Board, course: &Course, picks: u64) {
        let exactly = picks == limit.picks();
        self.meet("limit: settled with just as many picks", exactly);
        self.meet("limit: settled with more picks", !exactly);
        self.meet("limit: enlarged", exactly && course.enlarged > 0);
        self.meet("limit: enlarged several times", exactly && course.enlarged > 1);
        self.meet("limit: enlarged to 256", course.grew_to_the_largest());
        self.meet("limit: a peak equal to a grown capacity", course.filled_a_grown_one());
        let all = course.rounds == limit.rounds_left(board);
        self.meet("limit: all N + G + 1 rounds made", exactly && all);
        self.meet("limit: an output filled", limit.fills_an_output());
        self.meet("limit: a fault", limit.has_fault());
        self.meet("limit: other steps before", board.moves > 0);
        let both = board.enlarged > 0 && course.enlarged > 0;
        self.meet("limit: enlarged before, and in the drive", both);
        self.meet("limit: input longer than its channel", limit.has_long_input());
    }

    fn pick(&mut self, lane: &Lane, process: usize, answer: &str) {
        let processes = lane.network.processes;
        let cut = process > 255 && (process as u8) < processes;
        self.meet("pick: 8 for a number past 255", cut && answer == "refused 8");
        if process >= usize::from(processes) {
            return;
        }
        self.picks.picking(lane, process);
        self.picks.picked(match answer {
            "moved" => Answer::Moved,
            "waiting-empty" => Answer::WaitingEmpty(0),
            "waiting-full" => Answer::WaitingFull(0),
            _ => Answer::Ended,
        });
        let i = lane.instruction(process);
        let channel = lane.channels[usize::from(i.b) % CHANNELS];
        self.meet("pick: full at 256", answer == "waiting-full" && channel.capacity == CAPACITY);
        let moved = |op: u8| answer == "moved" && i.op == op;
        let full = channel.held == channel.capacity;
        self.meet("pick: a 12 faults, full and closed", moved(12) && channel.closed && full);
        let last = channel.held > 0 && channel.oldest == 255;
        self.meet("pick: received from place 255", moved(11) && last);
        let most = lane.processes[process].moves == u64::MAX;
        self.meet("pick: moves at their largest", answer == "moved" && most);
        self.stop(lane, process, moved(0));
    }

    /// A pick of this process, which stopped or not.
    fn stop(&mut self, lane: &Lane, process: usize, stopped: bool) {
        let some = |kind: fn([bool; 2], &Channel) -> bool| {
            let mut all = lane.network.used_records().iter().zip(&lane.channels);
            all.any(|(record, channel)| {
                let ends = [record.sender, record.receiver].map(|end| usize::from(end) == process);
                kind(ends, channel)
            })
        };
        let closes = some(|[sends, _], channel| sends && !channel.closed);
        let empties = some(|[_, receives], channel| receives && channel.held > 0);
        self.meet("pick: a stop that closes and empties", stopped && closes && empties);
        let own = some(|ends, channel| ends == [true; 2] && !channel.closed && channel.held > 0);
        self.meet("pick: a stop with a self-channel", stopped && own);
    }

    fn feed(&mut self, lane: &Lane, number: usize, answer: &str) {
        let channels = lane.network.channels;
        let cut = number > 255 && (number as u8) < channels;
        self.meet("feed: 8 for a number past 255", cut && answer == "refused 8");
        if number >= usize::from(channels) {
            return;
        }
        let channel = lane.channels[number];
        let (full, accepted) = (channel.is_full(), answer == "accepted");
        let unheard = lane.is_unheard(number as u8);
        self.meet("feed: to an ended receiver", accepted && unheard);
        self.meet("feed: 11 before 10", answer == "refused 11" && full);
        self.meet("feed: full at 256", answer == "refused 10" && channel.capacity == CAPACITY);
        let place = channel.oldest + channel.held;
        self.meet("feed: laid past place 255", accepted && !unheard && place >= CAPACITY);
        let past = place % CAPACITY >= channel.capacity;
        self.meet("feed: laid past the capacity", accepted && !unheard && past);
    }

    fn burst(&mut self, played: &Played, number: usize, length: usize, answer: &str) {
        let lane = played.before;
        let channels = lane.network.channels;
        let cut = number > 255 && (number as u8) < channels;
        self.meet("burst: 8 for a number past 255", cut && answer == "refused 8");
        if number >= usize::from(channels) {
            return;
        }
        let channel = lane.channels[number];
        let unheard = lane.is_unheard(number as u8);
        if length == 0 {
            return self.empty_burst(channel, unheard, answer);
        }
        let (fed, accepted) = (played.fed(), answer == "accepted");
        let full = answer == "refused 10";
        self.meet("burst: of one, in", accepted && length == 1);
        self.meet("burst: of more than one, all in", accepted && length > 1 && !unheard);
        self.meet(
            "burst: as many as find room",
            accepted && played.after.channels[number].is_full(),
        );
        self.meet("burst: some in, then 10", full && fed > 0);
        self.meet("burst: some in, several left, 10", full && fed > 0 && fed + 1 < length as u64);
        self.meet("burst: none in, 10", full && fed == 0);
        self.meet("burst: 256 in", fed == CAPACITY.into() && !unheard);
        self.meet("burst: 512 values", length == VALUES);
        self.meet("burst: 11 before 10", answer == "refused 11" && channel.is_full());
        self.meet("burst: 9 on a closed one", answer == "refused 9" && channel.closed);
        self.meet("burst: 9 on a full one", answer == "refused 9" && channel.is_full());
        let more = accepted && unheard && length > channel.capacity.into();
        self.meet("burst: more than the capacity to an ended receiver", more);
        self.counts(lane.accepted, fed);
        let first = u64::from(channel.oldest + channel.held);
        let round = first < CAPACITY.into() && first + fed > CAPACITY.into();
        self.meet("burst: laid round place 255", round && !unheard);
    }

    /// So many values of a burst were counted.
    fn counts(&mut self, accepted: u64, fed: u64) {
        let left = u64::MAX - accepted;
        self.meet("burst: accepted at its largest", left == 0 && fed > 1);
        self.meet("burst: accepted comes to its largest on the way", left > 0 && fed > left);
    }

    /// A burst of no values on a channel that is there.
    fn empty_burst(&mut self, channel: Channel, unheard: bool, answer: &str) {
        let (accepted, full) = (answer == "accepted", channel.is_full());
        let ordinary = !channel.closed && !full && !unheard;
        self.meet("empty burst: on an ordinary channel", accepted && ordinary);
        self.meet("empty burst: on a full channel", accepted && full && !channel.closed);
        self.meet("empty burst: on a closed channel", accepted && channel.closed && !full);
        self.meet("empty burst: on one full and closed", accepted && full && channel.closed);
        self.meet("empty burst: to an ended receiver", accepted && unheard);
        let inside = answer == "refused 9";
        self.meet("empty burst: 9 on a full or closed one", inside && (full || channel.closed));
    }

    fn take(&mut self, lane: &Lane, number: usize, answer: &str) {
        let channels = lane.network.channels;
        let cut = number > 255 && (number as u8) < channels;
        self.meet("take: 8 for a number past 255", cut && answer == "refused 8");
        if number >= usize::from(channels) {
            return;
        }
        let channel = lane.channels[number];
        let value = answer == "value";
        self.meet("take: a value before the end", value && channel.closed);
        self.meet("take: from place 255", value && channel.oldest == 255);
        self.meet("take: 256 held", value && channel.held == CAPACITY);
    }

    fn relieve(&mut self, lane: &Lane, length: usize, answer: &str) {
        let found = lane.find_ring();
        if answer != "refused 15" {
            self.picks.relieved(found);
            self.meet_all(tails::RELIEVE, tails::cases(lane));
        }
        let Ok(ring) = found else { return };
        let members = ring.members();
        let short = answer == "refused 15" && length + 1 == members.len();
        self.meet("relieve: buffer one short", short);
        let enlarged = answer == "enlarged";
        self.meet("relieve: buffer just long enough", enlarged && length == members.len());
        self.meet("relieve: buffer longer than the ring", enlarged && length > members.len());
        self.meet("relieve: a ring of two", enlarged && members.len() == 2);
        let waits = || members.iter().map(|&member| lane.wait(member.into()));
        let capacity = |channel: u8| lane.channels[usize::from(channel)].capacity;
        let least = capacity(ring.channel);
        let empty = waits().any(|wait| matches!(wait, Some(Wait::Empty(_))));
        self.meet("relieve: a ring with an empty wait", enlarged && empty);
        let smaller = waits()
            .any(|wait| matches!(wait, Some(Wait::Empty(channel)) if capacity(channel) < least));
        self.meet("relieve: a smaller channel, empty", enlarged && smaller);
        let equal = waits().filter(
            |wait| matches!(wait, Some(Wait::Full(channel)) if capacity(*channel) == least),
        );
        self.meet("relieve: the lowest of equal ones", enlarged && equal.count() > 1);
    }

    /// What was not met, each by its name.
    pub fn missing(&self, clauses: impl Iterator<Item = String>) -> Vec<String> {
        let mut counts = vec![("a bad line".to_string(), self.bad_lines)];
        for (word, answers) in ANSWERS {
            for answer in answers {
                let count = self.answers.get(&(word, answer.to_string())).copied();
                counts.push((format!("{word}: {answer}"), count.unwrap_or(0)));
            }
        }
        for name in clauses {
            let count = self.clause_count(&name);
            counts.push((format!("broken and answered 16: {name}"), count));
        }
        counts.extend(self.cases());
        names_of_none(counts)
    }

    /// The cases worth a look.
    fn cases(&self) -> Vec<Counted> {
        let special = self.special.iter().map(|(name, &count)| (name.to_string(), count));
        self.picks.counts().into_iter().chain(special).collect()
    }
}

/// Whether a burst names a channel that is fed from outside.
fn is_fed(played: &Played, call: &Call) -> bool {
    let Call::Burst(number, _) = *call else { return false };
    let record = played.before.network.used_records().get(number);
    record.is_some_and(|record| record.sender == OUTSIDE)
}

/// A round of a drive and the relief after it.
struct Round {
    moved: bool,
    /// A pick answered waiting-full.
    waited_full: bool,
    relieved: Result<Ring, Refusal>,
    /// It enlarged a ring of which none moved, though another process did.
    beside: bool,
    /// A process moved that stands on the ring enlarged after the round before.
    ring_moved: bool,
    /// What the relief found.
    tails: tails::Cases,
}

/// So many rounds of a drive.
fn rounds(lane: &Lane, cells: &[i32], count: u64) -> Vec<Round> {
    let mut lane = lane.clone();
    let mut cells: Cells = cells.try_into().expect("the cells of a drive");
    let mut rounds: Vec<Round> = Vec::new();
    for _ in 0..count {
        let mut moves = [false; PROCESSES];
        let mut waited_full = false;
        let processes = usize::from(lane.network.processes);
        for (process, moved) in moves[..processes].iter_mut().enumerate() {
            let answer = lane.step(&mut cells, process);
            *moved = answer == Answer::Moved;
            waited_full |= matches!(answer, Answer::WaitingFull(_));
        }
        let moved = moves.contains(&true);
        let tails = tails::cases(&lane);
        let relieved = lane.relieve();
        let moved_of = |ring: Ring| ring.members().iter().any(|&member| moves[usize::from(member)]);
        let beside = moved && relieved.is_ok_and(|ring| !moved_of(ring));
        let before = rounds.last().and_then(|round| round.relieved.ok());
        let ring_moved = before.is_some_and(moved_of);
        rounds.push(Round { moved, waited_full, relieved, beside, ring_moved, tails });
    }
    rounds
}

/// What the reliefs of a run find.
fn reliefs(lane: &Lane, cells: &[i32], bytes: &[u8]) -> tails::Cases {
    let mut lane = lane.clone();
    let mut cells: Cells = cells.try_into().expect("the cells of a run");
    let mut met = tails::Cases::default();
    for &byte in bytes {
        if byte == RELIEF {
            let cases = tails::cases(&lane);
            met = std::array::from_fn(|case| met[case] | cases[case]);
            _ = lane.relieve();
        } else {
            lane.step(&mut cells, byte.into());
        }
    }
    met
}

impl fmt::Display for Met {
    fn fmt(&self, to: &mut fmt::Formatter) -> fmt::Result {
        write!(to, "{} scripts, {} lines", self.scripts, self.lines)?;
        writeln!(to, ", {} of them bad", self.bad_lines)?;
        let mut words = ANSWERS.map(|(word, _)| word).to_vec();
        words.dedup();
        for word in words {
            write!(to, "{word}")?;
            for ((_, answer), count) in self.answers.iter().filter(|((of, _), _)| *of == word) {
                write!(to, "  {answer}: {count}")?;
            }
            writeln!(to)?;
        }
        self.print_cases(to)?;
        let least = self.clauses.values().min().copied().unwrap_or(0);
        let all: u64 = self.clauses.values().sum();
        let clauses = self.clauses.len();
        write!(to, "{clauses} clauses broken and answered 16, ")?;
        writeln!(to, "each {least} times or more, {all} in all")
    }
}

impl Met {
    /// The cases one after the other, in lines that are not too long.
    fn print_cases(&self, to: &mut fmt::Formatter) -> fmt::Result {
        let mut line = String::new();
        for (name, count) in self.cases() {
            let text = format!("{name}: {count}");
            if line.len() + text.len() > 150 {
                writeln!(to, "{line}")?;
                line.clear();
            }
            line += if line.is_empty() { "" } else { "; " };
            line += &text;
        }
        writeln!(to, "{line}")
    }
}
