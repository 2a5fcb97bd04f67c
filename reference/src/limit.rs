//! How many picks a drive can need (request 11). Where the plain order ends every
//! process, after N moves and G messages sent from inside, a drive of the fresh
//! lane with all input fed and closed needs P × (N + G + 1) at most. Other calls
//! may have been made before it: their moves and enlargements count as rounds.

use crate::board::{Board, Leanings};
use crate::calls::{pick, Answer};
use crate::gen::fed;
use crate::lane::{Cells, Condition, Lane};
use crate::network::{Network, CAPACITY, OUTSIDE};
use crate::plain::{Plain, Stream};
use crate::plans;
use crate::random::Random;
use crate::refusal::Refusal;
use crate::schedule::{drive, Driven, End};

/// A plain order that has not ended every process after so many rounds is given
/// up.
const ROUNDS: usize = 1_000;

/// A network and its input, a list for each channel, of which the limit holds.
pub struct Limit<'a> {
    network: &'a Network,
    input: &'a [Vec<i32>],
    /// The plain order when every process has ended.
    plain: Plain<'a>,
    /// N: the moves of all processes in the plain order.
    pub moves: u64,
    /// G: the messages sent from inside, those to outside too.
    pub sent: u64,
}

impl Limit<'_> {
    /// The request's own case: all input finds room before the drive.
    pub fn of<'a>(network: &'a Network, input: &'a [Vec<i32>]) -> Option<Limit<'a>> {
        Limit::with_any_input(network, input).filter(|limit| !limit.has_long_input())
    }

    /// An input may be longer than its channel has room for: it is then fed bit by
    /// bit. None where the plain order does not end every process, sends more than
    /// 256 on a channel, or more than its capacity on one to outside.
    pub fn with_any_input<'a>(network: &'a Network, input: &'a [Vec<i32>]) -> Option<Limit<'a>> {
        let plain = ended(network, input)?;
        let streams = || network.used_records().iter().zip(&plain.streams);
        let finds_room = streams().all(|(record, stream)| {
            let room = if record.receiver == OUTSIDE { record.capacity } else { CAPACITY };
            stream.sent.len() <= room.into()
        });
        let moves = plain.processes.iter().map(|process| process.moves).sum();
        let inside = streams().filter(|(record, _)| record.sender != OUTSIDE);
        let sent = inside.map(|(_, stream)| stream.sent.len() as u64).sum();
        finds_room.then_some(Limit { network, input, plain, moves, sent })
    }

    /// The most rounds that a drive can make.
    pub fn rounds(&self) -> u64 {
        self.moves + self.sent + 1
    }

    /// The picks that these rounds take. 64 bits hold them: the plain order made
    /// but few rounds.
    pub fn picks(&self) -> u64 {
        u64::from(self.network.processes) * self.rounds()
    }

    /// The rounds that are left to a drive after what was done before it.
    pub fn rounds_left(&self, board: &Board) -> u64 {
        self.rounds() - board.moves - board.enlarged
    }

    /// The fresh lane with all its input fed and closed.
    pub fn lane(&self, cells: Box<Cells>) -> Board<'_> {
        let mut board = Board::new(self.network, self.input, cells);
        for channel in fed(self.network).into_iter().map(usize::from) {
            while board.feed(channel) {}
            assert!(board.close(channel), "room for all input");
        }
        board
    }

    /// The fresh lane after calls of any kind, fewer than so many at first, and
    /// then until all input is fed and closed.
    pub fn other_steps(&self, random: &mut Random, cells: Box<Cells>, most: usize) -> Board<'_> {
        let mut board = Board::new(self.network, self.input, cells);
        let leanings = Leanings::any(random);
        for _ in 0..random.below(most) {
            board.any_call(random, &leanings);
            self.test_never_more(&board);
        }
        while !board.has_all_input() {
            // Processes that all wait, none of them for the outside, stand before a
            // ring. The plain order ends them, so one of its waits is a full one.
            assert!(board.lap(), "stuck for good");
            self.test_never_more(&board);
            board.any_call(random, &leanings);
            self.test_never_more(&board);
        }
        board
    }

    /// What holds at any moment, all input fed or not. No count ever falls, so that
    /// one look after several calls is enough.
    fn test_never_more(&self, board: &Board) {
        assert!(board.moves <= self.moves, "{} moves", board.moves);
        assert!(board.enlarged <= self.sent, "{} enlargements", board.enlarged);
        // Who waits at a full channel of 256 has a message more to send.
        assert_eq!(board.refused[usize::from(Refusal::Ceiling.number())], 0);
    }

    /// Makes the rounds of a drive of that lane one by one, and holds them to all
    /// that the limit promises.
    pub fn course(&self, board: &Board) -> Course {
        let mut course = Course::of(board, self.rounds_left(board));
        assert!(course.is_over, "it goes on after N + G + 1 rounds");
        let enlarged = board.enlarged + course.enlarged;
        assert!(enlarged <= self.sent, "{enlarged} enlargements");
        assert!(!course.met_ceiling, "a relief was refused with 14");
        let processes = self.plain.processes.len();
        for process in 0..processes {
            let answer = pick(&mut course.lane, &mut course.cells[..], process);
            assert_eq!(answer, Ok(Answer::Ended));
        }
        assert_eq!(course.lane.processes[..processes], self.plain.processes);
        assert!(course.sent.iter().eq(self.plain.streams.iter().map(|stream| &stream.sent)));
        course
    }

    /// Whether a channel to outside gets just as much as it has room for.
    pub fn fills_an_output(&self) -> bool {
        let mut streams = self.network.used_records().iter().zip(&self.plain.streams);
        streams.any(|(record, stream)| {
            record.receiver == OUTSIDE && stream.sent.len() == record.capacity.into()
        })
    }

    /// Whether an input is longer than its channel has room for at first.
    pub fn has_long_input(&self) -> bool {
        let mut streams = self.network.used_records().iter().zip(&self.plain.streams);
        streams.any(|(record, stream)| {
            record.sender == OUTSIDE && stream.sent.len() > record.capacity.into()
        })
    }

    pub fn has_fault(&self) -> bool {
        self.plain.processes.iter().any(|process| process.condition == Condition::Faulted)
    }
}

/// The plain order after its first round in which every process has ended.
fn ended<'a>(network: &'a Network, input: &[Vec<i32>]) -> Option<Plain<'a>> {
    let mut plain = Plain::start(network, input);
    for _ in 0..ROUNDS {
        plain.round();
        if plain.processes.iter().all(|process| process.condition != Condition::Live) {
            return Some(plain);
        }
    }
    None
}

/// The rounds of a drive, each of P picks and a relief, and what came of them.
pub struct Course {
    pub rounds: u64,
    /// Rounds with a move.
    pub busy: u64,
    /// Reliefs that enlarged.
    pub enlarged: u64,
    /// Whether a relief was refused with 14, after a move or not.
    met_ceiling: bool,
    /// Whether the last round had no move, and its relief was refused.
    is_over: bool,
    /// What was sent on each channel.
    sent: Vec<Vec<i32>>,
    lane: Lane,
    cells: Box<Cells>,
}

impl Course {
    /// So many rounds at most.
    fn of(board: &Board, most: u64) -> Course {
        let mut course = Course {
            rounds: 0,
            busy: 0,
            enlarged: 0,
            met_ceiling: false,
            is_over: false,
            sent: board.sent.clone(),
            lane: board.lane.clone(),
            cells: board.cells.clone(),
        };
        while course.rounds < most && !course.is_over {
            course.round();
        }
        course
    }

    fn round(&mut self) {
        let mut moved = false;
        for process in 0..self.lane.network.processes.into() {
            moved |= self.pick(process);
        }
        self.rounds += 1;
        self.busy += u64::from(moved);
        match self.lane.relieve() {
            Ok(_) => self.enlarged += 1,
            Err(refusal) => {
                self.met_ceiling |= refusal == Refusal::Ceiling;
                self.is_over = !moved;
            }
        }
    }

    /// Whether this pick moved.
    fn pick(&mut self, process: usize) -> bool {
        let sending = self.lane.sending(process);
        let moved = self.lane.step(&mut self.cells, process) == Answer::Moved;
        if let (true, Some((channel, value))) = (moved, sending) {
            self.sent[channel].push(value);
        }
        moved
    }

    /// What a drive reports that settles after just these rounds.
    pub fn settled(&self) -> Driven {
        let picks = u64::from(self.lane.network.processes) * self.rounds;
        Driven { end: End::Settled, picks, enlarged: self.enlarged }
    }

    /// Whether a channel was enlarged to the largest capacity.
    pub fn grew_to_the_largest(&self) -> bool {
        let mut channels = self.lane.network.used_records().iter().zip(&self.lane.channels);
        channels.any(|(record, channel)| record.capacity < CAPACITY && channel.capacity == CAPACITY)
    }

    /// Whether an enlarged channel held as much as it then had room for.
    pub fn filled_a_grown_one(&self) -> bool {
        let mut channels = self.lane.network.used_records().iter().zip(&self.lane.channels);
        channels.any(|(record, channel)| {
            channel.capacity > record.capacity && channel.peak == channel.capacity
        })
    }

    /// Holds a drive of the same lane to these rounds.
    pub fn drive(&self, board: &Board, picks: u64) {
        let (mut lane, mut cells) = (board.lane.clone(), board.cells.clone());
        assert_eq!(drive(&mut lane, &mut cells[..], picks), Ok(self.settled()));
        assert!(lane == self.lane && cells == self.cells);
    }
}

/// A random network with input, of which the limit holds in the request's own
/// case.
pub fn case(random: &mut Random) -> (Network, Vec<Vec<i32>>) {
    any_case(random, 12, false)
}

/// The same where inputs have up to so many values, and may be longer than their
/// channels have room for.
pub fn case_with_any_input(random: &mut Random, longest: usize) -> (Network, Vec<Vec<i32>>) {
    any_case(random, longest, true)
}

fn any_case(random: &mut Random, longest: usize, any_input: bool) -> (Network, Vec<Vec<i32>>) {
    loop {
        let mut network =
            if random.percent(25) { plans::lane(random) } else { plans::ending(random) };
        let values = |_| (0..random.below(longest + 1)).map(|_| random.value()).collect();
        let input: Vec<Vec<i32>> = (0..network.channels).map(values).collect();
        let Some(Plain { streams, .. }) = ended(&network, &input) else { continue };
        make_room(random, &mut network, &streams, any_input);
        if Limit::with_any_input(&network, &input).is_some() {
            return (network, input);
        }
    }
}

/// Gives the channels to outside, and for some cases those from there, capacity
/// for all that is sent on them, often no more than that.
fn make_room(random: &mut Random, network: &mut Network, streams: &[Stream], any_input: bool) {
    for (record, stream) in network.records.iter_mut().zip(streams) {
        let least = stream.sent.len().clamp(1, CAPACITY.into()) as u16;
        let is_due = record.receiver == OUTSIDE || record.sender == OUTSIDE && !any_input;
        if is_due && (record.capacity < least || random.percent(50)) {
            record.capacity = least;
        }
    }
}
