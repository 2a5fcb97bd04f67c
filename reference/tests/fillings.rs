//! The most messages that each channel has held since the start, its peak (request
//! 6): by hand, what raises it, what leaves it and what of it is sound. Then on
//! random lanes: after any calls, runs and drives from the start on it is the
//! greatest number held in any state on the way.

mod common;
use common::*;
use reference::board::Board;
use reference::calls::{burst, close, feed, pick, take, Answer, Taken};
use reference::lane::{Channel, Condition, Lane, CELLS};
use reference::network::{code, Instruction, Network, Record, CHANNELS, OUTSIDE};
use reference::plans;
use reference::random::Random;
use reference::refusal::Refusal;
use reference::relief::{relieve, Relieved};
use reference::schedule::{drive, run};

/// A lane, its cells, and the most that each channel held in the states seen.
#[derive(Clone)]
struct Watched {
    lane: Lane,
    cells: Vec<i32>,
    most: [u16; CHANNELS],
}

impl Watched {
    /// From a fresh lane on.
    fn new(lane: Lane) -> Watched {
        Watched { lane, cells: vec![0; CELLS], most: [0; CHANNELS] }.seen()
    }

    /// Looks at the state after a single step.
    fn look(&mut self) {
        for (most, channel) in self.most.iter_mut().zip(&self.lane.channels) {
            *most = channel.held.max(*most);
        }
        assert_eq!(self.lane.channels.map(|channel| channel.peak), self.most);
    }

    fn seen(mut self) -> Watched {
        self.look();
        self
    }

    fn pick(&mut self, process: usize) -> Result<Answer, Refusal> {
        let answer = pick(&mut self.lane, &mut self.cells, process);
        self.look();
        answer
    }

    fn feed(&mut self, channel: usize, value: i32) -> Result<(), Refusal> {
        let answer = feed(&mut self.lane, &mut self.cells, channel, value);
        self.look();
        answer
    }

    fn close(&mut self, channel: usize) -> Result<(), Refusal> {
        let answer = close(&mut self.lane, channel);
        self.look();
        answer
    }

    fn take(&mut self, channel: usize) -> Result<Taken, Refusal> {
        let answer = take(&mut self.lane, &self.cells, channel);
        self.look();
        answer
    }

    /// Only a full channel grows: what it holds is its peak and its capacity.
    fn relieve(&mut self) -> Result<Relieved, Refusal> {
        let before = self.lane.channels;
        let answer = relieve(&mut self.lane, &mut [0; 16]);
        self.look();
        if let Ok(Relieved { channel, .. }) = answer {
            let Channel { capacity, held, peak, .. } = before[usize::from(channel)];
            assert_eq!((held, peak), (capacity, capacity));
        }
        answer
    }

    /// A burst, and its feeds one by one beside it. Answers how many went in.
    fn burst(&mut self, channel: usize, values: &[i32]) -> usize {
        let mut singly = self.clone();
        let stopped = values.iter().position(|&value| singly.feed(channel, value).is_err());
        let answer = burst(&mut self.lane, &mut self.cells, channel, values);
        assert_eq!(answer.fed, stopped.unwrap_or(values.len()));
        self.is_now(singly);
        answer.fed
    }

    /// A run, and its picks and reliefs one by one beside it.
    fn run(&mut self, bytes: &[u8]) {
        let mut singly = self.clone();
        for &byte in bytes {
            match byte {
                255 => _ = singly.relieve(),
                process => _ = singly.pick(process.into()),
            }
        }
        run(&mut self.lane, &mut self.cells, bytes).unwrap();
        self.is_now(singly);
    }

    /// A drive, and the picks and reliefs of its rounds one by one beside it.
    fn drive(&mut self, picks: u64) {
        let mut singly = self.clone();
        let driven = drive(&mut self.lane, &mut self.cells, picks).unwrap();
        let processes = self.lane.network.processes;
        for _ in 0..driven.picks / u64::from(processes) {
            for process in 0..processes {
                singly.pick(process.into()).unwrap();
            }
            _ = singly.relieve();
        }
        self.is_now(singly);
    }

    /// The same came of the single steps, the peaks too; their states were seen.
    fn is_now(&mut self, singly: Watched) {
        assert!(self.lane == singly.lane && self.cells == singly.cells);
        *self = singly;
    }

    /// What the first channels hold, and their peaks.
    fn fillings<const COUNT: usize>(&self) -> [(u16, u16); COUNT] {
        let channels: [Channel; COUNT] = self.lane.channels[..COUNT].try_into().unwrap();
        channels.map(|channel| (channel.held, channel.peak))
    }

    /// So many picks of a process that all move.
    fn moves(&mut self, process: usize, count: usize) {
        for _ in 0..count {
            assert_eq!(self.pick(process), Ok(Answer::Moved));
        }
    }
}

/// Receives from one channel, sends to another, and so on; stops at the end.
fn passes(from: u8, to: u8) -> [Instruction; 4] {
    [code(11, 0, from, 3), code(12, 0, to, 0), code(8, 0, 0, 0), STOP]
}

/// Channels: 0 in, 1 from process 0 to process 1, 2 out. Both pass on.
fn passing(capacity: u16) -> Watched {
    let channels = [from_outside(0, capacity), channel(0, 1, capacity), to_outside(1, capacity)];
    Watched::new(fresh(&[&passes(0, 1), &passes(1, 2)], &channels))
}

#[test]
fn a_feed_raises_it() {
    let mut lane = passing(3);
    assert_eq!(lane.fillings(), [(0, 0); 3]);
    assert_eq!(lane.feed(0, 7), Ok(()));
    assert_eq!(lane.fillings(), [(1, 1), (0, 0), (0, 0)]);
    assert_eq!(lane.feed(0, 7), Ok(()));
    assert_eq!(lane.fillings(), [(2, 2), (0, 0), (0, 0)]);
    // Where more were held before, it stays.
    lane.moves(0, 1);
    assert_eq!(lane.fillings(), [(1, 2), (0, 0), (0, 0)]);
    assert_eq!(lane.feed(0, 7), Ok(()));
    assert_eq!(lane.fillings(), [(2, 2), (0, 0), (0, 0)]);
    assert_eq!(lane.feed(0, 7), Ok(()));
    assert_eq!(lane.fillings(), [(3, 3), (0, 0), (0, 0)]);
    // One that is refused does nothing.
    assert_eq!(lane.feed(0, 7), Err(Refusal::Full));
    assert_eq!(lane.fillings(), [(3, 3), (0, 0), (0, 0)]);
}

#[test]
fn a_send_raises_it() {
    let mut lane = passing(3);
    assert_eq!(lane.burst(0, &[1, 2, 3]), 3);
    for sent in 1..=3 {
        lane.moves(0, 3);
        assert_eq!(lane.fillings(), [(3 - sent, 3), (sent, sent), (0, 0)]);
    }
    // One that waits does nothing.
    assert_eq!(lane.feed(0, 4), Ok(()));
    lane.moves(0, 1);
    assert_eq!(lane.pick(0), Ok(Answer::WaitingFull(1)));
    assert_eq!(lane.fillings(), [(0, 3), (3, 3), (0, 0)]);
    // One is received, and one sent in its place.
    lane.moves(1, 2);
    assert_eq!(lane.fillings(), [(0, 3), (2, 3), (1, 1)]);
    lane.moves(0, 1);
    assert_eq!(lane.fillings(), [(0, 3), (3, 3), (1, 1)]);
}

#[test]
fn a_burst_raises_it() {
    let mut lane = passing(6);
    assert_eq!(lane.burst(0, &[]), 0);
    assert_eq!(lane.fillings(), [(0, 0), (0, 0), (0, 0)]);
    assert_eq!(lane.burst(0, &[1, 2, 3]), 3);
    assert_eq!(lane.fillings(), [(3, 3), (0, 0), (0, 0)]);
    // Two are received; of three more only the last raises it.
    lane.moves(0, 4);
    assert_eq!(lane.fillings(), [(1, 3), (1, 1), (0, 0)]);
    assert_eq!(lane.clone().burst(0, &[4, 5]), 2);
    assert_eq!(lane.burst(0, &[4, 5, 6]), 3);
    assert_eq!(lane.fillings(), [(4, 4), (1, 1), (0, 0)]);
    // Of four more two find room.
    assert_eq!(lane.burst(0, &[7, 8, 9, 10]), 2);
    assert_eq!(lane.fillings(), [(6, 6), (1, 1), (0, 0)]);
}

#[test]
fn gets_leave_it() {
    let mut lane = passing(2);
    assert_eq!(lane.burst(0, &[1, 2]), 2);
    lane.moves(0, 4);
    assert_eq!(lane.fillings(), [(0, 2), (1, 1), (0, 0)]);
    lane.moves(0, 1);
    lane.moves(1, 5);
    assert_eq!(lane.fillings(), [(0, 2), (0, 2), (2, 2)]);
    assert_eq!(lane.take(2), Ok(Taken::Value(1)));
    assert_eq!(lane.fillings(), [(0, 2), (0, 2), (1, 2)]);
    assert_eq!(lane.take(2), Ok(Taken::Value(2)));
    assert_eq!(lane.take(2), Err(Refusal::Empty));
    assert_eq!(lane.fillings(), [(0, 2), (0, 2), (0, 2)]);
}

#[test]
fn closings_and_the_end_leave_it() {
    let mut lane = passing(2);
    assert_eq!(lane.burst(0, &[1, 2]), 2);
    lane.moves(0, 3);
    assert_eq!(lane.close(0), Ok(()));
    assert_eq!(lane.close(0), Err(Refusal::Closed));
    assert_eq!(lane.feed(0, 3), Err(Refusal::Closed));
    assert_eq!(lane.fillings(), [(1, 2), (1, 1), (0, 0)]);
    // Process 0 receives the end and stops: channel 1 closes.
    lane.moves(0, 4);
    lane.moves(1, 1);
    lane.moves(0, 1);
    assert!(lane.lane.has_ended(0) && lane.lane.channels[1].closed);
    assert_eq!(lane.fillings(), [(0, 2), (1, 2), (0, 0)]);
    lane.moves(1, 7);
    assert_eq!(lane.fillings(), [(0, 2), (0, 2), (2, 2)]);
    for answer in [Taken::Value(1), Taken::Value(2), Taken::End, Taken::End] {
        assert_eq!(lane.take(2), Ok(answer));
    }
    assert_eq!(lane.fillings(), [(0, 2), (0, 2), (0, 2)]);
    // By instruction 13, and at a 13 and a 12 that fault.
    for last in [code(12, 0, 0, 0), code(13, 0, 0, 0)] {
        let closes = [code(12, 0, 0, 0), code(12, 0, 0, 0), code(13, 0, 0, 0), last, STOP];
        let mut lane = Watched::new(fresh(&[&closes], &[to_outside(0, 2)]));
        lane.moves(0, 2);
        assert_eq!(lane.take(0), Ok(Taken::Value(0)));
        lane.moves(0, 1);
        assert_eq!((lane.lane.channels[0].closed, lane.fillings()), (true, [(1, 2)]));
        lane.moves(0, 1);
        assert_eq!(lane.lane.processes[0].condition, Condition::Faulted);
        assert_eq!(lane.fillings(), [(1, 2)]);
    }
}

/// Channels: 0 in, 1 from process 1 to process 0, 2 from process 0 to itself.
/// Process 0 sends twice on channel 2, receives from it, and stops or faults;
/// process 1 sends without end.
fn ending(last: Instruction) -> Watched {
    let sends = [code(12, 0, 2, 0), code(12, 0, 2, 0), code(11, 0, 2, 0), last, STOP];
    let channels = [from_outside(0, 3), channel(1, 0, 3), channel(0, 0, 2)];
    Watched::new(fresh(&[&sends, &[code(12, 0, 1, 0), code(8, 0, 0, 0)]], &channels))
}

#[test]
fn an_ending_receiver_leaves_it() {
    for last in [STOP, code(6, 1, 1, 1)] {
        let mut lane = ending(last);
        assert_eq!(lane.burst(0, &[1, 2]), 2);
        lane.moves(1, 5);
        lane.moves(0, 3);
        assert_eq!(lane.fillings(), [(2, 2), (3, 3), (1, 2)]);
        lane.moves(0, 1);
        assert!(lane.lane.has_ended(0));
        assert_eq!(lane.fillings(), [(0, 2), (0, 3), (0, 2)]);
    }
}

/// What is sent to an ended receiver is not held.
#[test]
fn unstored_messages_leave_it() {
    for last in [STOP, code(6, 1, 1, 1)] {
        for before in [0, 2] {
            let mut lane = ending(last);
            assert_eq!(lane.burst(0, &[1, 2][..before]), before);
            lane.moves(1, before);
            lane.moves(0, 4);
            let peaks = [(0, before as u16), (0, before as u16 / 2), (0, 2)];
            assert_eq!(lane.fillings(), peaks);
            for value in 0..5 {
                assert_eq!(lane.feed(0, value), Ok(()));
                assert_eq!(lane.burst(0, &[value; 9]), 9);
                lane.moves(1, 2);
                assert_eq!(lane.fillings(), peaks);
            }
            lane.run(&[1; 20]);
            lane.drive(20);
            assert_eq!(lane.fillings(), peaks);
        }
    }
}

/// A process that sends to itself without end.
fn filler(capacity: u16) -> Watched {
    Watched::new(fresh(&[&[code(12, 0, 0, 0), code(8, 0, 0, 0)]], &[channel(0, 0, capacity)]))
}

#[test]
fn an_enlargement_leaves_it() {
    let mut lane = filler(1);
    let mut expected = Channel { capacity: 1, oldest: 0, held: 0, peak: 0, closed: false };
    for held in 1..=5 {
        lane.moves(0, 2);
        (expected.held, expected.peak) = (held, held);
        assert_eq!(lane.lane.channels[0], expected);
        assert_eq!(lane.pick(0), Ok(Answer::WaitingFull(0)));
        assert_eq!(lane.relieve(), Ok(Relieved { length: 1, channel: 0 }));
        expected.capacity = held + 1;
        assert_eq!(lane.lane.channels[0], expected);
        assert_eq!(lane.relieve(), Err(Refusal::NoRing));
    }
    // The same in a run and in a drive, which ends before the next send.
    let mut lane = filler(3);
    lane.run(&[0, 0, 0, 0, 0, 0, 255, 255]);
    assert_eq!((lane.lane.channels[0].capacity, lane.fillings()), (4, [(3, 3)]));
    let mut lane = filler(3);
    lane.drive(6);
    assert_eq!((lane.lane.channels[0].capacity, lane.fillings()), (4, [(3, 3)]));
    lane.drive(1);
    assert_eq!((lane.lane.channels[0].capacity, lane.fillings()), (4, [(4, 4)]));
}

#[test]
fn a_peak_equal_to_a_grown_capacity() {
    let mut lane = filler(254);
    lane.drive(u64::MAX);
    assert_eq!((lane.lane.channels[0].capacity, lane.fillings()), (256, [(256, 256)]));
    assert_eq!(lane.relieve(), Err(Refusal::Ceiling));
    assert!(lane.lane.is_sound());
}

/// Places are counted round, messages not.
#[test]
fn it_does_not_hang_on_places() {
    let mut lane = passing(3);
    for value in 0..300 {
        assert_eq!(lane.burst(0, &[value, value]), 2);
        lane.run(&[0, 0, 0, 0, 0, 0, 1, 1, 1, 1, 1, 1]);
        assert_eq!(lane.take(2), Ok(Taken::Value(value)));
        assert_eq!(lane.take(2), Ok(Taken::Value(value)));
        assert_eq!(lane.fillings(), [(0, 2), (0, 2), (0, 2)]);
    }
}

#[test]
fn what_is_sound() {
    let is_sound = |number: usize, channel: Channel| {
        let mut lane = passing(3).lane;
        lane.channels[number] = channel;
        let refusal = pick(&mut lane, &mut cells()[..], 9);
        refusal == Err(Refusal::Absent) && lane.is_sound()
    };
    for number in 0..3 {
        for capacity in [1, 2, 3, 255, 256] {
            for held in [0, 1, 2, 254, 255, 256, 257] {
                for peak in [0, 1, 2, 3, 4, 254, 255, 256, 257, 258, 65_535] {
                    let channel = Channel { capacity, held, peak, oldest: 9, closed: false };
                    let expected = held <= peak && peak <= capacity;
                    assert_eq!(is_sound(number, channel), expected, "{channel:?}");
                }
            }
        }
    }
    // The cases of the request by themselves.
    let full = Channel { capacity: 3, held: 3, peak: 3, oldest: 0, closed: false };
    assert!(is_sound(1, full));
    assert!(is_sound(1, Channel { held: 0, ..full }));
    assert!(!is_sound(1, Channel { peak: 2, ..full }));
    assert!(!is_sound(1, Channel { peak: 4, ..full }));
    assert!(!is_sound(1, Channel { held: 0, peak: 4, ..full }));
    // Beyond the three channels it is zero, as all else there.
    for number in [3, 4, 31] {
        assert!(is_sound(number, Channel::default()));
        for peak in [1, 256, 65_535] {
            assert!(!is_sound(number, Channel { peak, ..Channel::default() }));
        }
    }
}

/// Where its receiver has ended a channel holds nothing, and has any peak up to its
/// capacity.
#[test]
fn an_ended_receiver_asks_nothing_of_it() {
    for peak in [0, 1, 3, 4] {
        let mut lane = ending(STOP);
        lane.moves(0, 4);
        lane.lane.channels[0].peak = peak;
        assert_eq!(lane.lane.is_sound(), peak <= 3);
    }
}

/// Process 0 sends 1, 2 and 3 to process 1, which passes them on.
fn three(capacity: u16) -> Network {
    let send = |value| [code(1, 0, 0, value), code(12, 0, 0, 0)];
    let sender = [&send(1)[..], &send(2), &send(3), &[STOP]].concat();
    Network::of(&[sender, passes(0, 1).to_vec()], &[channel(0, 1, capacity), to_outside(1, 3)])
}

/// Picks by turns, so many at a time. That ends both processes.
fn ended_board(network: &Network, at_a_time: usize) -> Board<'static> {
    let mut board = Board::new(network, &[], cells());
    for _ in 0..20 {
        for process in [0, 1] {
            (0..at_a_time).for_each(|_| _ = board.pick(process));
        }
    }
    assert!(board.lane.has_ended(0) && board.lane.has_ended(1));
    assert_eq!(board.sent, [[1, 2, 3], [1, 2, 3]]);
    board
}

fn without_peaks(lane: &Lane) -> Lane {
    let channels = lane.channels.map(|channel| Channel { peak: 0, ..channel });
    Lane { channels, ..lane.clone() }
}

/// Two boards at rest: the picks decide it, and nothing else.
#[test]
fn two_boards_differ_in_it_alone() {
    let peaks = |board: &Board| [0, 1].map(|channel| board.lane.channels[channel].peak);
    let network = three(3);
    // By turns each message is received before the next is sent.
    let [by_turns, at_once] = [1, 7].map(|at_a_time| ended_board(&network, at_a_time));
    assert_eq!([peaks(&by_turns), peaks(&at_once)], [[1, 3], [3, 3]]);
    assert!(by_turns.lane != at_once.lane);
    assert!(without_peaks(&by_turns.lane) == without_peaks(&at_once.lane));
    // A spare with another capacity, too.
    let narrow = ended_board(&three(1), 7);
    assert_eq!(peaks(&narrow), [1, 3]);
    assert_eq!(narrow.lane.processes, at_once.lane.processes);
    assert_eq!(narrow.sent, at_once.sent);
}

/// One of the channels of this kind, mostly, or a number that may be none.
fn any_channel(random: &mut Random, lane: &Lane, kind: fn(&Record) -> bool) -> usize {
    let records = lane.network.used_records();
    let of_kind: Vec<usize> = (0..records.len()).filter(|&number| kind(&records[number])).collect();
    if of_kind.is_empty() || random.percent(10) {
        return random.below(records.len() + 1);
    }
    random.one(&of_kind)
}

/// A call of any kind, some picks of one process, a run or a drive.
fn any_step(random: &mut Random, watched: &mut Watched) {
    let processes = watched.lane.network.processes;
    let fed = any_channel(random, &watched.lane, |record| record.sender == OUTSIDE);
    let taken = any_channel(random, &watched.lane, |record| record.receiver == OUTSIDE);
    let process = random.below(processes.into());
    match random.below(24) {
        0..=6 => (0..random.between(1, 12)).for_each(|_| _ = watched.pick(process)),
        7..=10 => _ = watched.feed(fed, random.value()),
        11 | 12 => _ = watched.burst(fed, &vec![random.value(); random.below(9)]),
        13 => _ = random.percent(30).then(|| watched.close(fed)),
        14..=17 => _ = watched.take(taken),
        18 | 19 => _ = watched.relieve(),
        20 | 21 => {
            let kinds = usize::from(processes) + usize::from(random.percent(70));
            let byte = |byte: usize| if byte < processes.into() { byte as u8 } else { 255 };
            let bytes: Vec<u8> = (0..random.below(60)).map(|_| byte(random.below(kinds))).collect();
            watched.run(&bytes);
        }
        _ => watched.drive(random.below(8 * usize::from(processes)) as u64),
    }
}

/// What a lane shows at its end, and what was passed on the way.
#[derive(Default, Debug)]
struct Counts {
    above_held: u64,
    full: u64,
    grown: u64,
    unheard: u64,
    passed: u64,
}

impl Counts {
    fn end(&mut self, lane: &Lane) {
        for (number, record) in lane.network.used_records().iter().enumerate() {
            let Channel { capacity, held, peak, .. } = lane.channels[number];
            self.above_held += u64::from(peak > held);
            self.full += u64::from(held == capacity);
            self.grown += u64::from(peak == capacity && capacity > record.capacity);
            self.unheard += u64::from(peak > 0 && lane.is_unheard(number as u8));
        }
    }

    /// A peak rose to more than is held before the step or after it.
    fn step(&mut self, before: &Lane, after: &Lane) {
        let mut channels = before.channels.iter().zip(&after.channels);
        let passed = channels.any(|(before, after)| {
            after.peak > before.peak && after.peak > after.held.max(before.held)
        });
        self.passed += u64::from(passed);
    }
}

#[test]
fn it_is_the_most_held_on_the_way() {
    let random = &mut Random::new(61);
    let mut counts = Counts::default();
    for number in 0..3_000 {
        let network = match number % 4 {
            0 | 1 => plans::lane(random),
            2 => plans::clocked(random),
            _ => plans::ending(random),
        };
        let mut watched = Watched::new(Lane::fresh(network));
        for _ in 0..random.below(80) {
            let before = watched.lane.clone();
            any_step(random, &mut watched);
            counts.step(&before, &watched.lane);
        }
        counts.end(&watched.lane);
    }
    println!("{counts:?}");
    let Counts { above_held, full, grown, unheard, passed } = counts;
    let all = [above_held, full, grown, unheard, passed];
    assert!(all.iter().all(|&count| count > 500), "{all:?}");
}
