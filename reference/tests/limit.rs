//! How many picks a drive can need: by hand at the boundaries, and on random
//! lanes.

mod common;
use common::*;
use reference::board::Board;
use reference::gen::fed;
use reference::lane::{Cells, Lane, Wait, CELLS};
use reference::limit::{case, case_with_any_input, Course, Limit};
use reference::network::{code, Instruction, Network, Record};
use reference::random::Random;
use reference::schedule::{drive, Driven, End};
use std::collections::BTreeMap;

/// Holds drives with the limit, with some picks more and with the most of all to
/// the rounds made one by one, and sees that one pick less than these is spent.
fn tried(limit: &Limit, board: &Board, more: u64) -> Course {
    let course = limit.course(board);
    for picks in [limit.picks(), limit.picks() + more, u64::MAX] {
        course.drive(board, picks);
    }
    let Driven { picks, .. } = course.settled();
    assert_eq!(driven(&board.lane, &board.cells, picks - 1).0.end, End::Spent);
    course
}

/// What a drive of a copy answers, and the copy.
fn driven(lane: &Lane, cells: &Cells, picks: u64) -> (Driven, Lane) {
    let (mut lane, mut cells) = (lane.clone(), Box::new(*cells));
    let driven = drive(&mut lane, &mut cells[..], picks).unwrap();
    (driven, lane)
}

fn settled(picks: u64, enlarged: u64) -> Driven {
    Driven { end: End::Settled, picks, enlarged }
}

/// N, G, the picks of the limit, the rounds made and the enlargements, where the
/// limit holds.
fn figures(network: &Network, input: &[Vec<i32>]) -> Option<[u64; 5]> {
    assert!(network.fits());
    let limit = Limit::of(network, input)?;
    let course = tried(&limit, &limit.lane(cells()), 1);
    Some([limit.moves, limit.sent, limit.picks(), course.rounds, course.enlarged])
}

/// The same without input.
fn unfed(programs: &[Vec<Instruction>], channels: &[Record]) -> Option<[u64; 5]> {
    figures(&Network::of(programs, channels), &vec![Vec::new(); channels.len()])
}

fn send(channel: u8) -> Instruction {
    code(12, 0, channel, 0)
}

/// With these behind a process's first instructions it does them so many times,
/// which takes laps × (length + 3) + 1 moves, and goes on behind them.
fn times(mut first: Vec<Instruction>, laps: u8, lap: &[Instruction]) -> Vec<Instruction> {
    first.extend([code(1, 6, 0, laps), code(1, 7, 0, 1)]);
    let start = first.len() as u8;
    let behind = start + lap.len() as u8 + 3;
    first.extend(lap);
    first.extend([code(4, 6, 6, 7), code(9, 6, 0, behind), code(8, 0, 0, start)]);
    first
}

fn stopping(mut program: Vec<Instruction>) -> Vec<Instruction> {
    program.push(STOP);
    program
}

/// One of a pair: it sends so many times 8 messages to the other, and those it
/// does first, and then receives so many times 8.
fn sends_first(first: usize, eights: u8, to: u8, from: u8) -> Vec<Instruction> {
    let sends = times(vec![send(to); first], eights, &[send(to); 8]);
    let end = sends.len() as u8 + 13;
    stopping(times(sends, eights, &[code(11, 1, from, end); 8]))
}

const PAIR: [Record; 2] = [
    Record { sender: 0, receiver: 1, capacity: 1 },
    Record { sender: 1, receiver: 0, capacity: 1 },
];

#[test]
fn a_stop_alone_needs_both_rounds() {
    let (programs, channels) = ([vec![STOP]], [channel(0, 0, 1)]);
    assert_eq!(unfed(&programs, &channels), Some([1, 0, 2, 2, 0]));
    // P × (N + G) picks are not enough.
    let lane = fresh(&[&[STOP]], &channels);
    assert_eq!(driven(&lane, &cells(), 1).0, Driven { end: End::Spent, picks: 1, enlarged: 0 });
    assert_eq!(driven(&lane, &cells(), 2).0, settled(2, 0));
}

#[test]
fn a_countdown_beside_a_stuck_pair() {
    // 16 moves and a stop.
    let clock = stopping(times(Vec::new(), 5, &[]));
    let one = |to, from| stopping([vec![send(to); 4], vec![code(11, 1, from, 8); 4]].concat());
    // In rounds 1 to 6 the channels get 1, 2, 3 and 4, and 1, 2 and 3 messages,
    // and grow by turns, the lower one first. 1 receives in rounds 7 to 10, 2
    // sends its last message in round 7 and stops in round 12.
    let channels = [channel(1, 2, 1), channel(2, 1, 1)];
    assert_eq!(unfed(&[clock, one(0, 1), one(1, 0)], &channels), Some([35, 8, 132, 18, 5]));
    assert_eq!(unfed(&[one(0, 1), one(1, 0)], &PAIR), Some([18, 8, 54, 13, 5]));
}

#[test]
fn a_channel_that_is_sent_256() {
    // Both channels grow, the lower one to 256: by then the other sender has one
    // message to send. N is 2 × (2 × 353 + 1).
    let pair = |first| [sends_first(first, 32, 0, 1), sends_first(first, 32, 1, 0)];
    let [moves, sent, picks, _, enlarged] = unfed(&pair(0), &PAIR).unwrap();
    assert_eq!([moves, sent, picks, enlarged], [1_414, 512, 3_854, 255 + 254]);
    // One message more: both wait at 256.
    assert_eq!(unfed(&pair(1), &PAIR), None);
    let lane = Lane::fresh(Network::of(&pair(1), &PAIR));
    let (answer, lane) = driven(&lane, &cells(), u64::MAX);
    assert_eq!((answer.end, answer.enlarged), (End::Ceiling, 255 + 255));
    assert_eq!([0, 1].map(|channel| lane.channels[channel].held), [256; 2]);
    assert_eq!([0, 1].map(|process| lane.wait(process)), [0, 1].map(|to| Some(Wait::Full(to))));
}

#[test]
fn a_self_channel_that_is_sent_256() {
    let own = |first| [stopping(times(vec![send(0); first], 32, &[send(0); 8]))];
    assert_eq!(unfed(&own(0), &[channel(0, 0, 1)]), Some([354, 256, 611, 355, 255]));
    assert_eq!(unfed(&own(1), &[channel(0, 0, 1)]), None);
    let lane = Lane::fresh(Network::of(&own(1), &[channel(0, 0, 1)]));
    assert_eq!(driven(&lane, &cells(), u64::MAX).0.end, End::Ceiling);
}

/// A channel's first message finds room, so G enlargements are one too many, but
/// G − 1 can be made.
#[test]
fn all_but_one_of_g_enlargements() {
    for sends in 1..=255 {
        let own = stopping(vec![send(0); sends]);
        let sent = sends as u64;
        let expected = [sent + 1, sent, 2 * sent + 2, sent + 2, sent - 1];
        assert_eq!(unfed(&[own], &[channel(0, 0, 1)]), Some(expected));
    }
}

#[test]
fn an_output_one_too_small() {
    let program = stopping(vec![send(0); 3]);
    assert_eq!(unfed(&[program.clone()], &[to_outside(0, 3)]), Some([4, 3, 8, 5, 0]));
    assert_eq!(unfed(&[program.clone()], &[to_outside(0, 2)]), None);
    // It settles, but is not at rest.
    let lane = fresh(&[&program], &[to_outside(0, 2)]);
    let (answer, lane) = driven(&lane, &cells(), u64::MAX);
    assert_eq!(answer, settled(3, 0));
    assert_eq!(lane.wait(0), Some(Wait::Full(0)));
}

#[test]
fn input_that_is_not_all_fed_and_closed() {
    let mut network = sample();
    let input = [vec![5, -3], Vec::new()];
    // Two values find no room in a channel of 1.
    assert_eq!(figures(&network, &input), None);
    network.records[0].capacity = 2;
    network.records[1].capacity = 2;
    assert_eq!(figures(&network, &input), Some([10, 2, 13, 11, 0]));
    // Left open: it settles, but the process has not ended.
    let limit = Limit::of(&network, &input).unwrap();
    let Board { mut lane, cells, .. } = limit.lane(cells());
    lane.channels[0].closed = false;
    let (answer, lane) = driven(&lane, &cells, limit.picks());
    assert_eq!(answer, settled(9, 0));
    assert_eq!(lane.wait(0), Some(Wait::Empty(0)));
}

#[test]
fn steps_before_are_taken_off() {
    let network = Network::of(&[vec![STOP]], &[channel(0, 0, 1)]);
    let input = [Vec::new()];
    let limit = Limit::of(&network, &input).unwrap();
    let mut board = limit.lane(cells());
    assert!(board.pick(0));
    assert_eq!((limit.rounds(), limit.rounds_left(&board)), (2, 1));
    assert_eq!(tried(&limit, &board, 1).rounds, 1);
}

#[test]
fn input_that_is_fed_bit_by_bit() {
    let mut network = sample();
    network.records[1].capacity = 2;
    let input = [vec![5, -3], Vec::new()];
    assert!(Limit::of(&network, &input).is_none());
    let limit = Limit::with_any_input(&network, &input).unwrap();
    let mut board = Board::new(&network, &input, cells());
    assert_eq!([board.feed(0), board.feed(0), board.close(0)], [true, false, false]);
    assert_eq!([board.pick(0), board.feed(0), board.close(0)], [true; 3]);
    // N + G + 1 = 13, and one move was made before.
    assert_eq!((limit.rounds_left(&board), tried(&limit, &board, 1).rounds), (12, 10));
}

#[test]
fn a_plain_order_that_does_not_end() {
    assert_eq!(unfed(&[vec![code(8, 0, 0, 0)]], &[channel(0, 0, 1)]), None);
    let waits = |from| vec![code(11, 0, from, 0), STOP];
    assert_eq!(unfed(&[waits(1), waits(0), vec![STOP]], &PAIR), None);
}

#[test]
fn random_lanes() {
    let random = &mut Random::new(11);
    let mut met: BTreeMap<&str, u64> = BTreeMap::new();
    let mut grown = 0;
    for _ in 0..3_000 {
        let (network, input) = case(random);
        let limit = Limit::of(&network, &input).unwrap();
        let cells = Box::new([random.bits() as i32; CELLS]);
        let course = tried(&limit, &limit.lane(cells), random.between(1, 1_000) as u64);
        // The limit has room to spare. After an enlargement a sender moves, and
        // after a relief that was refused a round without a move is the last one:
        // so all but the last move. And a first message needs no enlargement.
        assert_eq!(course.rounds, course.busy + 1);
        assert!(course.enlarged < limit.sent.max(1));
        let cases = [
            ("enlarged", course.enlarged > 0),
            ("enlarged several times", course.enlarged > 1),
            ("enlarged ten times or more", course.enlarged > 9),
            ("enlarged to 256", course.grew_to_the_largest()),
            ("an output filled", limit.fills_an_output()),
            ("input", fed(&network).iter().any(|&channel| !input[usize::from(channel)].is_empty())),
            ("a fault", limit.has_fault()),
            ("five processes or more", network.processes > 4),
            ("all N + G + 1 rounds", course.rounds == limit.rounds()),
            ("N + 1 rounds, some enlarged", course.rounds > limit.moves && course.enlarged > 0),
        ];
        for (name, is_so) in cases {
            *met.entry(name).or_default() += u64::from(is_so);
        }
        grown = grown.max(course.enlarged);
    }
    println!("{met:?}, {grown} enlargements at most");
    assert!(met.values().all(|&count| count > 50) && grown > 100, "{met:?} {grown}");
}

#[test]
fn random_lanes_after_other_steps() {
    let random = &mut Random::new(12);
    let mut met: BTreeMap<&str, u64> = BTreeMap::new();
    for _ in 0..3_000 {
        let longest = random.one(&[12, 12, 12, 256]);
        let (network, input) = case_with_any_input(random, longest);
        let limit = Limit::with_any_input(&network, &input).unwrap();
        let cells = Box::new([random.bits() as i32; CELLS]);
        let board = limit.other_steps(random, cells, 150);
        let course = tried(&limit, &board, random.between(1, 1_000) as u64);
        // Only in its first round can it find a ring stuck. An enlargement then is one
        // that was not made before: so just lanes that send nothing make all rounds.
        let finds_stuck = course.rounds == course.busy + 2;
        assert!(finds_stuck || course.rounds == course.busy + 1);
        assert!(board.enlarged + course.enlarged < limit.sent.max(1));
        let makes_all = course.rounds == limit.rounds_left(&board);
        assert!(!makes_all || limit.sent == 0);
        let took = board.taken.iter().any(|taken| !taken.is_empty());
        let is_long = |&channel: &u8| input[usize::from(channel)].len() > 100;
        let cases = [
            ("moves before", board.moves > 0),
            ("all moves before", board.moves == limit.moves),
            ("enlarged before", board.enlarged > 0),
            ("enlarged before, and in the drive", board.enlarged > 0 && course.enlarged > 0),
            ("a ring stuck before", finds_stuck),
            ("took before", took),
            ("input longer than its channel", limit.has_long_input()),
            ("an input of more than 100", fed(&network).iter().any(is_long)),
            ("refused before", board.refused.iter().sum::<u64>() > 0),
            ("all N + G + 1 rounds", makes_all),
        ];
        for (name, is_so) in cases {
            *met.entry(name).or_default() += u64::from(is_so);
        }
    }
    println!("{met:?}");
    assert!(met.values().all(|&count| count > 50), "{met:?}");
}
