//! The driver: relief once after every round, moves or not; what ends it; what
//! it reports. And on random lanes, that it is just these picks and reliefs.

mod common;
use common::*;
use reference::calls::{pick, Answer};
use reference::lane::{Condition, Lane, CELLS};
use reference::network::{code, Instruction};
use reference::plans;
use reference::random::Random;
use reference::refusal::Refusal;
use reference::relief::relieve;
use reference::schedule::{drive, run, Driven, End};

/// A clock: it jumps to itself for ever.
const CLOCK: Instruction = code(8, 0, 0, 0);

/// What a drive of a copy answers, and the copy.
fn driven(lane: &Lane, picks: u64) -> (Driven, Lane) {
    let mut lane = lane.clone();
    let driven = drive(&mut lane, &mut cells()[..], picks).unwrap();
    (driven, lane)
}

fn answer(lane: &Lane, picks: u64) -> Driven {
    driven(lane, picks).0
}

fn spent(picks: u64, enlarged: u64) -> Driven {
    Driven { end: End::Spent, picks, enlarged }
}

fn settled(picks: u64, enlarged: u64) -> Driven {
    Driven { end: End::Settled, picks, enlarged }
}

fn ceiling(picks: u64, enlarged: u64) -> Driven {
    Driven { end: End::Ceiling, picks, enlarged }
}

/// The lane of the request: a clock, and two that each send twice to the other
/// and then receive once and stop. Both channels have capacity 1.
fn clock_and_pair(clock: &[Instruction]) -> Lane {
    let one = [code(12, 0, 0, 0), code(12, 0, 0, 0), code(11, 1, 1, 3), STOP];
    let other = [code(12, 0, 1, 0), code(12, 0, 1, 0), code(11, 1, 0, 3), STOP];
    fresh(&[clock, &one, &other], &[channel(1, 2, 1), channel(2, 1, 1)])
}

fn moves(lane: &Lane) -> Vec<u64> {
    let processes = usize::from(lane.network.processes);
    lane.processes[..processes].iter().map(|process| process.moves).collect()
}

#[test]
fn a_busy_clock_does_not_hold_up_a_stuck_pair() {
    let lane = clock_and_pair(&[CLOCK]);
    // Round 1: both send, and stand at a full channel; channel 0 grows.
    // Round 2: 1 sends, 2 waits. Round 3: 1 receives, 2 sends.
    // Round 4: 1 stops, 2 receives. Round 5: 2 stops.
    let steps = [(3, [1, 1, 1], 0), (6, [2, 2, 1], 0), (9, [3, 3, 2], 0), (12, [4, 4, 3], 1)];
    for (picks, expected, stopped) in steps {
        let (made, after) = driven(&lane, picks);
        assert_eq!(made, spent(picks, 1));
        assert_eq!(moves(&after), expected);
        let ended = |process: &&reference::lane::Process| process.condition == Condition::Stopped;
        assert_eq!(after.processes.iter().filter(ended).count(), stopped);
        assert_eq!((after.channels[0].capacity, after.channels[1].capacity), (2, 1));
        assert_eq!(after.accepted, 1);
    }
    // The clock goes on.
    let (made, after) = driven(&lane, 3_000);
    assert_eq!(made, spent(3_000, 1));
    assert_eq!(moves(&after), [1_000, 4, 4]);
    assert_eq!(after.processes.map(|process| process.condition)[1..3], [Condition::Stopped; 2]);
    // One that stops after ten moves: the last of them is in round 10.
    let clock = [[code(1, 0, 0, 0); 9].to_vec(), vec![STOP]].concat();
    assert_eq!(answer(&clock_and_pair(&clock), u64::MAX), settled(33, 1));
}

#[test]
fn relief_after_the_last_round_counts() {
    // One round, and picks left over that are too few for another.
    for picks in 3..6 {
        let (made, after) = driven(&clock_and_pair(&[CLOCK]), picks);
        assert_eq!(made, spent(3, 1));
        assert_eq!((after.channels[0].capacity, after.accepted), (2, 1));
    }
    // The same after a round without a move.
    let mut full = fresh(&[&[code(12, 0, 0, 0), CLOCK]], &[channel(0, 0, 1)]);
    hold(&mut full, 0, 1);
    assert_eq!(answer(&full, 1), spent(1, 1));
}

#[test]
fn refusal_14_after_a_move_goes_on() {
    // A clock beside a process at its own channel of 256, which is full.
    let own = |clock: &[Instruction]| {
        let sender = [code(12, 0, 0, 0), CLOCK];
        let mut lane = fresh(&[clock, &sender], &[channel(1, 1, 256)]);
        hold(&mut lane, 0, 256);
        lane
    };
    assert_eq!(answer(&own(&[CLOCK]), 2), spent(2, 0));
    assert_eq!(answer(&own(&[CLOCK]), 1_001), spent(1_000, 0));
    // A clock that stops in round 2: the first round without a move is the
    // third, and that one ends it.
    let two = own(&[code(1, 0, 0, 0), STOP]);
    assert_eq!(answer(&two, 5), spent(4, 0));
    assert_eq!(answer(&two, 6), ceiling(6, 0));
    assert_eq!(answer(&two, u64::MAX), ceiling(6, 0));
    // A pair at 256, both full.
    let one = [code(12, 0, 0, 0), CLOCK];
    let other = [code(12, 0, 1, 0), CLOCK];
    let mut pair = fresh(&[&[CLOCK], &one, &other], &[channel(1, 2, 256), channel(2, 1, 256)]);
    hold(&mut pair, 0, 256);
    hold(&mut pair, 1, 256);
    let (made, after) = driven(&pair, 30);
    assert_eq!(made, spent(30, 0));
    assert_eq!(moves(&after), [10, 0, 0]);
    // One of the two at 255: it grows, the sender sends once and jumps, and from
    // then on 14 is passed over.
    pair.channels[1].capacity = 255;
    hold(&mut pair, 1, 255);
    let (made, after) = driven(&pair, 30);
    assert_eq!(made, spent(30, 1));
    assert_eq!(moves(&after), [10, 0, 2]);
    assert_eq!((after.channels[1].capacity, after.channels[1].held), (256, 256));
}

#[test]
fn refusal_13_after_a_move_goes_on() {
    assert_eq!(answer(&fresh(&[&[CLOCK]], &[channel(0, 0, 1)]), 7), spent(7, 0));
    // Beside a pair that waits on each other's empty channels.
    let waits = |channel| [code(11, 0, channel, 0), STOP];
    let channels = [channel(1, 2, 1), channel(2, 1, 1)];
    let clock = [code(1, 0, 0, 0), STOP];
    let lane = fresh(&[&clock, &waits(1), &waits(0)], &channels);
    assert_eq!(answer(&lane, 8), spent(6, 0));
    assert_eq!(answer(&lane, 9), settled(9, 0));
    assert_eq!(answer(&lane, u64::MAX), settled(9, 0));
}

#[test]
fn rounds_without_a_move() {
    // Two on each other's empty channels: settled after one round, even where
    // the picks are just spent.
    let programs: [&[Instruction]; 2] = [&[code(11, 0, 1, 0), STOP], &[code(11, 0, 0, 0), STOP]];
    let dead = fresh(&programs, &[channel(0, 1, 1), channel(1, 0, 1)]);
    assert_eq!(answer(&dead, 0), spent(0, 0));
    assert_eq!(answer(&dead, 1), spent(0, 0));
    assert_eq!(answer(&dead, 2), settled(2, 0));
    assert_eq!(answer(&dead, u64::MAX), settled(2, 0));
    // All ended.
    let ended = fresh(&[&[STOP]], &[channel(0, 0, 1)]);
    assert_eq!(answer(&ended, 1), spent(1, 0));
    assert_eq!(answer(&ended, 5), settled(2, 0));
    // A self-channel that only grows. It is full after the jump of round 508
    // and grows, after that of round 510 again; after that of round 512 it
    // stays at 256, and the first round without a move is the next.
    let filler = fresh(&[&[code(12, 0, 0, 0), CLOCK]], &[channel(0, 0, 254)]);
    for (picks, enlarged) in [(507, 0), (508, 1), (509, 1), (510, 2), (512, 2)] {
        assert_eq!(answer(&filler, picks), spent(picks, enlarged));
    }
    assert_eq!(answer(&filler, 513), ceiling(513, 2));
    assert_eq!(answer(&filler, u64::MAX), ceiling(513, 2));
}

#[test]
fn one_relief_a_round() {
    // Two processes, each at its own full channel of 1. Round 1: none moves, that
    // of 0 grows. Round 2: 0 sends, that of 1 grows. Round 3: 0 stops, 1 sends.
    // Round 4: 1 stops.
    let one = |channel| [code(12, 0, channel, 0), STOP];
    let mut lane = fresh(&[&one(0), &one(1)], &[channel(0, 0, 1), channel(1, 1, 1)]);
    hold(&mut lane, 0, 1);
    hold(&mut lane, 1, 1);
    for (picks, enlarged) in [(2, 1), (4, 2), (6, 2), (8, 2)] {
        assert_eq!(answer(&lane, picks), spent(picks, enlarged));
    }
    assert_eq!(answer(&lane, u64::MAX), settled(10, 2));
}

/// The driver's rule with single calls.
fn by_calls(lane: &mut Lane, cells: &mut [i32], picks: u64) -> Driven {
    let round = u64::from(lane.network.processes);
    let mut rounds = 0;
    let mut enlarged = 0;
    while (rounds + 1) * round <= picks {
        rounds += 1;
        let mut moves = 0;
        for process in 0..round as usize {
            moves += u64::from(pick(lane, cells, process) == Ok(Answer::Moved));
        }
        let end = match relieve(lane, &mut [0; 16]) {
            Ok(_) => {
                enlarged += 1;
                continue;
            }
            Err(Refusal::NoRing) => End::Settled,
            Err(Refusal::Ceiling) => End::Ceiling,
            Err(refusal) => panic!("{refusal:?}"),
        };
        if moves == 0 {
            return Driven { end, picks: rounds * round, enlarged };
        }
    }
    spent(rounds * round, enlarged)
}

#[test]
fn a_drive_is_picks_and_reliefs() {
    let random = &mut Random::new(5);
    let mut ends = [0; 3];
    let mut enlarged = 0;
    for number in 0..1_500 {
        let network = if number % 2 == 0 { plans::lane(random) } else { plans::clocked(random) };
        let processes = network.processes;
        let mut lane = Lane::fresh(network);
        let mut cells = vec![0; CELLS];
        // From where some process has gone on alone.
        let process = random.below(processes.into()) as u8;
        run(&mut lane, &mut cells, &vec![process; random.below(700)]).unwrap();
        let picks = random.below(400) as u64;
        let (mut other, mut other_cells) = (lane.clone(), cells.clone());
        let answer = drive(&mut lane, &mut cells, picks).unwrap();
        assert_eq!(answer, by_calls(&mut other, &mut other_cells, picks));
        assert!(lane == other && cells == other_cells);
        ends[answer.end as usize] += 1;
        enlarged += u64::from(answer.enlarged > 0);
    }
    assert!(enlarged > 100 && ends.iter().all(|&count| count > 20), "{enlarged} {ends:?}");
}
