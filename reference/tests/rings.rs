//! Relief against the rule itself: a ring is a closed chain of pointings, and the
//! search strips away, again and again, each process that nobody left points to
//! (request 7). Here chains are found by joining shorter ones, not by walking, and
//! the stripping is done in rounds, each of which looks at all processes: on random
//! lanes, on all small ones, and on cases by hand.

mod common;
use common::*;
use reference::lane::{Lane, Wait, CELLS};
use reference::network::{code, Network, OUTSIDE, PROCESSES};
use reference::odd;
use reference::plans;
use reference::random::Random;
use reference::refusal::Refusal;
use reference::relief::{relieve, Relieved};
use reference::schedule::run;

/// Ring and channel, or the refusal.
type Expected = Result<(Vec<u8>, u8), Refusal>;

/// Whom a process points to.
fn pointing(lane: &Lane, process: usize) -> Option<usize> {
    let end = match lane.wait(process)? {
        Wait::Empty(channel) => lane.network.records[usize::from(channel)].sender,
        Wait::Full(channel) => lane.network.records[usize::from(channel)].receiver,
    };
    (end != OUTSIDE).then_some(usize::from(end))
}

/// Whether pointings lead from one process to another.
type Chains = [[bool; PROCESSES]; PROCESSES];

fn chains(lane: &Lane) -> Chains {
    let processes = usize::from(lane.network.processes);
    let mut chain = [[false; PROCESSES]; PROCESSES];
    for (process, to) in chain[..processes].iter_mut().enumerate() {
        if let Some(next) = pointing(lane, process) {
            to[next] = true;
        }
    }
    for middle in 0..processes {
        for from in 0..processes {
            for to in 0..processes {
                chain[from][to] |= chain[from][middle] && chain[middle][to];
            }
        }
    }
    chain
}

/// What relief must answer.
fn expected(lane: &Lane, chain: &Chains) -> Expected {
    let processes = usize::from(lane.network.processes);
    let mut at_ceiling = false;
    for lowest in (0..processes).filter(|&process| chain[process][process]) {
        let on_ring = |&process: &usize| chain[lowest][process] && chain[process][lowest];
        let full = (0..processes).filter(on_ring).filter_map(|process| match lane.wait(process) {
            Some(Wait::Full(channel)) => {
                Some((lane.channels[usize::from(channel)].capacity, channel))
            }
            _ => None,
        });
        match full.min() {
            Some((capacity, channel)) if capacity < 256 => {
                let length = (0..processes).filter(on_ring).count();
                let next = |&process: &usize| pointing(lane, process);
                let ring = std::iter::successors(Some(lowest), next).take(length);
                return Ok((ring.map(|process| process as u8).collect(), channel));
            }
            Some(_) => at_ceiling = true,
            None => {}
        }
    }
    Err(if at_ceiling { Refusal::Ceiling } else { Refusal::NoRing })
}

/// Who is left after each round of stripping, the last of which takes none away.
/// Each round strips those that nobody pointed to who was left before it.
fn rounds(lane: &Lane) -> Vec<[bool; PROCESSES]> {
    let processes = usize::from(lane.network.processes);
    let mut rounds = vec![std::array::from_fn(|process| process < processes)];
    loop {
        let left: [bool; PROCESSES] = rounds[rounds.len() - 1];
        let mut next = [false; PROCESSES];
        for process in (0..processes).filter(|&process| left[process]) {
            if let Some(to) = pointing(lane, process) {
                next[to] = left[to];
            }
        }
        rounds.push(next);
        if next == left {
            return rounds;
        }
    }
}

/// Shapes of who waits for whom, and how often each was met.
#[derive(Default, Debug)]
struct Shapes {
    nobody_waits: u64,
    none_left: u64,
    rounds_of_three: u64,
    several_rings: u64,
    tail: u64,
    ring_of_one: u64,
    /// Of the answers: of a ring of one or of more, 13 and 14.
    answers: [u64; 4],
}

impl Shapes {
    fn count(&mut self, lane: &Lane, chain: &Chains, rounds: usize, answer: &Expected) {
        let processes = usize::from(lane.network.processes);
        let on_ring = |process: usize| chain[process][process];
        let waits = (0..processes).any(|process| lane.wait(process).is_some());
        let left = (0..processes).filter(|&process| on_ring(process));
        let lowest = left.clone().filter(|&process| !(0..process).any(|p| chain[process][p]));
        let leads = |process: usize| (0..processes).any(|to| on_ring(to) && chain[process][to]);
        let is_alone = |process: usize| pointing(lane, process) == Some(process);
        self.nobody_waits += u64::from(!waits);
        self.none_left += u64::from(waits && left.clone().count() == 0);
        self.rounds_of_three += u64::from(rounds > 2);
        self.several_rings += u64::from(lowest.count() > 1);
        self.tail += u64::from((0..processes).any(|process| !on_ring(process) && leads(process)));
        self.ring_of_one += u64::from(left.clone().any(is_alone));
        let kind = match answer {
            Ok((ring, _)) => usize::from(ring.len() > 1),
            Err(Refusal::NoRing) => 2,
            Err(_) => 3,
        };
        self.answers[kind] += 1;
    }

    fn least(&self) -> u64 {
        let Shapes { nobody_waits, none_left, rounds_of_three, several_rings, .. } = *self;
        let shapes = [nobody_waits, none_left, rounds_of_three, several_rings, self.tail];
        let all = shapes.into_iter().chain([self.ring_of_one]).chain(self.answers);
        all.min().unwrap()
    }
}

/// Holds who is left and what relief answers to the rule, and makes the relief.
fn test(lane: &mut Lane, shapes: &mut Shapes) {
    let chain = chains(lane);
    let left = lane.left();
    for process in 0..PROCESSES {
        let on_ring = chain[process][process];
        assert!(!left[process] || on_ring, "{process} is left and on no ring");
        assert!(left[process] || !on_ring, "{process} is on a ring and stripped");
    }
    assert!(!left[usize::from(lane.network.processes)..].contains(&true), "left from P on");
    let rounds = rounds(lane);
    assert_eq!(left, rounds[rounds.len() - 1], "more or less would be stripped");
    let expected = expected(lane, &chain);
    // The last round takes none away.
    shapes.count(lane, &chain, rounds.len() - 2, &expected);
    test_relief(lane, expected);
}

/// The answer, the buffer, and what the relief changes: one channel and the count.
fn test_relief(lane: &mut Lane, expected: Expected) {
    let before = lane.clone();
    let mut buffer = [200; 20];
    let answer = relieve(lane, &mut buffer);
    match expected {
        Ok((ring, channel)) => {
            assert_eq!(answer, Ok(Relieved { length: ring.len(), channel }));
            assert_eq!(&buffer[..ring.len()], ring);
            assert!(buffer[ring.len()..].iter().all(|&byte| byte == 200));
            let mut grown = before;
            grown.channels[usize::from(channel)].capacity += 1;
            grown.accepted += 1;
            assert_eq!(*lane, grown);
        }
        Err(refusal) => {
            assert_eq!(answer, Err(refusal));
            assert_eq!(*lane, before);
            assert_eq!(buffer, [200; 20]);
        }
    }
}

/// Picks of one process and of all in turn, 30 times, and each time a relief.
fn play(random: &mut Random, network: Network, shapes: &mut Shapes) {
    let processes = network.processes;
    let mut lane = Lane::fresh(network);
    let mut cells = vec![0; CELLS];
    for _ in 0..30 {
        let process = random.below(usize::from(processes)) as u8;
        let mut picks: Vec<u8> = vec![process; random.below(700)];
        for _ in 0..random.below(60) {
            picks.extend(0..processes);
        }
        run(&mut lane, &mut cells, &picks).unwrap();
        test(&mut lane, shapes);
    }
}

#[test]
fn relief_finds_what_the_rule_says() {
    let random = &mut Random::new(11);
    let mut shapes = Shapes::default();
    for _ in 0..1_500 {
        let network = plans::lane(random);
        play(random, network, &mut shapes);
    }
    println!("{shapes:?}");
    assert!(shapes.least() > 100, "{shapes:?}");
}

/// Lanes made for it, some of them changed by hand: several rings, and tails that
/// lead into them.
#[test]
fn only_rings_are_left() {
    let random = &mut Random::new(12);
    let mut shapes = Shapes::default();
    for _ in 0..300 {
        let network = plans::tails(random);
        play(random, network, &mut shapes);
    }
    for _ in 0..6_000 {
        let mut lane = Lane::fresh(plans::tails(random));
        for edit in odd::standstill(random, &lane) {
            lane.edit(edit);
        }
        for _ in 0..3 {
            test(&mut lane, &mut shapes);
        }
    }
    println!("{shapes:?}");
    assert!(shapes.least() > 200, "{shapes:?}");
}

/// How a process stands: it moves or has ended; it waits for a message or for room
/// on a channel of some capacity, and for whom.
#[derive(Clone, Copy, Debug)]
enum Stand {
    Runs,
    Ended,
    Empty(u8),
    Full(u8, u16),
}
use Stand::*;

/// The processes stand like this. The channel of each has its number.
fn lane_of(stands: &[Stand]) -> Lane {
    let jump = code(8, 0, 0, 0);
    let mut programs = Vec::new();
    let mut channels = Vec::new();
    for (process, stand) in (0..).zip(stands) {
        let (first, record) = match *stand {
            Runs => (jump, channel(process, process, 1)),
            Ended => (STOP, channel(process, process, 1)),
            Empty(other) => (code(11, 0, process, 0), channel(other, process, 1)),
            Full(other, capacity) => (code(12, 0, process, 0), channel(process, other, capacity)),
        };
        programs.push(vec![first, jump]);
        channels.push(record);
    }
    let mut lane = Lane::fresh(Network::of(&programs, &channels));
    let mut cells = cells();
    for (process, stand) in stands.iter().enumerate() {
        match *stand {
            Full(_, capacity) => hold(&mut lane, process, capacity),
            Ended => _ = reference::calls::pick(&mut lane, &mut cells[..], process).unwrap(),
            Runs | Empty(_) => {}
        }
    }
    assert!(lane.is_sound(), "{stands:?}");
    lane
}

/// Who is left, and ring and channel or the refusal.
fn case(stands: &[Stand], left: &[usize], answer: Result<(&[u8], u8), Refusal>) {
    let mut lane = lane_of(stands);
    let found = lane.left();
    let found: Vec<usize> = (0..PROCESSES).filter(|&process| found[process]).collect();
    assert_eq!(found, left, "{stands:?}");
    let answer = answer.map(|(ring, channel)| (ring.to_vec(), channel));
    let chain = chains(&lane);
    assert_eq!(expected(&lane, &chain), answer, "{stands:?}");
    test(&mut lane, &mut Shapes::default());
}

const NO_RING: Result<(&[u8], u8), Refusal> = Err(Refusal::NoRing);
const CEILING: Result<(&[u8], u8), Refusal> = Err(Refusal::Ceiling);

#[test]
fn nobody_waits_and_nobody_is_left() {
    case(&[Runs], &[], NO_RING);
    case(&[Ended], &[], NO_RING);
    case(&[Runs, Ended, Runs, Ended], &[], NO_RING);
    case(&[Runs; 16], &[], NO_RING);
}

/// A chain that ends at a process that moves, has ended or waits for the outside:
/// it is stripped from its far end, the last process too, which points to nobody.
#[test]
fn a_chain_without_a_ring_is_stripped_whole() {
    case(&[Empty(1), Full(2, 3), Runs], &[], NO_RING);
    case(&[Runs, Full(0, 1), Empty(1), Full(2, 2)], &[], NO_RING);
    case(&[Empty(1), Full(2, 3), Empty(OUTSIDE)], &[], NO_RING);
    case(&[Full(1, 1), Full(2, 1), Full(OUTSIDE, 1)], &[], NO_RING);
    case(&[Full(1, 1), Empty(2), Full(OUTSIDE, 256)], &[], NO_RING);
    case(&[Empty(OUTSIDE)], &[], NO_RING);
    let mut chain: Vec<Stand> = (1..16).map(|next| Full(next, 1)).collect();
    chain.push(Runs);
    case(&chain, &[], NO_RING);
    // Two that wait for one that moves; nobody waits for an ended one.
    case(&[Full(1, 1), Runs, Full(1, 1), Ended], &[], NO_RING);
}

/// The tail of three takes three rounds, from above or from below.
#[test]
fn a_tail_is_stripped_round_by_round() {
    let low = [Empty(1), Full(2, 1), Empty(3), Full(4, 5), Empty(3)];
    assert_eq!(rounds(&lane_of(&low)).len(), 3 + 2);
    case(&low, &[3, 4], Ok((&[3, 4], 3)));
    let high = [Full(1, 5), Empty(0), Full(1, 1), Full(2, 1), Full(3, 1)];
    assert_eq!(rounds(&lane_of(&high)).len(), 3 + 2);
    case(&high, &[0, 1], Ok((&[0, 1], 0)));
    // A tail that does not stand in order, and two that lead to the same process.
    case(&[Full(3, 1), Full(2, 9), Full(1, 8), Full(1, 1)], &[1, 2], Ok((&[1, 2], 2)));
    case(&[Full(2, 1), Full(2, 1), Full(3, 2), Empty(2)], &[2, 3], Ok((&[2, 3], 2)));
    // Fourteen of them.
    let mut tail: Vec<Stand> = (1..16).map(|next| Full(next, 1)).collect();
    tail.push(Full(14, 2));
    case(&tail, &[14, 15], Ok((&[14, 15], 14)));
}

/// A tail's waits are not the ring's, whatever their channels.
#[test]
fn a_full_wait_in_a_tail_does_not_count() {
    case(&[Full(1, 1), Empty(2), Empty(1)], &[1, 2], NO_RING);
    case(&[Full(1, 1), Full(2, 256), Full(1, 256)], &[1, 2], CEILING);
    case(&[Full(1, 1), Full(2, 7), Full(1, 7)], &[1, 2], Ok((&[1, 2], 1)));
    case(&[Full(1, 256), Full(2, 7), Empty(1)], &[1, 2], Ok((&[1, 2], 1)));
}

#[test]
fn two_rings_and_a_tail_into_the_second() {
    let stands = [Empty(2), Full(4, 1), Full(0, 3), Empty(1), Empty(5), Full(4, 2)];
    case(&stands, &[0, 2, 4, 5], Ok((&[0, 2], 2)));
    // The same where the first has no full wait, or is at 256.
    let stands = [Empty(2), Full(4, 1), Empty(0), Empty(1), Empty(5), Full(4, 2)];
    case(&stands, &[0, 2, 4, 5], Ok((&[4, 5], 5)));
    let stands = [Full(2, 256), Full(4, 1), Full(0, 256), Empty(1), Empty(5), Full(4, 2)];
    case(&stands, &[0, 2, 4, 5], Ok((&[4, 5], 5)));
}

#[test]
fn a_ring_of_one() {
    case(&[Full(0, 1)], &[0], Ok((&[0], 0)));
    case(&[Full(0, 256)], &[0], CEILING);
    case(&[Empty(0)], &[0], NO_RING);
    case(&[Runs, Ended, Full(2, 4), Runs], &[2], Ok((&[2], 2)));
    // With a tail of three, and with three that each lead into it.
    case(&[Full(1, 1), Empty(2), Full(3, 1), Full(3, 4)], &[3], Ok((&[3], 3)));
    case(&[Full(0, 4), Full(0, 1), Full(0, 1), Empty(0)], &[0], Ok((&[0], 0)));
    case(&[Full(1, 1), Empty(2), Full(3, 1), Full(3, 256)], &[3], CEILING);
    let all: Vec<Stand> = (0..16).map(|process| Full(process, 256 - u16::from(process))).collect();
    case(&all, &(0..16).collect::<Vec<_>>(), Ok((&[1], 1)));
}

#[test]
fn a_ring_of_all() {
    let all: Vec<usize> = (0..16).collect();
    let up: Vec<u8> = (0..16).collect();
    let next = |process: u8| (process + 1) % 16;
    let stands: Vec<Stand> = up.iter().map(|&process| Full(next(process), 3)).collect();
    case(&stands, &all, Ok((&up, 0)));
    let one = |&process: &u8| if process == 9 { Full(10, 255) } else { Empty(next(process)) };
    let stands: Vec<Stand> = up.iter().map(one).collect();
    case(&stands, &all, Ok((&up, 9)));
    let stands: Vec<Stand> = up.iter().map(|&process| Empty(next(process))).collect();
    case(&stands, &all, NO_RING);
    let stands: Vec<Stand> = up.iter().map(|&process| Full((process + 15) % 16, 256)).collect();
    case(&stands, &all, CEILING);
    let down = [0, 15, 14, 13, 12, 11, 10, 9, 8, 7, 6, 5, 4, 3, 2, 1];
    let stands: Vec<Stand> =
        up.iter().map(|&process| Full((process + 15) % 16, 20 - u16::from(process))).collect();
    case(&stands, &all, Ok((&down, 15)));
}

#[test]
fn a_lower_ring_that_is_passed_over() {
    // Empty waits alone.
    case(&[Empty(1), Empty(0), Full(3, 5), Empty(2)], &[0, 1, 2, 3], Ok((&[2, 3], 2)));
    case(&[Empty(0), Full(1, 9)], &[0, 1], Ok((&[1], 1)));
    // At 256.
    case(&[Full(1, 256), Empty(0), Full(3, 255), Full(2, 256)], &[0, 1, 2, 3], Ok((&[2, 3], 2)));
    case(&[Full(0, 256), Full(1, 1)], &[0, 1], Ok((&[1], 1)));
    // Both, and then none is left that could grow.
    case(&[Empty(0), Full(1, 256), Full(2, 2)], &[0, 1, 2], Ok((&[2], 2)));
    case(&[Empty(0), Full(1, 256), Empty(2)], &[0, 1, 2], CEILING);
    case(&[Full(0, 256), Empty(1), Full(2, 256)], &[0, 1, 2], CEILING);
}

/// Every lane of four processes that each move, or wait for one of them, for a
/// message or for room on a channel of 1, 2 or 256.
#[test]
fn all_small_lanes() {
    let mut stands = vec![Runs];
    for other in 0..4 {
        stands.extend([Empty(other), Full(other, 1), Full(other, 2), Full(other, 256)]);
    }
    let mut shapes = Shapes::default();
    let each = |digit: usize| stands[digit % stands.len()];
    for number in 0..stands.len().pow(4) {
        let digits = [0, 1, 2, 3].map(|place| each(number / stands.len().pow(place)));
        test(&mut lane_of(&digits), &mut shapes);
    }
    println!("{shapes:?}");
    assert_eq!(shapes.nobody_waits, 1);
}
