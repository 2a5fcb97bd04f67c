//! Bursts (request 1). On random lanes in any state a burst is its single feeds up
//! to the first refusal, and how much of it goes in follows from the state before
//! it. Then the cases of the request by hand.

mod common;
use common::*;
use reference::board::{Board, Leanings};
use reference::bursts;
use reference::calls::{burst, close, feed, pick, Answer, Burst};
use reference::clauses::{clauses, Clause};
use reference::lane::{Channel, Condition, Lane, CELLS};
use reference::network::{code, Instruction, Record, OUTSIDE};
use reference::odd;
use reference::plans;
use reference::random::Random;
use reference::refusal::Refusal;
use reference::script::Edit;
use std::collections::BTreeMap;

/// A lane with its cells, of which there may be too few or too many.
#[derive(Clone, PartialEq, Debug)]
struct State {
    lane: Lane,
    cells: Vec<i32>,
}

impl State {
    fn of(lane: Lane) -> State {
        State { lane, cells: (0..CELLS as i32).map(|number| -1 - number).collect() }
    }

    fn burst(&mut self, channel: usize, values: &[i32]) -> Burst {
        burst(&mut self.lane, &mut self.cells, channel, values)
    }

    fn feed(&mut self, channel: usize, value: i32) -> Result<(), Refusal> {
        feed(&mut self.lane, &mut self.cells, channel, value)
    }

    fn edit(&mut self, edit: Edit) {
        match edit {
            Edit::Cell(number, value) => {
                if let Some(cell) = self.cells.get_mut(number) {
                    *cell = value;
                }
            }
            edit => self.lane.edit(edit),
        }
    }
}

fn all_in(fed: usize) -> Burst {
    Burst { fed, refused: None }
}

fn stopped(fed: usize, refusal: Refusal) -> Burst {
    Burst { fed, refused: Some(refusal) }
}

/// Single feeds up to the first that is refused.
fn single_feeds(state: &mut State, channel: usize, values: &[i32]) -> Burst {
    for (fed, &value) in values.iter().enumerate() {
        if let Err(refusal) = state.feed(channel, value) {
            return stopped(fed, refusal);
        }
    }
    all_in(values.len())
}

/// What the tests before closed and full refuse a feed or a burst with.
fn refused_first(State { lane, cells }: &State, channel: usize) -> Option<Refusal> {
    if cells.len() != 8_192 {
        return Some(Refusal::Buffer);
    }
    if !lane.is_sound() {
        return Some(Refusal::Unsound);
    }
    match lane.network.used_records().get(channel) {
        None => Some(Refusal::Absent),
        Some(Record { sender: OUTSIDE, .. }) => None,
        Some(_) => Some(Refusal::Inside),
    }
}

/// Makes a burst on a copy and holds it against single feeds on another. The next
/// single feed must answer just what stopped the burst.
fn tested(before: &State, channel: usize, values: &[i32]) -> (Burst, State) {
    let mut after = before.clone();
    let answer = after.burst(channel, values);
    let mut singles = before.clone();
    let mut expected = single_feeds(&mut singles, channel, values);
    if values.is_empty() {
        let single = before.clone().feed(channel, 1).err();
        expected.refused = single.filter(|r| !matches!(r, Refusal::Full | Refusal::Closed));
    }
    assert_eq!(answer, expected);
    assert!(after == singles, "not the lane or the cells of single feeds");
    if let Some(refusal) = answer.refused {
        let next = values.get(answer.fed).copied().unwrap_or(7);
        assert_eq!(after.feed(channel, next), Err(refusal));
        assert!(after == singles);
    }
    test_law(before, channel, values, answer, &after);
    test_cut(before, channel, values, answer, &after);
    (answer, after)
}

/// The answer and all that changed, from the state before the burst.
fn test_law(before: &State, channel: usize, values: &[i32], answer: Burst, after: &State) {
    if let Some(refusal) = refused_first(before, channel) {
        assert_eq!(answer, stopped(0, refusal));
        assert!(after == before);
        return;
    }
    let Channel { capacity, oldest, held, closed, .. } = before.lane.channels[channel];
    let receiver = before.lane.network.records[channel].receiver;
    let ended = before.lane.processes[usize::from(receiver)].condition != Condition::Live;
    let (fed, refused) = match values.len() {
        0 => (0, None),
        _ if closed => (0, Some(Refusal::Closed)),
        length if ended => (length, None),
        length => {
            let fed = length.min(usize::from(capacity - held));
            (fed, (fed < length).then_some(Refusal::Full))
        }
    };
    assert_eq!(answer, Burst { fed, refused });
    assert_eq!(bursts::goes_in(&before.lane, channel, values.len()), (fed, refused));
    let mut expected = before.clone();
    expected.lane.accepted = before.lane.accepted.saturating_add(fed as u64);
    if !ended {
        let state = &mut expected.lane.channels[channel];
        state.held += fed as u16;
        state.peak = state.peak.max(state.held);
        for (place, &value) in (usize::from(oldest + held)..).zip(&values[..fed]) {
            expected.cells[256 * channel + place % 256] = value;
        }
    }
    assert!(*after == expected, "not what the law says");
}

/// A burst cut in its middle into two bursts does the same.
fn test_cut(before: &State, channel: usize, values: &[i32], answer: Burst, after: &State) {
    let (one, other) = values.split_at(values.len() / 2);
    if one.is_empty() {
        return;
    }
    let mut state = before.clone();
    let mut both = state.burst(channel, one);
    if both.refused.is_none() {
        let rest = state.burst(channel, other);
        both = Burst { fed: both.fed + rest.fed, refused: rest.refused };
    }
    assert_eq!(both, answer);
    assert!(state == *after);
}

/// A random lane after calls of any kind.
fn after_calls(random: &mut Random) -> State {
    let network = plans::lane(random);
    let input: Vec<Vec<i32>> = (0..network.channels)
        .map(|_| (0..random.below(30)).map(|_| random.value()).collect())
        .collect();
    let cells = Box::new([(); CELLS].map(|()| random.bits() as i32));
    let mut board = Board::new(&network, &input, cells);
    let leanings = Leanings::any(random);
    for _ in 0..random.below(120) {
        board.any_call(random, &leanings);
    }
    State { lane: board.lane, cells: board.cells.to_vec() }
}

/// Changes a sound state by hand: into another sound one, an unsound one, or one
/// with a wrong number of cells.
fn change(random: &mut Random, state: &mut State, clauses: &[Clause]) {
    for _ in 0..random.below(4) {
        let edits = odd::edits(random, &state.lane);
        edits.into_iter().for_each(|edit| state.edit(edit));
    }
    if random.percent(50) {
        let edits = bursts::edits(random, &state.lane).map(|(_, edits)| edits);
        edits.into_iter().flatten().for_each(|edit| state.edit(edit));
    }
    if random.percent(12) {
        let clause = &clauses[random.below(clauses.len())];
        clause.broken(random, &state.lane).into_iter().for_each(|edit| state.edit(edit));
    }
    if random.percent(8) {
        state.cells.resize(random.one(&[0, 1, CELLS - 1, CELLS + 1]), 5);
    }
}

/// Any channel, mostly one from outside, or a number that is none.
fn any_channel(random: &mut Random, lane: &Lane) -> usize {
    let from_outside: Vec<usize> =
        (0..32).filter(|&number| lane.network.records[number].sender == OUTSIDE).collect();
    let any = random.below(usize::from(lane.network.channels.min(32)) + 1);
    match random.below(10) {
        0 => random.one(&[32, 255, 256, any + 256, any + (1 << 32), usize::MAX]),
        1 | 2 => any,
        _ if from_outside.is_empty() => any,
        _ => random.one(&from_outside),
    }
}

/// What a burst was a case of.
fn kind(before: &State, channel: usize, values: &[i32], answer: Burst) -> &'static str {
    let state = before.lane.channels.get(channel).copied().unwrap_or_default();
    let full = state.is_full();
    match (values.is_empty(), answer.refused.map(Refusal::number)) {
        (true, None) if full && state.closed => "empty, full and closed",
        (true, None) if full => "empty, full",
        (true, None) if state.closed => "empty, closed",
        (true, None) => "empty, accepted",
        (true, Some(8)) => "empty, 8",
        (true, Some(9)) => "empty, 9",
        (true, Some(15)) => "empty, 15",
        (true, Some(16)) => "empty, 16",
        (false, None) if before.lane.is_unheard(channel as u8) => "all in, not heard",
        (false, None) => "all in",
        (false, Some(8)) => "8",
        (false, Some(9)) => "9",
        (false, Some(10)) if answer.fed == 0 => "none in, 10",
        (false, Some(10)) => "some in, 10",
        (false, Some(11)) if full => "11, full",
        (false, Some(11)) => "11",
        (false, Some(15)) => "15",
        (false, Some(16)) => "16",
        _ => panic!("an answer that no burst has: {answer:?}"),
    }
}

#[test]
fn a_burst_is_its_single_feeds() {
    let random = &mut Random::new(31);
    let clauses = clauses();
    let mut met = BTreeMap::new();
    for _ in 0..700 {
        let reached = after_calls(random);
        let mut changed = reached.clone();
        change(random, &mut changed, &clauses);
        for mut state in [reached, changed] {
            for _ in 0..6 {
                let channel = any_channel(random, &state.lane);
                let values = bursts::values(random, &state.lane, channel);
                let (answer, after) = tested(&state, channel, &values);
                *met.entry(kind(&state, channel, &values, answer)).or_insert(0) += 1;
                if random.percent(50) {
                    state = after;
                }
            }
        }
    }
    println!("{met:?}");
    assert_eq!(met.len(), 18, "{met:?}");
    assert!(met.values().all(|&count| count >= 20), "{met:?}");
}

/// After some went in, only a full channel can stop a burst.
#[test]
fn only_10_stops_it_on_the_way() {
    let random = &mut Random::new(32);
    let mut stopped_on_the_way = 0;
    for _ in 0..3_000 {
        let mut state = State::of(lane(random.between(1, 60) as u16));
        let (channel, edits) = bursts::edits(random, &state.lane).expect("a channel from outside");
        edits.into_iter().for_each(|edit| state.edit(edit));
        let values = numbers(random.between(1, 300));
        let answer = state.burst(channel, &values);
        if answer.fed > 0 && answer.refused.is_some() {
            assert_eq!(answer.refused, Some(Refusal::Full));
            assert!(state.lane.channels[channel].is_full() && answer.fed < values.len());
            stopped_on_the_way += 1;
        }
    }
    assert!(stopped_on_the_way > 300, "{stopped_on_the_way}");
}

/// Channels: 0 in, 1 out, 2 from the process to itself, 3 in too. The process
/// passes on from 0 to 1, and stops at the end.
fn lane(capacity: u16) -> Lane {
    let program: [Instruction; 4] = [code(11, 0, 0, 3), code(12, 0, 1, 0), code(8, 0, 0, 0), STOP];
    let channels =
        [from_outside(0, capacity), to_outside(0, 1), channel(0, 0, 1), from_outside(0, capacity)];
    fresh(&[&program], &channels)
}

/// Values that are all different.
fn numbers(count: usize) -> Vec<i32> {
    (1..=count as i32).collect()
}

#[test]
fn all_in_and_part_way_in() {
    let state = State::of(lane(5));
    let (answer, after) = tested(&state, 0, &[10, 20, 30]);
    assert_eq!(answer, all_in(3));
    let open = Channel { capacity: 5, oldest: 0, held: 3, peak: 3, closed: false };
    assert_eq!((after.lane.channels[0], after.lane.accepted), (open, 3));
    assert_eq!(after.cells[..5], [10, 20, 30, -4, -5]);
    // Two more find room. The third is refused, and so nothing of it is seen.
    let (answer, after) = tested(&after, 0, &[40, 50, 60, 70]);
    assert_eq!(answer, stopped(2, Refusal::Full));
    let full = Channel { held: 5, peak: 5, ..open };
    assert_eq!((after.lane.channels[0], after.lane.accepted), (full, 5));
    assert_eq!(after.cells[..7], [10, 20, 30, 40, 50, -6, -7]);
    // Into the full one nothing goes.
    let (answer, still) = tested(&after, 0, &[80]);
    assert_eq!(answer, stopped(0, Refusal::Full));
    assert!(still == after);
    // The process receives the values in their order.
    let mut after = after;
    assert_eq!(pick(&mut after.lane, &mut after.cells, 0), Ok(Answer::Moved));
    assert_eq!(after.lane.processes[0].registers[0], 10);
}

#[test]
fn just_as_many_as_find_room() {
    for held in [0, 1, 4] {
        let mut state = State::of(lane(5));
        hold(&mut state.lane, 0, held);
        let room = usize::from(5 - held);
        assert_eq!(tested(&state, 0, &numbers(room)).0, all_in(room));
        assert_eq!(tested(&state, 0, &numbers(room + 1)).0, stopped(room, Refusal::Full));
        assert_eq!(tested(&state, 0, &numbers(room - 1)).0, all_in(room - 1));
    }
    // All 256 cells of a channel.
    let state = State::of(lane(256));
    let (answer, after) = tested(&state, 3, &numbers(512));
    assert_eq!(answer, stopped(256, Refusal::Full));
    assert_eq!(after.cells[768..1_024], numbers(256)[..]);
    assert_eq!((after.cells[767], after.cells[1_024]), (-768, -1_025));
    assert_eq!(tested(&state, 3, &numbers(256)).0, all_in(256));
}

#[test]
fn places_are_counted_round() {
    let mut state = State::of(lane(6));
    state.lane.channels[3] = Channel { capacity: 6, oldest: 252, held: 2, peak: 3, closed: false };
    let (answer, after) = tested(&state, 3, &[7, 8, 9, 10, 11]);
    assert_eq!(answer, stopped(4, Refusal::Full));
    assert_eq!(after.cells[1_020..1_025], [-1_021, -1_022, 7, 8, -1_025]);
    assert_eq!(after.cells[766..771], [-767, -768, 9, 10, -771]);
    let channel = Channel { capacity: 6, oldest: 252, held: 6, peak: 6, closed: false };
    assert_eq!(after.lane.channels[3], channel);
}

#[test]
fn all_goes_to_an_ended_receiver() {
    let mut state = State::of(lane(2));
    for condition in [Condition::Stopped, Condition::Faulted] {
        state.lane.processes[0].condition = condition;
        state.lane.channels[1].closed = true;
        state.lane.channels[2].closed = true;
        for count in [1, 2, 3, 300, 512] {
            let (answer, after) = tested(&state, 0, &numbers(count));
            assert_eq!(answer, all_in(count));
            assert_eq!(after.lane.accepted, count as u64);
            assert_eq!(after.lane.channels, state.lane.channels);
            assert_eq!(after.cells, state.cells);
        }
        // Closed comes before that.
        let mut closed = state.clone();
        assert_eq!(close(&mut closed.lane, 0), Ok(()));
        assert_eq!(tested(&closed, 0, &numbers(3)).0, stopped(0, Refusal::Closed));
    }
}

#[test]
fn a_closed_channel_takes_nothing() {
    for held in [0, 1, 2] {
        let mut state = State::of(lane(2));
        state.lane.channels[0] = Channel { capacity: 2, oldest: 9, held, peak: 2, closed: true };
        for count in [1, 2, 3] {
            let (answer, after) = tested(&state, 0, &numbers(count));
            assert_eq!(answer, stopped(0, Refusal::Closed));
            assert!(after == state);
        }
    }
}

/// Neither full nor closed is looked at, and nothing is counted.
#[test]
fn an_empty_burst_is_no_refusal() {
    for (held, closed) in [(0, false), (1, false), (2, false), (0, true), (1, true), (2, true)] {
        for accepted in [0, 5, u64::MAX] {
            let mut state = State::of(lane(2));
            state.lane.channels[0] = Channel { capacity: 2, oldest: 9, held, peak: 2, closed };
            state.lane.accepted = accepted;
            let (answer, after) = tested(&state, 0, &[]);
            assert_eq!(answer, all_in(0));
            assert!(after == state);
        }
    }
}

/// 15, 16, 8 and 9, in this order, whether there are values or not.
#[test]
fn the_tests_come_in_order() {
    let sound = State::of(lane(2));
    let mut unsound = sound.clone();
    hold(&mut unsound.lane, 0, 3);
    let mut closed = sound.clone();
    for number in 0..3 {
        closed.lane.channels[number].closed = true;
    }
    for values in [&[][..], &[1], &[1, 2, 3, 4]] {
        let answer = |state: &State, channel: usize| tested(state, channel, values).0;
        for channel in [0, 1, 2, 4, 31, 32, 256, usize::MAX] {
            for cells in [0, 8_191, 8_193] {
                for state in [&sound, &unsound] {
                    let mut state = state.clone();
                    state.cells.resize(cells, 0);
                    assert_eq!(answer(&state, channel), stopped(0, Refusal::Buffer));
                }
            }
            assert_eq!(answer(&unsound, channel), stopped(0, Refusal::Unsound));
        }
        for channel in [4, 31, 32, 255, 256, 259, 1 << 32, usize::MAX] {
            assert_eq!(answer(&sound, channel), stopped(0, Refusal::Absent));
        }
        for channel in [1, 2] {
            assert_eq!(answer(&sound, channel), stopped(0, Refusal::Inside));
            assert_eq!(answer(&closed, channel), stopped(0, Refusal::Inside));
        }
    }
}

/// Each value is counted, and the count stays at its largest.
#[test]
fn the_count_of_accepted_calls() {
    for left in [0, 1, 3, 4, 5, 6, 100] {
        let mut state = State::of(lane(5));
        state.lane.accepted = u64::MAX - left;
        let (answer, after) = tested(&state, 0, &numbers(7));
        assert_eq!(answer, stopped(5, Refusal::Full));
        assert_eq!(after.lane.accepted, u64::MAX - left.saturating_sub(5));
        assert_eq!(after.lane.channels[0].held, 5);
    }
}
