//! Bursts for random scripts: the states of a channel that matter to one, lists
//! that suit them, and how much of a list must go in.

use crate::lane::{Channel, Lane};
use crate::network::{CAPACITY, OUTSIDE};
use crate::odd;
use crate::random::Random;
use crate::refusal::Refusal;
use crate::script::{Edit, VALUES};

/// A channel from outside, if there is one, and edits after which a sound lane is
/// sound still: the channel in any state, or with all its cells free, its receiver
/// ended, the count of accepted calls near its largest.
pub fn edits(random: &mut Random, lane: &Lane) -> Option<(usize, Vec<Edit>)> {
    let records = lane.network.used_records();
    let outside: Vec<usize> =
        (0..records.len()).filter(|&number| records[number].sender == OUTSIDE).collect();
    if outside.is_empty() {
        return None;
    }
    let number = random.one(&outside);
    let mut edits = match random.below(8) {
        0 => Vec::new(),
        1 | 2 => odd::end(random, lane, records[number].receiver.into()),
        3 => {
            let oldest = odd::oldest(random, lane, number);
            let peak = odd::peak(random, 0, CAPACITY);
            let wide = Channel { capacity: CAPACITY, oldest, held: 0, peak, closed: false };
            vec![Edit::Channel(number, wide)]
        }
        _ => vec![odd::channel(random, lane, number)],
    };
    if random.percent(25) {
        edits.push(Edit::Accepted(u64::MAX - random.below(6) as u64));
    }
    Some((number, edits))
}

/// A list for a channel: none, a few, or about as many as it has room for.
pub fn values(random: &mut Random, lane: &Lane, channel: usize) -> Vec<i32> {
    let room = lane
        .channels
        .get(channel)
        .map_or(1, |channel| usize::from(channel.capacity.saturating_sub(channel.held)));
    // Long lists make long scripts.
    let share = if room == usize::from(CAPACITY) { 60 } else { 20 };
    let fills = room < 40 || random.percent(share);
    let length = match random.below(20) {
        0..=3 => 0,
        4 => 1,
        5..=7 if fills => room.saturating_sub(1),
        8..=10 if fills => room,
        11..=13 if fills => room + 1,
        14 if fills => room + random.between(2, 20),
        15 if random.percent(25) => random.one(&[VALUES, VALUES, VALUES - 1, 257]),
        _ => random.between(2, 8),
    };
    // An unsound lane may seem to have any room.
    (0..length.min(VALUES)).map(|_| random.value()).collect()
}

/// The line of a script.
pub fn line(channel: usize, values: &[i32]) -> String {
    values.iter().fold(format!("burst {channel}"), |line, value| format!("{line} {value}"))
}

/// How many of so many values go into a channel from outside of a sound lane, and
/// what stops them.
pub fn goes_in(lane: &Lane, channel: usize, length: usize) -> (usize, Option<Refusal>) {
    let state = lane.channels[channel];
    if length > 0 && state.closed {
        return (0, Some(Refusal::Closed));
    }
    let room = usize::from(state.capacity - state.held);
    if lane.is_unheard(channel as u8) || length <= room {
        return (length, None);
    }
    (room, Some(Refusal::Full))
}
