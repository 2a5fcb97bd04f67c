//! What scripts meet of request 6: the most messages that a channel has held, its
//! peak.

use crate::lane::{Channel, Lane};
use crate::met::{Met, Played};
use crate::network::{Instruction, CAPACITY};
use crate::script::Call;

/// What can come of a message that is sent: the peak rises, or rises to the
/// capacity, or the message is stored and it does not rise; or the receiver has
/// ended, and it stays, above 0 or at 0.
type Cases = [&'static str; 5];

const FEED: Cases = [
    "peak: raised by a feed",
    "peak: raised to the capacity by a feed",
    "peak: not raised by a feed that is stored",
    "peak: above 0, kept by a feed that is not stored",
    "peak: 0, kept by a feed that is not stored",
];
const SEND: Cases = [
    "peak: raised by a send",
    "peak: raised to the capacity by a send",
    "peak: not raised by a send that is stored",
    "peak: above 0, kept by a send that is not stored",
    "peak: 0, kept by a send that is not stored",
];
const BURST: Cases = [
    "peak: raised by a burst",
    "peak: raised to the capacity by a burst",
    "peak: not raised by a burst that is stored",
    "peak: above 0, kept by a burst that is not stored",
    "peak: 0, kept by a burst that is not stored",
];

/// Counts a call on a sound lane with the right cells.
pub(crate) fn count(met: &mut Met, played: &Played, call: &Call, answer: &str) {
    let lane = played.before;
    match (call, answer) {
        (Call::Feed(number, _), "accepted") => sent(met, lane, *number, 1, FEED),
        (Call::Burst(number, _), "accepted" | "refused 10") => burst(met, played, *number, answer),
        (Call::Pick(process), "moved") => moved(met, played, *process),
        (Call::Take(number), "value") => {
            met.meet("peak: kept by a take", is_at_peak(lane.channels[*number]));
        }
        (Call::Close(number), "accepted") => {
            met.meet("peak: kept by a closing", lane.channels[*number].peak > 0);
        }
        (Call::Relieve(_), "enlarged") => {
            let lower = |(_, after): (_, Channel)| after.peak < after.capacity;
            met.meet("peak: kept by an enlargement", grown(played).any(lower));
        }
        (Call::Run(_), "moved") => run(met, played),
        (Call::Drive(_), "settled" | "ceiling" | "spent") => drive(met, played),
        _ => {}
    }
}

/// Whether one message more would raise the peak, and one less must not lower it.
fn is_at_peak(channel: Channel) -> bool {
    channel.held == channel.peak
}

/// So many messages were sent on a channel, one or more.
fn sent(met: &mut Met, lane: &Lane, number: usize, count: u64, names: Cases) {
    let channel = lane.channels[number];
    let (peak, capacity) = (u64::from(channel.peak), u64::from(channel.capacity));
    let held = u64::from(channel.held) + count;
    let is_stored = !lane.is_unheard(number as u8);
    let [raised, filled, left, above, zero] = names;
    met.meet(raised, is_stored && held > peak);
    met.meet(filled, is_stored && held > peak && held == capacity);
    met.meet(left, is_stored && held <= peak);
    met.meet(above, !is_stored && peak > 0);
    met.meet(zero, !is_stored && peak == 0);
    met.meet("peak: raised to 256", is_stored && held > peak && held == CAPACITY.into());
}

/// A burst of which some may have gone in.
fn burst(met: &mut Met, played: &Played, number: usize, answer: &str) {
    let fed = played.fed();
    if fed == 0 {
        return;
    }
    sent(met, played.before, number, fed, BURST);
    let (before, after) = (played.before.channels[number], played.after.channels[number]);
    let rises = after.peak > before.peak;
    met.meet("peak: raised by a burst, not by its first value", rises && !is_at_peak(before));
    met.meet("peak: raised by a burst, then 10", rises && answer == "refused 10");
}

/// A pick that moved.
fn moved(met: &mut Met, played: &Played, process: usize) {
    let lane = played.before;
    if played.after.has_ended(process) {
        return ended(met, lane, process);
    }
    let Instruction { op, b, .. } = lane.instruction(process);
    let number = usize::from(b);
    match op {
        11 => {
            let channel = lane.channels[number];
            met.meet("peak: kept by a receive", channel.held > 0 && is_at_peak(channel));
        }
        12 => {
            sent(met, lane, number, 1, SEND);
            let after = played.after.channels[number];
            let rises = after.peak > lane.channels[number].peak && after.peak == after.capacity;
            let has_grown = after.capacity > lane.network.records[number].capacity;
            met.meet("peak: raised to a capacity above the file's", rises && has_grown);
        }
        13 => met.meet("peak: kept by a 13", lane.channels[number].peak > 0),
        _ => {}
    }
}

/// A process stops or faults.
fn ended(met: &mut Met, lane: &Lane, process: usize) {
    let channels = || lane.network.used_records().iter().zip(&lane.channels);
    let into = || channels().filter(|(record, _)| usize::from(record.receiver) == process);
    let empties = into().any(|(_, channel)| channel.held > 0);
    met.meet("peak: kept by a process that ends and empties", empties);
    let more = into().any(|(_, channel)| channel.held > 0 && !is_at_peak(*channel));
    met.meet("peak: above what is held, kept by a process that ends and empties", more);
    let mut out = channels().filter(|(record, _)| usize::from(record.sender) == process);
    let closes = out.any(|(_, channel)| !channel.closed && channel.peak > 0);
    met.meet("peak: kept by a process that ends and closes", closes);
}

/// The channels before and after a call.
fn changes<'a>(played: &'a Played) -> impl Iterator<Item = (Channel, Channel)> + 'a {
    played.before.channels.into_iter().zip(played.after.channels)
}

/// Those that the call enlarged.
fn grown<'a>(played: &'a Played) -> impl Iterator<Item = (Channel, Channel)> + 'a {
    changes(played).filter(|(before, after)| after.capacity > before.capacity)
}

fn run(met: &mut Met, played: &Played) {
    met.meet("peak: raised in a run, above what is held after it", was_passed(played));
    met.meet("peak: raised in a run to a capacity that grew in it", grew_and_filled(played));
}

fn drive(met: &mut Met, played: &Played) {
    met.meet("peak: raised in a drive, above what is held after it", was_passed(played));
    met.meet("peak: raised in a drive to a capacity that grew in it", grew_and_filled(played));
}

/// Whether a peak rose that the state after the call does not show.
fn was_passed(played: &Played) -> bool {
    changes(played).any(|(before, after)| after.peak > before.peak && after.peak > after.held)
}

fn grew_and_filled(played: &Played) -> bool {
    grown(played).any(|(_, after)| after.peak == after.capacity)
}
