//! Random cases for the bench: a lane file, input and picks. One seed gives one
//! case, always the same.

use crate::bench::{INPUT, INPUT_RECORD, LISTING, PICKS};
use crate::damage;
use crate::file;
use crate::network::{Network, OUTSIDE};
use crate::plans::{lane_and_length, tails_and_length, Length};
use crate::random::Random;
use crate::schedule::RELIEF;

/// All that one bench is handed.
#[derive(Clone, PartialEq, Eq, Debug)]
pub struct Case {
    pub file: Vec<u8>,
    pub input: Vec<u8>,
    pub picks: Vec<u8>,
    /// How long the buffer for the listing is.
    pub listing: usize,
}

/// The seed of the case that follows the one with this seed.
pub fn following(seed: u64) -> u64 {
    Random::new(seed).bits()
}

/// The case of this seed. About three in ten have something to refuse, and some
/// of those several things, so that the order of the tests shows.
pub fn case(seed: u64) -> Case {
    let random = &mut Random::new(seed ^ 0x6C61_6E65);
    // The cases of the other seeds do not hang on those with rings and tails.
    let tails = &mut Random::new(seed ^ 0x7461_696C);
    let (network, length) =
        if tails.percent(5) { tails_and_length(tails) } else { lane_and_length(random) };
    let mut case = Case {
        file: file::bytes_of(&network),
        input: input(random, &network, length),
        picks: picks(random, &network, length),
        listing: if random.percent(92) { LISTING } else { LISTING + random.between(1, 4_000) },
    };
    let fate = random.below(100);
    let several = fate >= 97;
    if (67..88).contains(&fate) || several && random.percent(50) {
        damage::file(random, &network, &mut case.file);
    }
    if (88..92).contains(&fate) || several && random.percent(50) {
        damage::input(random, &network, &mut case.input);
    }
    if (92..95).contains(&fate) || several && random.percent(50) {
        damage::picks(random, &network, &mut case.picks);
    }
    if (95..97).contains(&fate) || several && random.percent(25) {
        case.listing = if random.percent(50) { LISTING - 1 } else { random.below(LISTING) };
    }
    case
}

/// The channels of a network that are fed from outside.
pub fn fed(network: &Network) -> Vec<u8> {
    let records = (0..).zip(network.used_records());
    records.filter(|(_, record)| record.sender == OUTSIDE).map(|(channel, _)| channel).collect()
}

/// Input for the network, within its limits.
fn input(random: &mut Random, network: &Network, length: Length) -> Vec<u8> {
    let fed = fed(network);
    let most = INPUT / INPUT_RECORD;
    let records = match random.below(20) {
        _ if fed.is_empty() => 0,
        _ if length == Length::Short => random.below(6),
        _ if length == Length::Long => random.between(500, most),
        0 => 0,
        1 => most,
        2 => random.between(200, most),
        3..=8 => random.between(30, 200),
        _ => random.between(1, 30),
    };
    let mut input = Vec::with_capacity(records * INPUT_RECORD);
    for _ in 0..records {
        input.push(random.one(&fed));
        input.extend(random.value().to_be_bytes());
    }
    input
}

/// Pick bytes for the network, within their limits.
fn picks(random: &mut Random, network: &Network, length: Length) -> Vec<u8> {
    let long = length == Length::Long;
    let length = match random.below(40) {
        0 => 0,
        _ if length == Length::Short => random.between(1, 12),
        1..=4 => random.between(1, 40),
        5 | 6 => PICKS,
        _ if long && random.percent(90) => PICKS,
        7..=11 => random.between(800, PICKS),
        _ => random.between(60, 600),
    };
    let processes = usize::from(network.processes);
    let relief = random.one(&[0, 3, 10, 25]);
    let mut picks = Vec::with_capacity(length + PICKS);
    while picks.len() < length {
        match random.below(4) {
            // Some rounds in turn, then relief.
            0 => {
                for _ in 0..random.between(1, 12) {
                    picks.extend(0..network.processes);
                }
            }
            // One process for a while.
            1 => {
                let process = random.below(processes) as u8;
                let times = if long { random.between(100, 600) } else { random.between(1, 40) };
                picks.extend(vec![process; times]);
            }
            // Any process.
            2 => {
                for _ in 0..random.between(5, 80) {
                    picks.push(random.below(processes) as u8);
                    if random.percent(relief) {
                        picks.push(RELIEF);
                    }
                }
            }
            // All processes until they wait, with relief in between.
            _ => {
                for _ in 0..random.between(1, 20) {
                    picks.extend(0..network.processes);
                    picks.extend(0..network.processes);
                    picks.push(RELIEF);
                }
            }
        }
        if relief > 0 {
            picks.extend(vec![RELIEF; random.below(4)]);
        }
    }
    picks.truncate(length);
    picks
}
