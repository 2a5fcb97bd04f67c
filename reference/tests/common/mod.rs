//! What several test files use.
#![allow(dead_code)] // each of them uses a part

use reference::lane::{Cells, Lane, CELLS};
use reference::network::{code, Instruction, Network, Record, OUTSIDE};

pub const STOP: Instruction = code(0, 0, 0, 0);

pub fn channel(sender: u8, receiver: u8, capacity: u16) -> Record {
    Record { sender, receiver, capacity }
}

/// A channel from outside.
pub fn from_outside(receiver: u8, capacity: u16) -> Record {
    channel(OUTSIDE, receiver, capacity)
}

/// A channel to outside.
pub fn to_outside(sender: u8, capacity: u16) -> Record {
    channel(sender, OUTSIDE, capacity)
}

/// A fresh lane. The network must fit.
pub fn fresh(programs: &[&[Instruction]], channels: &[Record]) -> Lane {
    let programs: Vec<_> = programs.iter().map(|program| program.to_vec()).collect();
    let network = Network::of(&programs, channels);
    assert!(network.fits());
    Lane::fresh(network)
}

/// So many messages by hand, and the channel has held no more.
pub fn hold(lane: &mut Lane, channel: usize, held: u16) {
    let channel = &mut lane.channels[channel];
    (channel.held, channel.peak) = (held, held);
}

pub fn cells() -> Box<Cells> {
    Box::new([0; CELLS])
}

/// The lane of the sample listing: one process doubles what it receives.
pub fn sample() -> Network {
    let doubler = [code(11, 0, 0, 4), code(3, 0, 0, 0), code(12, 0, 1, 0), code(8, 0, 0, 0), STOP];
    Network::of(&[doubler.to_vec()], &[from_outside(0, 1), to_outside(0, 1)])
}

/// Input records for the bench.
pub fn records(values: &[(u8, i32)]) -> Vec<u8> {
    values
        .iter()
        .flat_map(|&(channel, value)| [vec![channel], value.to_be_bytes().to_vec()].concat())
        .collect()
}
