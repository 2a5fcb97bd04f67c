//! The lanes on which docs/growth counts how costs grow with their sizes.
//!
//! growth FOLDER
//!
//! Writes folders there, each with the three files of a bench:
//!
//! - processes-P: a pipeline of P processes from an input to an output
//! - inside-C: one process sends to another; C channels, all but the first idle
//!   and inside
//! - outside-C: the same, all but the first idle and outside: inputs that stay
//!   full with a value left, and outputs that stay empty
//! - picks-N: a pipeline of four processes with N pick bytes
//! - ring-P: P processes, each waits for the next at a full channel; the last
//!   pick byte is a relief
//! - chain-P: P processes, each waits for the next at an empty channel, the
//!   last one for itself at a full one; the last pick byte is a relief
//! - moving-P: a ring of P processes in which every pick moves, for runs
//!
//! P is 1, 2, 4, 8 and 16, C is these and 32, N is 300, 1,000 and 3,000, else as
//! many pick bytes as a bench takes.

use reference::bench::PICKS;
use reference::file;
use reference::network::{code, Instruction, Network, Record, OUTSIDE};
use reference::schedule::RELIEF;
use std::path::Path;
use std::process::ExitCode;

/// A bench: its lane, its input as channels with values, its pick bytes.
struct Case {
    name: String,
    network: Network,
    input: Vec<(u8, i32)>,
    picks: Vec<u8>,
}

fn main() -> ExitCode {
    let arguments: Vec<String> = std::env::args().skip(1).collect();
    let [folder] = arguments.as_slice() else {
        eprintln!("growth FOLDER");
        return ExitCode::from(2);
    };
    for case in cases() {
        if let Err(error) = case.write(Path::new(folder)) {
            eprintln!("{}: {error}", case.name);
            return ExitCode::FAILURE;
        }
    }
    ExitCode::SUCCESS
}

impl Case {
    fn input(&self) -> Vec<u8> {
        let record = |&(channel, value): &(u8, i32)| {
            let [a, b, c, d] = value.to_be_bytes();
            [channel, a, b, c, d]
        };
        self.input.iter().flat_map(record).collect()
    }

    fn write(&self, folder: &Path) -> std::io::Result<()> {
        let folder = folder.join(&self.name);
        std::fs::create_dir_all(&folder)?;
        std::fs::write(folder.join("net.bin"), file::bytes_of(&self.network))?;
        std::fs::write(folder.join("in.bin"), self.input())?;
        std::fs::write(folder.join("picks.bin"), &self.picks)
    }
}

fn cases() -> Vec<Case> {
    let mut cases = Vec::new();
    for size in [1, 2, 4, 8, 16] {
        cases.push(Case { name: format!("processes-{size}"), ..pipeline(size, PICKS) });
        cases.push(relief(format!("ring-{size}"), ring(size), size));
        cases.push(relief(format!("chain-{size}"), chain(size), size));
        cases.push(Case {
            name: format!("moving-{size}"),
            network: moving(size),
            input: Vec::new(),
            picks: in_turn(size, PICKS),
        });
    }
    for size in [1, 2, 4, 8, 16, 32] {
        cases.push(Case { name: format!("inside-{size}"), ..idle(size, false) });
        cases.push(Case { name: format!("outside-{size}"), ..idle(size, true) });
    }
    for picks in [300, 1_000, 3_000] {
        cases.push(Case { name: format!("picks-{picks}"), ..pipeline(4, picks) });
    }
    cases
}

/// The processes 0, 1, .. in turn.
fn in_turn(processes: u8, picks: usize) -> Vec<u8> {
    (0..processes).cycle().take(picks).collect()
}

fn channel(sender: u8, receiver: u8) -> Record {
    Record { sender, receiver, capacity: 1 }
}

/// Instructions again and again.
fn forever(mut instructions: Vec<Instruction>) -> Vec<Instruction> {
    instructions.push(code(8, 0, 0, 0));
    instructions
}

fn send(channel: u8) -> Instruction {
    code(12, 0, channel, 0)
}

fn receive(channel: u8) -> Instruction {
    code(11, 0, channel, 0)
}

/// Process p receives on channel p and sends on the next; the input does not
/// run out.
fn pipeline(processes: u8, picks: usize) -> Case {
    let pass_on = |process| forever(vec![receive(process), send(process + 1)]);
    let programs: Vec<_> = (0..processes).map(pass_on).collect();
    let mut channels = vec![channel(OUTSIDE, 0)];
    channels.extend((1..processes).map(|process| channel(process - 1, process)));
    channels.push(channel(processes - 1, OUTSIDE));
    Case {
        name: String::new(),
        network: Network::of(&programs, &channels),
        input: (0..PICKS as i32).map(|value| (0, 10_000 + value)).collect(),
        picks: in_turn(processes, picks),
    }
}

/// Process 0 sends to process 1 on channel 0; no code names the other channels.
fn idle(channels: u8, outside: bool) -> Case {
    let record = |number| match (number, outside) {
        (0, _) => channel(0, 1),
        (_, false) => channel(1, 0),
        (_, true) if number % 2 == 1 => channel(OUTSIDE, 0),
        (_, true) => channel(1, OUTSIDE),
    };
    let records: Vec<_> = (0..channels).map(record).collect();
    let inputs = (0..).zip(&records).filter(|(_, record)| record.sender == OUTSIDE);
    Case {
        name: String::new(),
        input: inputs.flat_map(|(number, _)| [(number, 1), (number, 2)]).collect(),
        network: Network::of(&[forever(vec![send(0)]), forever(vec![receive(0)])], &records),
        picks: in_turn(2, PICKS),
    }
}

/// Three rounds, after which all processes wait, and a relief.
fn relief(name: String, network: Network, processes: u8) -> Case {
    let mut picks = in_turn(processes, 3 * usize::from(processes));
    picks.push(RELIEF);
    Case { name, network, input: Vec::new(), picks }
}

/// Channel p leads from process p to the next one, the last to process 0.
fn circle(processes: u8) -> Vec<Record> {
    (0..processes).map(|process| channel(process, (process + 1) % processes)).collect()
}

/// Each process sends to the next for ever; nobody receives.
fn ring(processes: u8) -> Network {
    let programs: Vec<_> = (0..processes).map(|process| forever(vec![send(process)])).collect();
    Network::of(&programs, &circle(processes))
}

/// Each process receives from the next; the last one sends to itself.
fn chain(processes: u8) -> Network {
    let last = processes - 1;
    let mut programs: Vec<_> = (0..last).map(|process| forever(vec![receive(process)])).collect();
    programs.push(forever(vec![send(last)]));
    let mut channels: Vec<_> = (0..last).map(|process| channel(process + 1, process)).collect();
    channels.push(channel(last, last));
    Network::of(&programs, &channels)
}

/// Each process sends to the next and receives from the one before.
fn moving(processes: u8) -> Network {
    let pass_on = |process: u8| {
        let before = (process + processes - 1) % processes;
        forever(vec![send(process), receive(before)])
    };
    let programs: Vec<_> = (0..processes).map(pass_on).collect();
    Network::of(&programs, &circle(processes))
}

#[cfg(test)]
mod tests {
    use super::*;
    use reference::bench::{bench, LISTING};

    /// The listing of a case with its first pick bytes.
    fn listing(case: &Case, picks: usize) -> String {
        let mut listing = vec![0; LISTING];
        let file = file::bytes_of(&case.network);
        let length = bench(&file, &case.input(), &case.picks[..picks], &mut listing);
        listing.truncate(length.expect("a listing"));
        String::from_utf8(listing).expect("text")
    }

    fn moves(listing: &str) -> usize {
        let processes = listing.lines().filter_map(|line| line.strip_prefix("proc "));
        processes.map(|line| line.split(' ').nth(2).unwrap().parse::<usize>().unwrap()).sum()
    }

    #[test]
    fn a_relief_enlarges_the_channel_of_its_ring() {
        for case in cases().iter().filter(|case| case.picks.ends_with(&[RELIEF])) {
            let grows = if case.name.starts_with("ring") { 0 } else { case.network.processes - 1 };
            let before = listing(case, case.picks.len() - 1);
            let after = listing(case, case.picks.len());
            let first = after.lines().next().unwrap();
            assert_eq!(first, format!("grow {grows} 2"), "{}", case.name);
            assert!(!before.contains("grow") && !before.contains("run"), "{}", case.name);
        }
    }

    #[test]
    fn from_pick_600_on_every_pick_moves() {
        for case in cases().iter().filter(|case| case.picks.len() == PICKS) {
            let moved = moves(&listing(case, PICKS)) - moves(&listing(case, 600));
            assert_eq!(moved, PICKS - 600, "{}", case.name);
        }
    }
}
