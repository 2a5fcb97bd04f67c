//! Does one thing so many times, for counts of instructions. The count with no
//! times is what the start takes.
//!
//! figures check|read|sound|ended|little|bench|burst|empty TIMES [FOLDER]
//! figures files FOLDER
//! figures reliefs FOLDER
//!
//! - check: the check of a slice of 4,608 bytes
//! - read: reading the largest lane file
//! - sound: the test for soundness of the largest lane
//! - ended: the same with all processes ended
//! - little: the same of the lane of the bench
//! - bench: a bench with 3,000 pick bytes
//! - burst: a burst of 256 values into channel 0 of burst.bin, which is from
//!   outside, empty and of capacity 256; its receiver is live
//! - empty: the same with a burst of no value, so that what the tests take can be
//!   told from what the values take
//!
//! `figures files` writes what these use to the folder: largest.bin, net.bin,
//! in.bin, picks.bin and burst.bin. With a folder the others read what they use
//! from there.
//!
//! `figures reliefs` writes four folders there, each with the three files of a
//! bench on a lane of the largest size, which has no input. The last pick byte is
//! a relief; those before it bring the lane into the state that the relief finds:
//!
//! - nobody: no process waits
//! - tail: 0 waits for 1, 1 for 2 and so on up to 13 for 14, and this tail leads
//!   into a ring of 14 and 15
//! - ring: each process waits for the next, the last one for 0
//! - behind: 0 and 1 wait for each other, and 15 for 14, 14 for 13 and so on down
//!   to 2 for 1
//!
//! In the last three, processes with an even number wait for room, the others for
//! a message, and the relief enlarges.

use reference::bench::{bench, LISTING, PICKS};
use reference::calls::{burst, Burst};
use reference::check::check;
use reference::file;
use reference::lane::{Condition, Lane, CELLS};
use reference::network::{
    code, Instruction, Network, Record, CAPACITY, CHANNELS, CODE, OUTSIDE, PROCESSES,
};
use reference::plans::largest;
use reference::schedule::RELIEF;
use std::hint::black_box;
use std::path::Path;
use std::process::ExitCode;

const NAMES: [&str; 5] = ["largest.bin", "net.bin", "in.bin", "picks.bin", "burst.bin"];

fn main() -> ExitCode {
    let arguments: Vec<String> = std::env::args().skip(1).collect();
    let words: Vec<&str> = arguments.iter().map(String::as_str).collect();
    let done = match words[..] {
        ["files", folder] => write(folder),
        ["reliefs", folder] => reliefs().iter().all(|case| case.write(Path::new(folder)).is_ok()),
        [what, times] => times.parse().is_ok_and(|times| repeat(what, times, None).is_some()),
        [what, times, folder] => {
            times.parse().is_ok_and(|times| repeat(what, times, Some(folder)).is_some())
        }
        _ => false,
    };
    if !done {
        eprintln!(
            "figures check|read|sound|ended|little|bench|burst|empty TIMES [FOLDER], or figures files|reliefs FOLDER"
        );
        return ExitCode::from(2);
    }
    ExitCode::SUCCESS
}

/// None where there is no such thing to do, or a file of the folder cannot be read.
fn repeat(what: &str, times: usize, folder: Option<&str>) -> Option<()> {
    let file = |name: &str| match folder {
        Some(folder) => std::fs::read(format!("{folder}/{name}")).ok(),
        None => Some(made(name)),
    };
    match what {
        "check" => {
            let large = file("largest.bin")?;
            for _ in 0..times {
                black_box(check(black_box(&large)));
            }
        }
        "read" => {
            let large = file("largest.bin")?;
            for _ in 0..times {
                black_box(file::read(black_box(&large))).expect("a lane file");
            }
        }
        "sound" => test(&lane_of(&file("largest.bin")?), times),
        "ended" => test(&ended(lane_of(&file("largest.bin")?)), times),
        "little" => test(&lane_of(&file("net.bin")?), times),
        "bench" => benches([file("net.bin")?, file("in.bin")?, file("picks.bin")?], times),
        "burst" => bursts(lane_of(&file("burst.bin")?), CAPACITY.into(), times),
        "empty" => bursts(lane_of(&file("burst.bin")?), 0, times),
        _ => return None,
    }
    Some(())
}

fn benches([file, input, picks]: [Vec<u8>; 3], times: usize) {
    let mut listing = vec![0; LISTING];
    for _ in 0..times {
        let length = bench(black_box(&file), black_box(&input), black_box(&picks), &mut listing);
        black_box(length).expect("a listing");
        black_box(&listing);
    }
}

/// Bursts of so many values, each into the empty channel: it is emptied by hand,
/// which takes the same however many values there were.
fn bursts(mut lane: Lane, length: usize, times: usize) {
    let empty = lane.channels[0];
    let mut cells = vec![0; CELLS];
    let values: Vec<i32> = (0..length as i32).collect();
    for _ in 0..times {
        lane.channels[0] = empty;
        let answer = burst(black_box(&mut lane), black_box(&mut cells), 0, black_box(&values));
        assert_eq!(answer, Burst { fed: length, refused: None });
    }
}

fn lane_of(file: &[u8]) -> Lane {
    Lane::fresh(file::read(file).expect("a lane file"))
}

/// The lane with all processes ended: its channels are empty, and closed.
fn ended(mut lane: Lane) -> Lane {
    for process in &mut lane.processes {
        process.condition = Condition::Stopped;
    }
    for channel in &mut lane.channels {
        channel.closed = true;
    }
    lane
}

fn test(lane: &Lane, times: usize) {
    for _ in 0..times {
        assert!(black_box(lane).is_sound());
    }
}

/// What stands in a file of this name.
fn made(name: &str) -> Vec<u8> {
    match name {
        "largest.bin" => file::bytes_of(&largest(1)),
        "net.bin" => file::bytes_of(&doubler()),
        "in.bin" => input(),
        "picks.bin" => vec![0; PICKS],
        _ => file::bytes_of(&wide()),
    }
}

/// One process doubles what it receives.
fn doubler() -> Network {
    let program = vec![
        code(11, 0, 0, 4),
        code(3, 0, 0, 0),
        code(12, 0, 1, 0),
        code(8, 0, 0, 0),
        code(0, 0, 0, 0),
    ];
    let channels = [
        Record { sender: OUTSIDE, receiver: 0, capacity: 1 },
        Record { sender: 0, receiver: OUTSIDE, capacity: 1 },
    ];
    Network::of(&[program], &channels)
}

/// More than 3,000 picks of it can use up.
fn input() -> Vec<u8> {
    let values = (0..1_000_i32).flat_map(|value| {
        let [a, b, c, d] = (value * 1_000_003).to_be_bytes();
        [0, a, b, c, d]
    });
    values.collect()
}

/// The largest lane, with room for 256 on channel 0, which is from outside.
fn wide() -> Network {
    let mut network = largest(1);
    assert_eq!(network.records[0].sender, OUTSIDE);
    network.records[0].capacity = CAPACITY;
    network
}

fn write(folder: &str) -> bool {
    let write = |name| std::fs::write(format!("{folder}/{name}"), made(name)).is_ok();
    NAMES.into_iter().all(write)
}

/// A bench whose last pick byte is a relief.
struct Relief {
    name: &'static str,
    network: Network,
    picks: Vec<u8>,
}

impl Relief {
    fn write(&self, folder: &Path) -> std::io::Result<()> {
        let folder = folder.join(self.name);
        std::fs::create_dir_all(&folder)?;
        std::fs::write(folder.join("net.bin"), file::bytes_of(&self.network))?;
        std::fs::write(folder.join("in.bin"), [])?;
        std::fs::write(folder.join("picks.bin"), &self.picks)
    }
}

fn reliefs() -> [Relief; 4] {
    let last = PROCESSES as u8 - 1;
    [
        relief("nobody", |_| None),
        relief("tail", |process| Some(if process < last { process + 1 } else { last - 1 })),
        relief("ring", |process| Some((process + 1) % PROCESSES as u8)),
        relief("behind", |process| Some(if process > 0 { process - 1 } else { 1 })),
    ]
}

/// Each process comes to wait for another one, or for none and moves for ever.
/// After three rounds all that are to wait do.
fn relief(name: &'static str, waits_for: impl Fn(u8) -> Option<u8>) -> Relief {
    let mut channels = Vec::new();
    let mut instructions = Vec::new();
    for process in 0..PROCESSES as u8 {
        let other = waits_for(process);
        let sends = process % 2 == 0;
        // Nobody receives what is sent here, or sends what is awaited.
        let (sender, receiver) = match other {
            Some(other) if !sends => (other, process),
            _ => (process, other.unwrap_or(process)),
        };
        channels.push(Record { sender, receiver, capacity: 1 });
        instructions.push(match other {
            Some(_) if sends => code(12, 0, process, 0),
            Some(_) => code(11, 0, process, 0),
            None => code(1, 0, 0, 1),
        });
    }
    // No code names the others.
    for process in 0..(CHANNELS - PROCESSES) as u8 {
        channels.push(Record { sender: process, receiver: process, capacity: 1 });
    }
    let round = 0..PROCESSES as u8;
    let mut picks: Vec<u8> = round.clone().chain(round.clone()).chain(round).collect();
    picks.push(RELIEF);
    Relief { name, network: Network::of(&filled(&instructions), &channels), picks }
}

/// Each process does its one instruction again and again. Behind the jump stand as
/// many more as fill the code blocks, which are never reached.
fn filled(instructions: &[Instruction]) -> Vec<Vec<Instruction>> {
    let processes = instructions.len();
    let program = |(number, &instruction): (usize, &Instruction)| {
        let length = CODE * (number + 1) / processes - CODE * number / processes;
        let mut program = vec![code(8, 0, 0, 0); length];
        program[0] = instruction;
        program
    };
    instructions.iter().enumerate().map(program).collect()
}

#[cfg(test)]
mod tests {
    use super::*;
    use reference::lane::Wait;
    use reference::relief::relieve;
    use reference::schedule::run;

    fn listing(case: &Relief, picks: usize) -> String {
        let mut listing = vec![0; LISTING];
        let length = bench(&file::bytes_of(&case.network), &[], &case.picks[..picks], &mut listing);
        listing.truncate(length.expect("a listing"));
        String::from_utf8(listing).expect("text")
    }

    /// The lane as the relief finds it. It has no input and no output, so that the
    /// bench does what a run does.
    fn before(case: &Relief) -> Lane {
        let mut lane = lane_of(&file::bytes_of(&case.network));
        let picks = &case.picks[..case.picks.len() - 1];
        run(&mut lane, &mut vec![0; CELLS], picks).expect("a run");
        lane
    }

    /// Whom each process waits for: the other end, if it waits.
    fn waits(lane: &Lane) -> Vec<Option<u8>> {
        let other = |wait| match wait {
            Wait::Empty(channel) => lane.network.records[usize::from(channel)].sender,
            Wait::Full(channel) => lane.network.records[usize::from(channel)].receiver,
        };
        (0..PROCESSES).map(|process| lane.wait(process).map(other)).collect()
    }

    /// Holds a case to its name: whom each process waits for, who is on the ring, and
    /// the channel that grows.
    fn test_case(case: &Relief, waits_for: &[Option<u8>], on_ring: &[u8], channel: Option<u8>) {
        let name = case.name;
        let network = &case.network;
        assert!(network.fits(), "{name}");
        let size = (network.processes, network.channels, network.total());
        assert_eq!(size, (16, 32, 1_016), "{name}");
        let mut lane = before(case);
        assert_eq!(waits(&lane), waits_for, "{name}");
        assert!(lane.processes.iter().all(|process| process.condition == Condition::Live));
        let left = lane.left();
        let left: Vec<u8> = (0..16).filter(|&process| left[usize::from(process)]).collect();
        assert_eq!(left, on_ring, "{name}");
        let mut ring = [0; PROCESSES];
        let answer = relieve(&mut lane, &mut ring).ok();
        assert_eq!(answer.map(|relieved| relieved.channel), channel, "{name}");
        let length = answer.map_or(0, |relieved| relieved.length);
        assert_eq!(&ring[..length], on_ring, "{name}");
    }

    #[test]
    fn reliefs_find_what_their_names_say() {
        let [nobody, tail, ring, behind] = reliefs();
        let names = [&nobody, &tail, &ring, &behind].map(|case| case.name);
        assert_eq!(names, ["nobody", "tail", "ring", "behind"]);
        test_case(&nobody, &[None; 16], &[], None);
        let others: Vec<_> = (1..16).chain([14]).map(Some).collect();
        test_case(&tail, &others, &[14, 15], Some(14));
        let all: Vec<u8> = (0..16).collect();
        let others: Vec<_> = (1..16).chain([0]).map(Some).collect();
        test_case(&ring, &others, &all, Some(0));
        let others: Vec<_> = [1].into_iter().chain(0..15).map(Some).collect();
        test_case(&behind, &others, &[0, 1], Some(0));
    }

    /// The last byte is the only relief, and all that it prints is how it enlarged.
    #[test]
    fn reliefs_enlarge_where_there_is_a_ring() {
        for (case, grow) in reliefs().iter().zip(["", "grow 14 2\n", "grow 0 2\n", "grow 0 2\n"]) {
            assert_eq!(case.picks.iter().position(|&byte| byte == RELIEF), Some(48));
            assert_eq!(case.picks.len(), 49);
            let (without, with) = (listing(case, 48), listing(case, 49));
            assert!(without.starts_with("proc 0 "), "{}", case.name);
            let conditions = |listing: &str| -> Vec<String> {
                let lines = listing.lines().filter(|line| line.starts_with("proc"));
                lines.map(|line| line.split(' ').nth(2).unwrap().to_string()).collect()
            };
            let expected = match case.name {
                "nobody" => vec!["run"; 16],
                _ => ["full", "empty"].repeat(8),
            };
            assert_eq!(conditions(&without), expected, "{}", case.name);
            // A channel that grew has room, so that its sender no longer waits.
            let mut after = without.clone();
            if let Some(number) = grow.split(' ').nth(1) {
                let at = after.find(&format!("proc {number} full")).unwrap();
                let line = after[at..].lines().next().unwrap().to_string();
                after = after.replace(&line, &line.replace("full", "run"));
            }
            assert_eq!(with, format!("{grow}{after}"), "{}", case.name);
        }
    }
}
