//! Many picks, for counts of instructions.
//!
//! pace FOLDER run|drive|message|stuck LAPS
//! pace files FOLDER
//!
//! For each of ring.bin, pipeline.bin and arithmetic.bin: a fresh lane, and so
//! many laps of 4,096 picks, each lap in turn from process 0, as a run over
//! these picks or as a drive with this number; `message` does the same with
//! message.bin alone, as a run; `stuck` with stuck.bin alone, as drives, each of
//! them from the fresh lane. Prints the moves of all processes together.
//!
//! In message.bin one process sends 255 times and jumps back, the other
//! receives 255 times and jumps back: in a lap each of the two goes through its
//! code 8 times, and 8 times 255 messages go from one to the other.
//! In stuck.bin process 0 is a clock, which jumps to itself. The two others each
//! send 100 times to the other, then receive 100 times and jump back: from
//! channels of 1 on, they wait for each other until the driver has relieved
//! them, time and again, while the clock moves.
//! `pace files` writes these two files to the folder.

use reference::file;
use reference::lane::{Lane, CELLS};
use reference::network::{code, Network, Record};
use reference::schedule::{drive, run};
use std::process::ExitCode;

const PICKS: usize = 4_096;

fn main() -> ExitCode {
    let arguments: Vec<String> = std::env::args().skip(1).collect();
    let (folder, how, laps) = match arguments.as_slice() {
        [files, folder] if files == "files" => return write(folder),
        [folder, how, laps] => (folder, how, laps),
        _ => return usage(),
    };
    let Ok(laps) = laps.parse() else {
        return usage();
    };
    let lanes = ["ring", "pipeline", "arithmetic"];
    let (names, how) = match how.as_str() {
        "run" => (&lanes[..], How::Runs),
        "drive" => (&lanes[..], How::Drives),
        "message" => (&["message"][..], How::Runs),
        "stuck" => (&["stuck"][..], How::FreshDrives),
        _ => return usage(),
    };
    for name in names {
        match moves(&format!("{folder}/{name}.bin"), how, laps) {
            Ok(moves) => println!("{name}: {moves} moves"),
            Err(reason) => {
                eprintln!("{name}.bin: {reason}");
                return ExitCode::FAILURE;
            }
        }
    }
    ExitCode::SUCCESS
}

/// What a lap is.
#[derive(Clone, Copy, PartialEq)]
enum How {
    Runs,
    Drives,
    /// A drive from the fresh lane.
    FreshDrives,
}

fn usage() -> ExitCode {
    eprintln!("pace FOLDER run|drive|message|stuck LAPS, or pace files FOLDER");
    ExitCode::from(2)
}

/// One process that does nothing but send, and one that does nothing but
/// receive.
fn message() -> Network {
    let again = |instruction| [vec![instruction; 255], vec![code(8, 0, 0, 0)]].concat();
    let programs = [again(code(12, 0, 0, 0)), again(code(11, 0, 0, 0))];
    Network::of(&programs, &[Record { sender: 0, receiver: 1, capacity: 1 }])
}

/// A clock beside two that each send 100 messages to the other before they
/// receive any.
fn stuck() -> Network {
    let one = |to: u8, from: u8| {
        let (sends, receives) = (vec![code(12, 0, to, 0); 100], vec![code(11, 1, from, 0); 100]);
        [sends, receives, vec![code(8, 0, 0, 0)]].concat()
    };
    let channel = |sender, receiver| Record { sender, receiver, capacity: 1 };
    let programs = [vec![code(8, 0, 0, 0)], one(0, 1), one(1, 0)];
    Network::of(&programs, &[channel(1, 2), channel(2, 1)])
}

fn write(folder: &str) -> ExitCode {
    for (name, network) in [("message", message()), ("stuck", stuck())] {
        let path = format!("{folder}/{name}.bin");
        if let Err(error) = std::fs::write(&path, file::bytes_of(&network)) {
            eprintln!("{path}: {error}");
            return ExitCode::FAILURE;
        }
    }
    ExitCode::SUCCESS
}

fn moves(path: &str, how: How, laps: usize) -> Result<u64, String> {
    let bytes = std::fs::read(path).map_err(|error| error.to_string())?;
    let network = file::read(&bytes).map_err(|misfit| format!("{misfit:?}"))?;
    let picks: Vec<u8> = (0..network.processes).cycle().take(PICKS).collect();
    let fresh = Lane::fresh(network);
    let mut lane = fresh.clone();
    let mut cells = vec![0; CELLS];
    let mut earlier = 0;
    for _ in 0..laps {
        if how == How::FreshDrives {
            earlier += moves_of(&lane);
            lane.clone_from(&fresh);
        }
        let refused = if how == How::Runs {
            run(&mut lane, &mut cells, &picks).err()
        } else {
            drive(&mut lane, &mut cells, PICKS as u64).err()
        };
        if let Some(refusal) = refused {
            return Err(format!("{refusal:?}"));
        }
    }
    Ok(earlier + moves_of(&lane))
}

fn moves_of(lane: &Lane) -> u64 {
    lane.processes.iter().map(|process| process.moves).sum()
}
