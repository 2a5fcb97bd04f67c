//! Writes random scripts of calls and their lane files.
//!
//! scripts SEED COUNT FOLDER
//!
//! The scripts stand in batches, 0.txt, 1.txt and so on, each short enough to
//! be read whole. Prints what they meet. In 1,000 scripts or more, each case
//! that is counted must have been met.

use reference::script::SCRIPT;
use reference::scripts::Scripts;
use std::path::Path;
use std::process::ExitCode;

/// So many scripts, and more, meet every case that is counted.
const ENOUGH: u64 = 1_000;

fn main() -> ExitCode {
    let arguments: Vec<String> = std::env::args().skip(1).collect();
    let [seed, count, folder] = arguments.as_slice() else { return usage() };
    let (Ok(seed), Ok(count)) = (seed.parse(), count.parse()) else { return usage() };
    let mut scripts = Scripts::new(seed, Path::new(folder));
    if let Err(error) = write(&mut scripts, count, Path::new(folder)) {
        eprintln!("{folder}: {error}");
        return ExitCode::FAILURE;
    }
    print!("{}", scripts.met);
    let missing = scripts.missing();
    if count >= ENOUGH && !missing.is_empty() {
        println!("NOT MET in {count} scripts: {}", missing.join(", "));
        return ExitCode::FAILURE;
    }
    ExitCode::SUCCESS
}

fn usage() -> ExitCode {
    eprintln!("scripts SEED COUNT FOLDER");
    ExitCode::from(2)
}

fn write(scripts: &mut Scripts, count: u64, folder: &Path) -> std::io::Result<()> {
    let mut batch = String::new();
    let mut batches = 0;
    for _ in 0..count {
        let script = scripts.script()?;
        if batch.len() + script.len() >= SCRIPT {
            std::fs::write(folder.join(format!("{batches}.txt")), &batch)?;
            batches += 1;
            batch.clear();
        }
        batch += &script;
    }
    std::fs::write(folder.join(format!("{batches}.txt")), &batch)
}
