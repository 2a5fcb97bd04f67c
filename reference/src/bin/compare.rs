//! Hands the same random lanes to this implementation and to the linked one,
//! and holds the two answers against each other.
//!
//! compare [SEED] [COUNT] [each]
//!
//! With `each`, the seed of every case is printed before the case is tried. In
//! 20,000 cases or more each kind of case that is counted must have been met.

use reference::bench::bench_watched;
use reference::check::check;
use reference::coverage::Coverage;
use reference::gen::{case, following, Case};
use reference::random::Random;
use std::process::ExitCode;

#[link(name = "host", kind = "static")]
extern "C" {
    fn lane_block_check(bytes: *const u8, length: usize) -> u16;
    fn lane_bench(
        file: *const u8,
        file_length: usize,
        input: *const u8,
        input_length: usize,
        picks: *const u8,
        picks_length: usize,
        listing: *mut u8,
        listing_length: usize,
    ) -> i32;
}

/// Bytes before and after a lent buffer, which nobody may write.
const MARGIN: usize = 64;
/// The longest slice handed to the check.
const SLICE: usize = 5_000;

/// So many cases, and more, meet every kind that is counted.
const ENOUGH: u64 = 20_000;

/// Published checks of this kind.
const PUBLISHED: [(&[u8], u16); 6] = [
    (b"123456789", 0x29B1),
    (b"", 0xFFFF),
    (b"A", 0xB915),
    (&[b'A'; 256], 0xEA0B),
    (&[0, 0], 0x1D0F),
    (&[0xFF, 0xFF], 0x0000),
];

fn main() -> ExitCode {
    let mut arguments = std::env::args().skip(1);
    let mut number = |otherwise: u64| match arguments.next() {
        Some(text) => text.parse().ok(),
        None => Some(otherwise),
    };
    let (Some(mut seed), Some(count)) = (number(1), number(ENOUGH)) else {
        eprintln!("compare [SEED] [COUNT] [each]");
        return ExitCode::from(2);
    };
    let each = arguments.next().is_some_and(|word| word == "each");

    for (bytes, expected) in PUBLISHED {
        if !same_check(bytes, "a published check") || check(bytes) != expected {
            return ExitCode::FAILURE;
        }
    }
    let mut coverage = Coverage::default();
    for _ in 0..count {
        if each {
            println!("seed {seed}");
        }
        let random = &mut Random::new(seed);
        let length = random.below(SLICE + 1);
        let slice: Vec<u8> = (0..length).map(|_| random.byte()).collect();
        if !same_check(&slice, &format!("a slice of {length} bytes, seed {seed}")) {
            return ExitCode::FAILURE;
        }
        let case = case(seed);
        if let Err(difference) = same_bench(&case, &mut coverage, random.byte()) {
            show(seed, &case, &difference);
            return ExitCode::FAILURE;
        }
        seed = following(seed);
    }
    print!("{coverage}");
    let missing = coverage.missing();
    if count >= ENOUGH && !missing.is_empty() {
        println!("NOT MET in {count} lanes: {}", missing.join(", "));
        return ExitCode::FAILURE;
    }
    println!("{count} lanes and {} checks compared: all agree", count + PUBLISHED.len() as u64);
    ExitCode::SUCCESS
}

fn same_check(bytes: &[u8], what: &str) -> bool {
    let mine = check(bytes);
    // Both get the same bytes; the linked function only reads them.
    let theirs = unsafe { lane_block_check(bytes.as_ptr(), bytes.len()) };
    if mine != theirs {
        println!("DIFFERENCE in the check of {what}: reference {mine:04X}, linked {theirs:04X}");
    }
    mine == theirs
}

/// Plays the case on both sides, each with a buffer of its own.
fn same_bench(case: &Case, coverage: &mut Coverage, start: u8) -> Result<(), String> {
    let lent = MARGIN..MARGIN + case.listing;
    let pattern: Vec<u8> =
        (0..case.listing + 2 * MARGIN).map(|at| (at as u8).wrapping_mul(167) ^ start).collect();
    let mut expected = pattern.clone();
    let mine =
        bench_watched(&case.file, &case.input, &case.picks, &mut expected[lent.clone()], coverage);
    let answer = match mine {
        Ok(length) => length as i32,
        Err(refusal) => -i32::from(refusal.number()),
    };
    let handed = case.clone();
    let mut found = pattern;
    let buffer = &mut found[lent.clone()];
    // Each pointer goes with the length of its slice; only the last is written.
    let linked = unsafe {
        lane_bench(
            handed.file.as_ptr(),
            handed.file.len(),
            handed.input.as_ptr(),
            handed.input.len(),
            handed.picks.as_ptr(),
            handed.picks.len(),
            buffer.as_mut_ptr(),
            buffer.len(),
        )
    };
    let length = answer.max(0) as usize;
    coverage.count(mine.map(|length| &expected[lent.start..lent.start + length]));
    let listings = || {
        let theirs = linked.clamp(0, case.listing as i32) as usize;
        let text = |buffer: &[u8], length| {
            String::from_utf8_lossy(&buffer[lent.start..lent.start + length]).into_owned()
        };
        first_difference(&text(&expected, length), &text(&found, theirs))
    };
    if answer != linked {
        return Err(format!("answer: reference {answer}, linked {linked}\n{}", listings()));
    }
    if expected != found {
        let at = expected.iter().zip(&found).position(|(one, other)| one != other).unwrap_or(0);
        let at = at as i64 - lent.start as i64;
        return Err(format!(
            "byte {at} of the buffer differs; the listing has {length}\n{}",
            listings()
        ));
    }
    if handed != *case {
        return Err("a slice that is only to be read was written".to_string());
    }
    Ok(())
}

/// The first line in which two listings differ.
fn first_difference(mine: &str, theirs: &str) -> String {
    let (mut one, mut other) = (mine.lines(), theirs.lines());
    for number in 1.. {
        match (one.next(), other.next()) {
            (None, None) => break,
            (mine, theirs) if mine == theirs => {}
            (mine, theirs) => {
                let line = |line: Option<&str>| line.unwrap_or("nothing").to_string();
                return format!("line {number}: reference {}, linked {}", line(mine), line(theirs));
            }
        }
    }
    "the listings agree".to_string()
}

/// Prints the difference and leaves the three files in the current folder.
fn show(seed: u64, case: &Case, difference: &str) {
    println!("DIFFERENCE with seed {seed} (again: compare {seed} 1)");
    println!("{difference}");
    println!("listing buffer: {} bytes", case.listing);
    let files = [("net.bin", &case.file), ("in.bin", &case.input), ("picks.bin", &case.picks)];
    for (name, bytes) in files {
        match std::fs::write(name, bytes) {
            Ok(()) => println!("{name}: {} bytes written", bytes.len()),
            Err(error) => println!("{name}: {error}"),
        }
    }
}
