//! The bench program: reads net.bin, in.bin and picks.bin in the current
//! folder and prints the listing, or the refusal.

use reference::bench::{bench, LISTING};
use std::io::Write;

fn main() -> std::io::Result<()> {
    let [file, input, picks] =
        ["net.bin", "in.bin", "picks.bin"].map(|name| std::fs::read(name).unwrap_or_default());
    let mut listing = vec![0; LISTING];
    match bench(&file, &input, &picks, &mut listing) {
        Ok(length) => std::io::stdout().write_all(&listing[..length]),
        Err(refusal) => writeln!(std::io::stdout(), "refused {}", refusal.number()),
    }
}
