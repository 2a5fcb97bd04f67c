//! Replays a script of calls from standard input, with the lane files of the
//! current folder, and prints each line with its answer and what it changed.

use reference::replay::Replay;
use reference::script::SCRIPT;
use std::io::{BufWriter, Read, Write};
use std::path::Path;

fn main() -> std::io::Result<()> {
    let mut script = Vec::new();
    std::io::stdin().lock().take(SCRIPT as u64).read_to_end(&mut script)?;
    let mut out = BufWriter::new(std::io::stdout().lock());
    Replay::new(Path::new("")).play(&script, &mut out)?;
    out.flush()
}
