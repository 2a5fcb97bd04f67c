//! A run, which follows a list of pick bytes, and the driver, which picks in
//! turn and tries relief after every round.

use crate::calls::{test_sound, Answer};
use crate::lane::{Cells, Lane};
use crate::refusal::Refusal;

/// The pick byte that asks for relief.
pub const RELIEF: u8 = 255;

/// What a run did.
#[derive(Clone, Copy, PartialEq, Eq, Debug)]
pub struct Ran {
    /// Picks that moved.
    pub moved: u64,
    /// Reliefs that enlarged.
    pub enlarged: u64,
}

/// Why the driver ended.
#[derive(Clone, Copy, PartialEq, Eq, Debug)]
pub enum End {
    Settled,
    Ceiling,
    Spent,
}

/// What the driver did.
#[derive(Clone, Copy, PartialEq, Eq, Debug)]
pub struct Driven {
    pub end: End,
    /// Picks made, those that waited or found an end too.
    pub picks: u64,
    pub enlarged: u64,
}

/// Does one pick for each byte, in turn.
pub fn run(lane: &mut Lane, cells: &mut [i32], picks: &[u8]) -> Result<Ran, Refusal> {
    let cells: &mut Cells = cells.try_into().map_err(|_| Refusal::Buffer)?;
    test_sound(lane)?;
    test_picks(lane, picks)?;
    let mut ran = Ran { moved: 0, enlarged: 0 };
    for &byte in picks {
        if byte == RELIEF {
            ran.enlarged += u64::from(lane.relieve().is_ok());
        } else {
            ran.moved += u64::from(lane.step(cells, usize::from(byte)) == Answer::Moved);
        }
    }
    Ok(ran)
}

/// Whether each pick byte names a process or asks for relief.
pub(crate) fn test_picks(lane: &Lane, picks: &[u8]) -> Result<(), Refusal> {
    let processes = lane.network.processes;
    // All bytes are looked at: that is less work than a way out at each.
    let unknown =
        picks.iter().fold(false, |found, &byte| found | (byte >= processes && byte != RELIEF));
    if unknown {
        return Err(Refusal::Absent);
    }
    Ok(())
}

/// Picks all processes in turn, round after round, with so many picks at most,
/// and tries relief once after each round, the last one too. Refusals 13 and 14
/// end it only after a round without a move.
pub fn drive(lane: &mut Lane, cells: &mut [i32], picks: u64) -> Result<Driven, Refusal> {
    let cells: &mut Cells = cells.try_into().map_err(|_| Refusal::Buffer)?;
    test_sound(lane)?;
    let processes = lane.network.processes;
    let round = u64::from(processes);
    let mut driven = Driven { end: End::Spent, picks: 0, enlarged: 0 };
    while picks - driven.picks >= round {
        let mut moved = false;
        for process in 0..processes {
            moved |= lane.step(cells, usize::from(process)) == Answer::Moved;
        }
        driven.picks += round;
        // After most rounds there is nothing to relieve, and no need to search.
        let relieved = if lane.has_full_wait() { lane.relieve() } else { Err(Refusal::NoRing) };
        match relieved {
            Ok(_) => driven.enlarged += 1,
            Err(_) if moved => {}
            Err(Refusal::Ceiling) => return Ok(Driven { end: End::Ceiling, ..driven }),
            Err(_) => return Ok(Driven { end: End::Settled, ..driven }),
        }
    }
    Ok(driven)
}
