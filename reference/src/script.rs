//! The lines of a script of calls, read from their text. docs/SCRIPTS.md has
//! the rules.

use crate::lane::{Channel, Condition, CELLS};
use crate::network::{Record, Slot, CHANNELS, CODE, PROCESSES, REGISTERS};
use std::fmt;

/// The longest script; what is beyond is not read.
pub const SCRIPT: usize = 1_048_576;
/// The longest buffer for a lane file.
pub const BUFFER: usize = 4_700;
/// The longest buffer for a ring.
pub const RING: usize = 32;
/// Most pick bytes of a run.
pub const BYTES: usize = 256;
/// Most values of a burst.
pub const VALUES: usize = 512;
/// Cells of a script's lane: one more than the calls need.
pub const ALL_CELLS: usize = CELLS + 1;

/// What one line says.
#[derive(Clone, PartialEq, Eq, Debug)]
pub enum Line<'a> {
    Note,
    Bad,
    Lane(&'a [u8]),
    Read(&'a [u8]),
    Write(usize),
    Room(usize),
    Show,
    Call(Call),
    Make(Edit),
    With(Edit),
}

/// A call, the same for the lane by value and in its place.
#[derive(Clone, PartialEq, Eq, Debug)]
pub enum Call {
    Pick(usize),
    Feed(usize, i32),
    Burst(usize, Vec<i32>),
    Close(usize),
    Take(usize),
    Relieve(usize),
    Run(Vec<u8>),
    Drive(u64),
}

/// A change by hand.
#[derive(Clone, Copy, PartialEq, Eq, Debug)]
pub enum Edit {
    Network { processes: u64, channels: u64 },
    Slot(usize, Slot),
    Record(usize, Record),
    Byte(usize, u8),
    Process { number: usize, position: u16, condition: Condition, moves: u64 },
    Register(usize, i32),
    Channel(usize, Channel),
    Cell(usize, i32),
    Accepted(u64),
}

/// What a line says, without its newline.
pub fn parse(line: &[u8]) -> Line<'_> {
    if line.is_empty() || line.starts_with(b"#") {
        return Line::Note;
    }
    file_line(line).or_else(|| word_line(line)).unwrap_or(Line::Bad)
}

/// A line with the name of a file: the rest of the line, whatever it is.
fn file_line(line: &[u8]) -> Option<Line<'_>> {
    let space = line.iter().position(|&byte| byte == b' ')?;
    let (word, name) = (&line[..space], &line[space + 1..]);
    match word {
        b"lane" if !name.is_empty() => Some(Line::Lane(name)),
        b"read" if !name.is_empty() => Some(Line::Read(name)),
        _ => None,
    }
}

/// All other lines. A second space in a row gives an empty word, which no line
/// has.
fn word_line(line: &[u8]) -> Option<Line<'_>> {
    let words: Vec<&str> = std::str::from_utf8(line).ok()?.split(' ').collect();
    let line = match words[..] {
        ["show"] => Line::Show,
        ["write", length] => Line::Write(number(length, BUFFER)?),
        ["room", cells] => Line::Room(number(cells, ALL_CELLS)?),
        ["make", ref words @ ..] => Line::Make(edit(words)?),
        ["with", ref words @ ..] => Line::With(edit(words)?),
        _ => Line::Call(call(&words)?),
    };
    Some(line)
}

fn call(words: &[&str]) -> Option<Call> {
    let call = match *words {
        ["pick" | "lent-pick", process] => Call::Pick(number(process, usize::MAX)?),
        ["feed" | "lent-feed", channel, text] => {
            Call::Feed(number(channel, usize::MAX)?, value(text)?)
        }
        ["burst", channel, ref values @ ..] if values.len() <= VALUES => {
            let values: Option<Vec<i32>> = values.iter().map(|text| value(text)).collect();
            Call::Burst(number(channel, usize::MAX)?, values?)
        }
        ["close", channel] => Call::Close(number(channel, usize::MAX)?),
        ["take" | "lent-take", channel] => Call::Take(number(channel, usize::MAX)?),
        ["relieve", length] => Call::Relieve(number(length, RING)?),
        ["run", ref bytes @ ..] if bytes.len() <= BYTES => {
            let bytes: Option<Vec<u8>> = bytes.iter().map(|byte| number(byte, u8::MAX)).collect();
            Call::Run(bytes?)
        }
        ["drive", picks] => Call::Drive(number(picks, u64::MAX)?),
        _ => return None,
    };
    Some(call)
}

fn edit(words: &[&str]) -> Option<Edit> {
    let edit = match *words {
        ["network", processes, channels] => Edit::Network {
            processes: number(processes, u64::MAX)?,
            channels: number(channels, u64::MAX)?,
        },
        ["slot", slot, "first", first, "count", count] => Edit::Slot(
            number(slot, PROCESSES - 1)?,
            Slot { first: number(first, u16::MAX)?, count: number(count, u16::MAX)? },
        ),
        ["record", record, "sender", sender, "receiver", receiver, "capacity", capacity] => {
            Edit::Record(
                number(record, CHANNELS - 1)?,
                Record {
                    sender: number(sender, u8::MAX)?,
                    receiver: number(receiver, u8::MAX)?,
                    capacity: number(capacity, u16::MAX)?,
                },
            )
        }
        ["byte", place, byte] => Edit::Byte(number(place, 4 * CODE - 1)?, number(byte, u8::MAX)?),
        ["process", process, "position", position, word, "moves", moves] => Edit::Process {
            number: number(process, PROCESSES - 1)?,
            position: number(position, u16::MAX)?,
            condition: condition(word)?,
            moves: number(moves, u64::MAX)?,
        },
        ["register", register, text] => {
            Edit::Register(number(register, PROCESSES * REGISTERS - 1)?, value(text)?)
        }
        ["channel", channel, ref words @ ..] => {
            Edit::Channel(number(channel, CHANNELS - 1)?, channel_state(words)?)
        }
        ["cell", cell, text] => Edit::Cell(number(cell, ALL_CELLS - 1)?, value(text)?),
        ["accepted", count] => Edit::Accepted(number(count, u64::MAX)?),
        _ => return None,
    };
    Some(edit)
}

fn channel_state(words: &[&str]) -> Option<Channel> {
    let ["capacity", capacity, "oldest", oldest, "held", held, "peak", peak, state] = *words else {
        return None;
    };
    Some(Channel {
        capacity: number(capacity, u16::MAX)?,
        oldest: number(oldest, u16::MAX)?,
        held: number(held, u16::MAX)?,
        peak: number(peak, u16::MAX)?,
        closed: closed(state)?,
    })
}

/// A number of decimal digits alone, up to a limit.
fn number<T: Copy + PartialOrd + TryFrom<u64>>(word: &str, limit: T) -> Option<T> {
    if word.is_empty() || !word.bytes().all(|byte| byte.is_ascii_digit()) {
        return None;
    }
    // One that a u64 does not hold is past every limit.
    let number = T::try_from(word.parse::<u64>().ok()?).ok()?;
    (number <= limit).then_some(number)
}

/// A signed 32-bit number.
fn value(word: &str) -> Option<i32> {
    let (sign, digits) = match word.strip_prefix('-') {
        Some(digits) => (-1, digits),
        None => (1, word),
    };
    i32::try_from(sign * number(digits, i64::from(u32::MAX))?).ok()
}

fn condition(word: &str) -> Option<Condition> {
    let all = [Condition::Live, Condition::Stopped, Condition::Faulted];
    all.into_iter().find(|&condition| condition_word(condition) == word)
}

fn closed(word: &str) -> Option<bool> {
    [false, true].into_iter().find(|&closed| state_word(closed) == word)
}

/// The word for a condition.
pub fn condition_word(condition: Condition) -> &'static str {
    match condition {
        Condition::Live => "live",
        Condition::Stopped => "stopped",
        Condition::Faulted => "faulted",
    }
}

/// The word for a channel that is open or closed.
pub fn state_word(closed: bool) -> &'static str {
    if closed {
        "closed"
    } else {
        "open"
    }
}

/// The edit as it stands in a script.
impl fmt::Display for Edit {
    fn fmt(&self, to: &mut fmt::Formatter) -> fmt::Result {
        match self {
            Edit::Network { processes, channels } => write!(to, "network {processes} {channels}"),
            Edit::Slot(slot, Slot { first, count }) => {
                write!(to, "slot {slot} first {first} count {count}")
            }
            Edit::Record(record, Record { sender, receiver, capacity }) => write!(
                to,
                "record {record} sender {sender} receiver {receiver} capacity {capacity}"
            ),
            Edit::Byte(place, byte) => write!(to, "byte {place} {byte}"),
            Edit::Process { number, position, condition, moves } => {
                let condition = condition_word(*condition);
                write!(to, "process {number} position {position} {condition} moves {moves}")
            }
            Edit::Register(register, value) => write!(to, "register {register} {value}"),
            Edit::Channel(channel, Channel { capacity, oldest, held, peak, closed }) => {
                write!(to, "channel {channel} capacity {capacity} oldest {oldest} held {held}")?;
                write!(to, " peak {peak} {}", state_word(*closed))
            }
            Edit::Cell(cell, value) => write!(to, "cell {cell} {value}"),
            Edit::Accepted(count) => write!(to, "accepted {count}"),
        }
    }
}
