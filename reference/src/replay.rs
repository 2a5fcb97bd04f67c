//! Replays a script of calls: each line is printed with its answer and with
//! what the call changed. docs/SCRIPTS.md has the rules.

use crate::calls::{burst, close, feed, pick, take, Answer, Burst, Taken};
use crate::file;
use crate::lane::{Channel, Lane, Process, CELLS};
use crate::network::{Instruction, Network, REGISTERS};
use crate::refusal::Refusal;
use crate::relief::{relieve, Relieved};
use crate::schedule::{drive, run, Driven, End, Ran};
use crate::script::{condition_word, parse, state_word, Call, Edit, Line, ALL_CELLS};
use std::fs::File;
use std::io::{self, Read, Write};
use std::path::{Path, PathBuf};

/// What a cell and a byte of a buffer hold before anything is written.
const UNWRITTEN: u8 = 99;
/// As much of a lane file as is read: one byte more than the longest has.
const FILE: u64 = 4_609;

/// All that calls and edits can change.
#[derive(Clone, PartialEq, Eq, Debug)]
pub struct State {
    pub lane: Lane,
    /// The cells, of which the first ones are lent to the calls.
    pub cells: Vec<i32>,
}

/// A script being replayed.
pub struct Replay {
    /// Where the lane files lie.
    folder: PathBuf,
    pub state: State,
    /// How many cells are lent.
    pub room: usize,
}

impl Replay {
    /// Before the first line.
    pub fn new(folder: &Path) -> Replay {
        let state = State::fresh(no_network());
        Replay { folder: folder.to_path_buf(), state, room: CELLS }
    }

    /// Plays a whole script.
    pub fn play(&mut self, script: &[u8], to: &mut impl Write) -> io::Result<()> {
        for line in script.split_inclusive(|&byte| byte == b'\n') {
            let line = line.strip_suffix(b"\n").unwrap_or(line);
            self.play_line(line, to)?;
            to.write_all(b"\n")?;
        }
        Ok(())
    }

    /// Plays one line, without its newline.
    pub fn play_line(&mut self, line: &[u8], to: &mut impl Write) -> io::Result<()> {
        to.write_all(line)?;
        match parse(line) {
            Line::Note => {}
            Line::Bad => to.write_all(b": bad line")?,
            Line::Lane(name) => {
                let network = file::read(&self.bytes_of(name)).unwrap_or_else(|_| no_network());
                self.state = State::fresh(network);
                self.room = CELLS;
            }
            Line::Read(name) => match file::read(&self.bytes_of(name)) {
                Ok(_) => to.write_all(b": accepted")?,
                Err(misfit) => {
                    refused(misfit.refusal, to)?;
                    write!(to, " place {}", misfit.place)?;
                }
            },
            Line::Write(length) => write_network(&self.state.lane.network, length, to)?,
            Line::Room(cells) => self.room = cells,
            Line::Show => self.state.print_changes(&State::fresh(no_network()), to)?,
            Line::Call(call) => {
                let before = self.state.clone();
                self.state.call(call, self.room, to)?;
                self.state.print_changes(&before, to)?;
            }
            Line::Make(edit) => self.state.edit(edit),
            Line::With(edit) => {
                let mut changed = self.state.clone();
                changed.edit(edit);
                let before = changed.clone();
                changed.call(Call::Pick(0), self.room, to)?;
                changed.print_changes(&before, to)?;
            }
        }
        Ok(())
    }

    /// The bytes of a lane file, none where it cannot be read to the end.
    fn bytes_of(&self, name: &[u8]) -> Vec<u8> {
        let read = || -> io::Result<Vec<u8>> {
            let mut bytes = Vec::new();
            File::open(self.folder.join(path(name)))?.take(FILE).read_to_end(&mut bytes)?;
            Ok(bytes)
        };
        read().unwrap_or_default()
    }
}

/// A file's name, which may have any bytes where the system's names do.
#[cfg(unix)]
fn path(name: &[u8]) -> PathBuf {
    use std::os::unix::ffi::OsStrExt;
    PathBuf::from(std::ffi::OsStr::from_bytes(name))
}

#[cfg(not(unix))]
fn path(name: &[u8]) -> PathBuf {
    PathBuf::from(String::from_utf8_lossy(name).into_owned())
}

/// The network that is all zero. It does not fit.
fn no_network() -> Network {
    Network::of(&[], &[])
}

fn write_network(network: &Network, length: usize, to: &mut impl Write) -> io::Result<()> {
    let mut buffer = vec![UNWRITTEN; length];
    match file::write(network, &mut buffer) {
        Ok(length) => write!(to, ": written {length}")?,
        Err(refusal) => refused(refusal, to)?,
    }
    to.write_all(b"; buffer ")?;
    for byte in buffer {
        write!(to, "{byte:02x}")?;
    }
    Ok(())
}

/// A refused burst says too how many values went in before.
fn print_burst(fed: usize, refused: Option<Refusal>, to: &mut impl Write) -> io::Result<()> {
    match refused {
        None => write!(to, ": fed {fed} accepted"),
        Some(refusal) => write!(to, ": fed {fed} refused {}", refusal.number()),
    }
}

fn refused(refusal: Refusal, to: &mut impl Write) -> io::Result<()> {
    write!(to, ": refused {}", refusal.number())
}

impl State {
    /// The fresh lane of a network, with all its cells unwritten.
    pub fn fresh(network: Network) -> State {
        State { lane: Lane::fresh(network), cells: vec![UNWRITTEN.into(); ALL_CELLS] }
    }

    /// Makes a call and prints its answer, and the buffer where it has one.
    fn call(&mut self, call: Call, room: usize, to: &mut impl Write) -> io::Result<()> {
        let State { lane, cells } = self;
        let cells = &mut cells[..room];
        let answer = match call {
            Call::Pick(process) => pick(lane, cells, process).map(picked),
            Call::Feed(channel, value) => feed(lane, cells, channel, value).map(accepted),
            Call::Close(channel) => close(lane, channel).map(accepted),
            Call::Take(channel) => take(lane, cells, channel).map(taken),
            Call::Run(bytes) => run(lane, cells, &bytes).map(ran),
            Call::Drive(picks) => drive(lane, cells, picks).map(driven),
            Call::Burst(channel, values) => {
                let Burst { fed, refused } = burst(lane, cells, channel, &values);
                return print_burst(fed, refused, to);
            }
            Call::Relieve(length) => return self.relieve(length, to),
        };
        match answer {
            Ok(answer) => write!(to, ": {answer}"),
            Err(refusal) => refused(refusal, to),
        }
    }

    fn relieve(&mut self, length: usize, to: &mut impl Write) -> io::Result<()> {
        let mut buffer = vec![UNWRITTEN; length];
        match relieve(&mut self.lane, &mut buffer) {
            Ok(Relieved { length, channel }) => write!(to, ": enlarged {channel} ring {length}")?,
            Err(refusal) => refused(refusal, to)?,
        }
        to.write_all(b"; buffer")?;
        for byte in buffer {
            write!(to, " {byte}")?;
        }
        Ok(())
    }

    /// Changes one thing by hand.
    pub fn edit(&mut self, edit: Edit) {
        match edit {
            Edit::Cell(number, value) => self.cells[number] = value,
            edit => self.lane.edit(edit),
        }
    }

    /// Prints what is not as it was.
    fn print_changes(&self, before: &State, to: &mut impl Write) -> io::Result<()> {
        let registers = |state: &State| state.lane.processes.map(|process| process.registers);
        let (now, then) = (registers(self), registers(before));
        for (number, value) in changed(now.as_flattened(), then.as_flattened()) {
            write!(to, "; register {number} is {value}")?;
        }
        // Without its registers, which stand above.
        let rest = |state: &State| {
            state.lane.processes.map(|process| Process { registers: [0; REGISTERS], ..process })
        };
        for (number, process) in changed(&rest(self), &rest(before)) {
            let Process { position, condition, moves, .. } = process;
            let condition = condition_word(*condition);
            write!(to, "; process {number} position {position} {condition} moves {moves}")?;
        }
        for (number, channel) in changed(&self.lane.channels, &before.lane.channels) {
            let Channel { capacity, oldest, held, peak, closed } = channel;
            write!(to, "; channel {number} capacity {capacity} oldest {oldest} held {held}")?;
            write!(to, " peak {peak} {}", state_word(*closed))?;
        }
        for (number, value) in changed(&self.cells, &before.cells) {
            write!(to, "; cell {number} is {value}")?;
        }
        if self.lane.accepted != before.lane.accepted {
            write!(to, "; accepted {}", self.lane.accepted)?;
        }
        Ok(())
    }
}

impl Lane {
    /// Changes one thing by hand. A cell is none of the lane's.
    pub fn edit(&mut self, edit: Edit) {
        match edit {
            // More than 255 are held as 255: neither is a number of processes or
            // channels that a file can have, so no call does anything with them.
            Edit::Network { processes, channels } => {
                self.network.processes = processes.try_into().unwrap_or(u8::MAX);
                self.network.channels = channels.try_into().unwrap_or(u8::MAX);
            }
            Edit::Slot(number, slot) => self.network.slots[number] = slot,
            Edit::Record(number, record) => self.network.records[number] = record,
            Edit::Byte(place, byte) => {
                *field(&mut self.network.code[place / 4], place % 4) = byte;
            }
            Edit::Process { number, position, condition, moves } => {
                let process = &mut self.processes[number];
                *process = Process { position, condition, moves, ..*process };
            }
            Edit::Register(number, value) => {
                self.processes[number / REGISTERS].registers[number % REGISTERS] = value;
            }
            Edit::Channel(number, channel) => self.channels[number] = channel,
            Edit::Accepted(count) => self.accepted = count,
            Edit::Cell(..) => {}
        }
    }
}

/// One of the four bytes of an instruction.
fn field(instruction: &mut Instruction, number: usize) -> &mut u8 {
    let Instruction { op, a, b, c } = instruction;
    [op, a, b, c][number]
}

/// The entries that are not as they were, with their numbers.
fn changed<'a, T: PartialEq>(
    now: &'a [T],
    before: &'a [T],
) -> impl Iterator<Item = (usize, &'a T)> {
    now.iter().enumerate().zip(before).filter(|((_, now), then)| now != then).map(|(now, _)| now)
}

fn picked(answer: Answer) -> String {
    match answer {
        Answer::Moved => "moved".to_string(),
        Answer::WaitingEmpty(channel) => format!("waiting-empty {channel}"),
        Answer::WaitingFull(channel) => format!("waiting-full {channel}"),
        Answer::Ended => "ended".to_string(),
    }
}

fn accepted(_: ()) -> String {
    "accepted".to_string()
}

fn taken(taken: Taken) -> String {
    match taken {
        Taken::Value(value) => format!("value {value}"),
        Taken::End => "end".to_string(),
    }
}

fn ran(Ran { moved, enlarged }: Ran) -> String {
    format!("moved {moved} enlarged {enlarged}")
}

fn driven(Driven { end, picks, enlarged }: Driven) -> String {
    let end = match end {
        End::Settled => "settled",
        End::Ceiling => "ceiling",
        End::Spent => "spent",
    };
    format!("{end} picks {picks} enlarged {enlarged}")
}
