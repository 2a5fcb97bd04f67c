//! The refusal table.

/// Why something was refused. The number is the one of the table.
#[derive(Clone, Copy, PartialEq, Eq, Debug)]
#[repr(u8)]
pub enum Refusal {
    /// The file's length is not 512 times 2 to 9.
    Length = 1,
    /// A block's check is wrong.
    Check = 2,
    /// One of the bytes 0 to 5 is wrong.
    Header = 3,
    /// A process slot is wrong, or the code blocks do not suit the total.
    Slot = 4,
    /// A channel record is wrong.
    Record = 5,
    /// A byte that must be zero is not, or a block number is wrong.
    Filler = 6,
    /// An instruction is wrong.
    Instruction = 7,
    /// There is no such process or channel.
    Absent = 8,
    /// That end of the channel is inside.
    Inside = 9,
    /// A feed found the channel full.
    Full = 10,
    /// A feed or a closing found the channel closed.
    Closed = 11,
    /// A take found the channel empty and open.
    Empty = 12,
    /// Relief found no ring with a full wait.
    NoRing = 13,
    /// Relief found such rings, but all those channels are at 256.
    Ceiling = 14,
    /// The cells are not 8,192, or a buffer to write is too short.
    Buffer = 15,
    /// The lane is unsound.
    Unsound = 16,
    /// The bench's input or pick bytes do not suit.
    Input = 17,
}

impl Refusal {
    pub fn number(self) -> u8 {
        self as u8
    }
}

/// A refused lane file: the number, 1 to 7, and the place, counted from 0.
#[derive(Clone, Copy, PartialEq, Eq, Debug)]
pub struct Misfit {
    pub refusal: Refusal,
    pub place: usize,
}
