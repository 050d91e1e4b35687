//! What the words of cells and statuses say:
//! form * 2^50 + k * 2^41 + j * 2^32 + value.

use crate::operation::Number;

/// Where the current operation's number, or the lock, is kept.
pub const HEAD: usize = 0;
/// Where the lock vector keeps its length.
pub const LENGTH: usize = 1;
/// How many operation numbers there are; their statuses lie at 1 to 400.
pub const NUMBERS: Number = 400;
/// Where cell 0 lies.
pub const CELLS: usize = 401;

const FORM: u32 = 50;
const BY: u32 = 41;
const THROUGH: u32 = 32;
const NUMBER_MASK: u64 = (1 << 9) - 1;

#[derive(Clone, Copy, Debug, PartialEq, Eq)]
pub enum Cell {
    Empty { by: Number },
    Plain { value: u32 },
    Frozen { value: u32, by: Number, through: Number },
}

impl Cell {
    pub fn word(self) -> u64 {
        match self {
            Cell::Empty { by } => pack(0, by, 0, 0),
            Cell::Plain { value } => pack(1, 0, 0, value),
            Cell::Frozen { value, by, through } => pack(2, by, through, value),
        }
    }

    pub fn of(word: u64) -> Self {
        let by = number_at(word, BY);
        match word >> FORM {
            0 => Cell::Empty { by },
            1 => Cell::Plain { value: word as u32 },
            2 => Cell::Frozen { value: word as u32, by, through: number_at(word, THROUGH) },
            form => unreachable!("no cell has form {form}"),
        }
    }
}

#[derive(Clone, Copy, Debug, PartialEq, Eq)]
pub enum Status {
    Pending,
    Done(u32),
    Final(u32),
}

impl Status {
    pub fn word(self) -> u64 {
        match self {
            Status::Pending => 0,
            Status::Done(value) => pack(1, 0, 0, value),
            Status::Final(value) => pack(2, 0, 0, value),
        }
    }

    pub fn of(word: u64) -> Self {
        match word >> FORM {
            0 => Status::Pending,
            1 => Status::Done(word as u32),
            2 => Status::Final(word as u32),
            form => unreachable!("no status has form {form}"),
        }
    }

    pub fn is_final(self) -> bool {
        matches!(self, Status::Final(_))
    }
}

fn pack(form: u64, by: Number, through: Number, value: u32) -> u64 {
    form << FORM | u64::from(by) << BY | u64::from(through) << THROUGH | u64::from(value)
}

fn number_at(word: u64, shift: u32) -> Number {
    (word >> shift & NUMBER_MASK) as Number
}
