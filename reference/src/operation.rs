//! Operations, answers and what a step tells.

use std::fmt;

/// An operation's number, from 1; 0 stands for none.
pub type Number = u32;

#[derive(Clone, Copy, Debug, PartialEq, Eq)]
pub enum Operation<I> {
    Push(I),
    Pop,
    Read(u64),
    Write(u64, I),
    Size,
}

impl<I> Operation<I> {
    pub fn map<J>(self, turn: impl FnOnce(I) -> J) -> Operation<J> {
        match self {
            Operation::Push(item) => Operation::Push(turn(item)),
            Operation::Pop => Operation::Pop,
            Operation::Read(index) => Operation::Read(index),
            Operation::Write(index, item) => Operation::Write(index, turn(item)),
            Operation::Size => Operation::Size,
        }
    }

    /// The index of a read or a write.
    pub fn index(&self) -> Option<u64> {
        match self {
            Operation::Read(index) | Operation::Write(index, _) => Some(*index),
            _ => None,
        }
    }
}

#[derive(Clone, Copy, Debug, PartialEq, Eq)]
pub enum Answer<I> {
    Position(usize),
    Full,
    Value(I),
    Empty,
    Out,
    Done,
    Size(usize),
}

impl<I> Answer<I> {
    pub fn map<J>(self, turn: impl FnOnce(I) -> J) -> Answer<J> {
        match self {
            Answer::Position(position) => Answer::Position(position),
            Answer::Full => Answer::Full,
            Answer::Value(item) => Answer::Value(turn(item)),
            Answer::Empty => Answer::Empty,
            Answer::Out => Answer::Out,
            Answer::Done => Answer::Done,
            Answer::Size(size) => Answer::Size(size),
        }
    }
}

/// What one step did besides its memory access: the number it served, if any,
/// and the answer with which it ended the stepping thread's operation, if it did.
#[derive(Clone, Copy, Debug, PartialEq, Eq)]
pub struct Step<I> {
    pub effect: Option<Number>,
    pub end: Option<Answer<I>>,
}

/// A thread's open operation, as look tells it.
#[derive(Clone, Copy, Debug, PartialEq, Eq)]
pub struct Open {
    pub number: Number,
    pub served: bool,
}

impl<I: fmt::Display> fmt::Display for Operation<I> {
    fn fmt(&self, out: &mut fmt::Formatter<'_>) -> fmt::Result {
        match self {
            Operation::Push(item) => write!(out, "+ {item}"),
            Operation::Pop => write!(out, "-"),
            Operation::Read(index) => write!(out, "r {index}"),
            Operation::Write(index, item) => write!(out, "w {index} {item}"),
            Operation::Size => write!(out, "s"),
        }
    }
}

impl<I: fmt::Display> fmt::Display for Answer<I> {
    fn fmt(&self, out: &mut fmt::Formatter<'_>) -> fmt::Result {
        match self {
            Answer::Position(count) | Answer::Size(count) => write!(out, "{count}"),
            Answer::Value(item) => write!(out, "{item}"),
            Answer::Full => write!(out, "full"),
            Answer::Empty => write!(out, "empty"),
            Answer::Out => write!(out, "out"),
            Answer::Done => write!(out, "done"),
        }
    }
}
