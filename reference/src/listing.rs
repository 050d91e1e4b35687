//! The listing of a closed run: one line for each record.

use crate::bench::{ClosedRun, Record};
use crate::refusal::Refusal;
use std::fmt;

impl<I: fmt::Display> fmt::Display for Record<I> {
    fn fmt(&self, out: &mut fmt::Formatter<'_>) -> fmt::Result {
        match self {
            Record::Begin { number, thread, operation } => {
                write!(out, "begin {number} {thread} {operation}")
            }
            Record::Effect { number } => write!(out, "effect {number}"),
            Record::End { number, answer } => write!(out, "end {number} {answer}"),
        }
    }
}

impl<I: fmt::Display> ClosedRun<I> {
    /// Writes the listing to the front of `output` and tells its length. A
    /// listing that does not fit writes nothing.
    pub fn list(&self, output: &mut [u8]) -> Result<usize, Refusal> {
        let text: String = self.log().iter().map(|record| format!("{record}\n")).collect();
        let room = output.get_mut(..text.len()).ok_or(Refusal::ListingTooLong)?;
        room.copy_from_slice(text.as_bytes());
        Ok(text.len())
    }
}
