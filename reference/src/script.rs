//! Reading scripts: lines, the header, and the calls that lines carry.

use crate::kinds::Kind;
use crate::operation::Operation;
use crate::refusal::Refusal;

pub const SCRIPT_LIMIT: usize = 16_384;
pub const MOST_STEPS: u64 = 999;
const MOST_DIGITS: usize = 10;

/// A line of a script without its LF.
#[derive(Clone, Copy, Debug, PartialEq, Eq)]
pub struct Line<'a> {
    /// Counted from 1, every line.
    pub number: usize,
    pub text: &'a [u8],
    pub ended: bool,
}

impl Line<'_> {
    /// Empty lines and comments carry nothing.
    pub fn is_skipped(&self) -> bool {
        self.text.is_empty() || self.text[0] == b'#'
    }

    /// Every line, comments too, is ASCII and ended by LF.
    pub fn check(&self) -> Result<(), Refusal> {
        if self.ended && self.text.is_ascii() {
            Ok(())
        } else {
            Err(Refusal::Form)
        }
    }
}

/// The lines of a script; after the last LF there is no further line.
pub fn lines(script: &[u8]) -> impl Iterator<Item = Line<'_>> {
    script.split_inclusive(|&byte| byte == b'\n').enumerate().map(|(index, piece)| {
        let text = piece.strip_suffix(b"\n");
        Line { number: index + 1, text: text.unwrap_or(piece), ended: text.is_some() }
    })
}

#[derive(Clone, Copy, Debug, PartialEq, Eq)]
pub enum ContainerChoice {
    Descriptor,
    Lock,
}

#[derive(Clone, Copy, Debug, PartialEq, Eq)]
pub enum MemoryChoice {
    Flat,
    Bucketed,
}

#[derive(Clone, Copy, Debug, PartialEq, Eq)]
pub enum KindChoice {
    Numbers,
    Points,
}

#[derive(Clone, Copy, Debug, PartialEq, Eq)]
pub struct Header {
    pub container: ContainerChoice,
    pub memory: MemoryChoice,
    pub kind: KindChoice,
    pub capacity: u64,
    pub threads: u64,
}

/// Three letters, capacity and thread count.
pub fn read_header(text: &[u8]) -> Result<Header, Refusal> {
    let [letters, capacity, threads] = fields(text)[..] else {
        return Err(Refusal::Form);
    };
    let &[container, memory, kind] = letters else {
        return Err(Refusal::Form);
    };
    Ok(Header {
        container: match container {
            b'd' => ContainerChoice::Descriptor,
            b'g' => ContainerChoice::Lock,
            _ => return Err(Refusal::Form),
        },
        memory: match memory {
            b'f' => MemoryChoice::Flat,
            b'b' => MemoryChoice::Bucketed,
            _ => return Err(Refusal::Form),
        },
        kind: match kind {
            b'n' => KindChoice::Numbers,
            b'p' => KindChoice::Points,
            _ => return Err(Refusal::Form),
        },
        capacity: digits(capacity)?,
        threads: digits(threads)?,
    })
}

/// The calls that a line after the header carries.
#[derive(Clone, Copy, Debug, PartialEq, Eq)]
pub enum Calls<I> {
    Begin { thread: u64, operation: Operation<I> },
    Steps { thread: u64, count: u64 },
}

/// Reads such a line. The form of every field is judged before any range, so
/// the item, whose reading judges both, is read last.
pub fn read_calls<K: Kind>(text: &[u8]) -> Result<Calls<K::Item>, Refusal> {
    let fields = fields(text);
    let (thread, rest) = fields.split_first().ok_or(Refusal::Form)?;
    let thread = digits(thread)?;
    let operation = match *rest {
        [b".", count] => {
            let count = digits(count)?;
            return if (1..=MOST_STEPS).contains(&count) {
                Ok(Calls::Steps { thread, count })
            } else {
                Err(Refusal::Range)
            };
        }
        [b"+", item] => Operation::Push(K::read(item)?),
        [b"-"] => Operation::Pop,
        [b"r", index] => Operation::Read(digits(index)?),
        [b"w", index, item] => {
            let index = digits(index)?;
            Operation::Write(index, K::read(item)?)
        }
        [b"s"] => Operation::Size,
        _ => return Err(Refusal::Form),
    };
    Ok(Calls::Begin { thread, operation })
}

/// One space parts fields; two spaces make an empty field, which no form has.
fn fields(text: &[u8]) -> Vec<&[u8]> {
    text.split(|&byte| byte == b' ').collect()
}

/// One to ten decimal digits; leading zeros count as digits.
pub fn digits(text: &[u8]) -> Result<u64, Refusal> {
    let right = (1..=MOST_DIGITS).contains(&text.len()) && text.iter().all(u8::is_ascii_digit);
    if !right {
        return Err(Refusal::Form);
    }
    Ok(text.iter().fold(0, |number, digit| number * 10 + u64::from(digit - b'0')))
}

/// Whether a minus stands in front, and what follows it.
pub fn split_minus(text: &[u8]) -> (bool, &[u8]) {
    match text.strip_prefix(b"-") {
        Some(rest) => (true, rest),
        None => (false, text),
    }
}
