//! Kinds of item: how items are written, and how they become 32-bit values.

use crate::refusal::Refusal;
use crate::script::{digits, split_minus};
use std::fmt::{Debug, Display, Formatter, Result as FmtResult};

pub trait Kind {
    type Item: Copy + Debug + Display + Eq;

    fn value_of(item: Self::Item) -> u32;
    fn item_of(value: u32) -> Self::Item;

    /// Reads an item as scripts write it. The form is judged before the range.
    fn read(text: &[u8]) -> Result<Self::Item, Refusal>;
}

/// Whole numbers from -2^31 to 2^31 - 1.
#[derive(Clone, Copy, Debug)]
pub struct Numbers;

impl Kind for Numbers {
    type Item = i32;

    fn value_of(item: i32) -> u32 {
        (i64::from(item) + (1 << 31)) as u32
    }

    fn item_of(value: u32) -> i32 {
        (i64::from(value) - (1 << 31)) as i32
    }

    fn read(text: &[u8]) -> Result<i32, Refusal> {
        let (negative, text) = split_minus(text);
        let size = digits(text)? as i64;
        let number = if negative { -size } else { size };
        i32::try_from(number).map_err(|_| Refusal::Range)
    }
}

/// Points of three coordinates, each from -512 to 511.
#[derive(Clone, Copy, Debug)]
pub struct Points;

/// A point cannot be made with a coordinate out of range.
#[derive(Clone, Copy, Debug, PartialEq, Eq)]
pub struct Point {
    x: i16,
    y: i16,
    z: i16,
}

impl Point {
    pub fn new(x: i64, y: i64, z: i64) -> Result<Point, Refusal> {
        Ok(Point { x: in_range(x)?, y: in_range(y)?, z: in_range(z)? })
    }

    pub fn coordinates(self) -> (i16, i16, i16) {
        (self.x, self.y, self.z)
    }
}

fn in_range(coordinate: i64) -> Result<i16, Refusal> {
    if (-512..=511).contains(&coordinate) {
        Ok(coordinate as i16)
    } else {
        Err(Refusal::Coordinate)
    }
}

impl Display for Point {
    fn fmt(&self, out: &mut Formatter<'_>) -> FmtResult {
        write!(out, "{},{},{}", self.x, self.y, self.z)
    }
}

impl Kind for Points {
    type Item = Point;

    fn value_of(item: Point) -> u32 {
        let lifted = |coordinate: i16| (i32::from(coordinate) + 512) as u32;
        lifted(item.x) << 20 | lifted(item.y) << 10 | lifted(item.z)
    }

    /// The two highest bits are ignored.
    fn item_of(value: u32) -> Point {
        let part = |shift: u32| (value >> shift & 1023) as i16 - 512;
        Point { x: part(20), y: part(10), z: part(0) }
    }

    fn read(text: &[u8]) -> Result<Point, Refusal> {
        let parts: Vec<&[u8]> = text.split(|&byte| byte == b',').collect();
        let [x, y, z] = parts[..] else {
            return Err(Refusal::Form);
        };
        // All three forms are judged before any range.
        let (x, y, z) = (coordinate(x)?, coordinate(y)?, coordinate(z)?);
        Point::new(x, y, z)
    }
}

/// A coordinate with at most one decimal, rounded to a whole one; halves go
/// away from zero.
fn coordinate(text: &[u8]) -> Result<i64, Refusal> {
    let (negative, text) = split_minus(text);
    let (whole, tenths) = match text.iter().position(|&byte| byte == b'.') {
        None => (text, 0),
        Some(dot) => match text[dot + 1..] {
            [tenths] if tenths.is_ascii_digit() => (&text[..dot], tenths - b'0'),
            _ => return Err(Refusal::Form),
        },
    };
    let size = digits(whole)? as i64 + i64::from(tenths >= 5);
    Ok(if negative { -size } else { size })
}
