//! Why a call is refused. A refused call alters nothing.

/// The refusals, in the order in which they win over each other.
#[derive(Clone, Copy, Debug, PartialEq, Eq, PartialOrd, Ord)]
pub enum Refusal {
    ScriptTooLong,
    NoFirstLine,
    Form,
    Range,
    Coordinate,
    SetUpBefore,
    Capacity,
    ThreadCount,
    ShortMemory,
    UsedMemory,
    Thread,
    OperationOpen,
    NumbersGiven,
    Index,
    NothingOpen,
    Location,
    ListingTooLong,
}

impl Refusal {
    /// The number printed in a fault line.
    pub const fn number(self) -> u32 {
        match self {
            Refusal::ScriptTooLong => 40,
            Refusal::NoFirstLine => 43,
            Refusal::Form => 41,
            Refusal::Range => 42,
            Refusal::Coordinate => 24,
            Refusal::SetUpBefore => 15,
            Refusal::Capacity => 10,
            Refusal::ThreadCount => 11,
            Refusal::ShortMemory => 12,
            Refusal::UsedMemory => 13,
            Refusal::Thread => 20,
            Refusal::OperationOpen => 21,
            Refusal::NumbersGiven => 22,
            Refusal::Index => 23,
            Refusal::NothingOpen => 25,
            Refusal::Location => 30,
            Refusal::ListingTooLong => 44,
        }
    }
}
