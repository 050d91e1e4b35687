//! Plans of installed operations, and where a thread stands.

use crate::coverage::Label;
use crate::operation::Number;
use crate::word::Cell;

/// What an installed push or pop will do. It is fixed when its number is
/// installed as the current one, and reading it is no memory step.
#[derive(Clone, Copy, Debug, PartialEq, Eq)]
pub enum Plan {
    Push { position: usize, value: u32, emptied_by: Number },
    Pop { position: usize },
}

impl Plan {
    pub fn position(self) -> usize {
        match self {
            Plan::Push { position, .. } | Plan::Pop { position } => position,
        }
    }

    /// The vector's length once the plan is carried out.
    pub fn size(self) -> usize {
        match self {
            Plan::Push { position, .. } => position + 1,
            Plan::Pop { position } => position,
        }
    }
}

/// From where a helper of a pop came to look at its status.
#[derive(Clone, Copy, Debug, PartialEq, Eq)]
pub enum Came {
    /// It found the cell empty.
    FromG1,
    /// It found the status set; this frozen word may still lie in the cell.
    FromG4(Frozen),
}

/// A frozen cell as a helper saw it or put it.
#[derive(Clone, Copy, Debug, PartialEq, Eq)]
pub struct Frozen {
    pub value: u32,
    pub by: Number,
    pub through: Number,
}

impl Frozen {
    pub fn cell(self) -> Cell {
        Cell::Frozen { value: self.value, by: self.by, through: self.through }
    }
}

/// The next step of an open operation. `current` is the number that was loaded
/// from location 0, `helped` the push or pop being helped, own or not.
#[derive(Clone, Copy, Debug, PartialEq, Eq)]
pub enum Stage {
    L1,
    L2 { current: Number },
    L3 { current: Number },
    L4 { current: Number, plan: Plan },
    P1 { current: Number },
    H1 { helped: Number },
    H2 { helped: Number },
    G1 { helped: Number },
    G2 { helped: Number, seen: Frozen },
    G3 { helped: Number, seen: Cell, value: u32 },
    G4 { helped: Number, frozen: Frozen },
    G5 { helped: Number, came: Came },
    G6 { helped: Number, frozen: Frozen, value: u32 },
    G7 { helped: Number, value: u32 },
    O1,
    R1,
    R2 { seen: Frozen },
    R3 { seen: Frozen },
    W1,
    W2 { seen: Frozen },
    W3 { seen: Cell },
}

impl Stage {
    pub fn label(self) -> Label {
        match self {
            Stage::L1 => Label::L1,
            Stage::L2 { .. } => Label::L2,
            Stage::L3 { .. } => Label::L3,
            Stage::L4 { .. } => Label::L4,
            Stage::P1 { .. } => Label::P1,
            Stage::H1 { .. } => Label::H1,
            Stage::H2 { .. } => Label::H2,
            Stage::G1 { .. } => Label::G1,
            Stage::G2 { .. } => Label::G2,
            Stage::G3 { .. } => Label::G3,
            Stage::G4 { .. } => Label::G4,
            Stage::G5 { .. } => Label::G5,
            Stage::G6 { .. } => Label::G6,
            Stage::G7 { .. } => Label::G7,
            Stage::O1 => Label::O1,
            Stage::R1 => Label::R1,
            Stage::R2 { .. } => Label::R2,
            Stage::R3 { .. } => Label::R3,
            Stage::W1 => Label::W1,
            Stage::W2 { .. } => Label::W2,
            Stage::W3 { .. } => Label::W3,
        }
    }
}
