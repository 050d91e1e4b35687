//! Reading (R1 to R3) and writing (W1 to W3) one cell.

use super::{end_with_effect, go, DRow, DTurn, DescriptorVector, Frozen, Stage};
use crate::coverage::Label;
use crate::memory::Memory;
use crate::operation::{Answer, Operation};
use crate::word::{Cell, Status};

impl<M: Memory> DescriptorVector<M> {
    pub(super) fn r1(&mut self, row: &DRow) -> DTurn {
        let cell = self.cell(index_of(row));
        self.note(Label::R1, name_of(cell));
        self.read_cell(row, cell)
    }

    /// What a read does with a cell it has just loaded.
    fn read_cell(&self, row: &DRow, cell: Cell) -> DTurn {
        match cell {
            Cell::Plain { value } => end_with_effect(row, Answer::Value(value)),
            Cell::Empty { .. } => end_with_effect(row, Answer::Out),
            Cell::Frozen { value, by, through } => {
                go(Stage::R2 { seen: Frozen { value, by, through } })
            }
        }
    }

    pub(super) fn r2(&mut self, row: &DRow, seen: Frozen) -> DTurn {
        let status = self.status(seen.by);
        self.note(Label::R2, word_for(status));
        match status {
            Status::Pending => end_with_effect(row, Answer::Value(seen.value)),
            Status::Done(_) => end_with_effect(row, Answer::Out),
            Status::Final(_) => go(Stage::R3 { seen }),
        }
    }

    pub(super) fn r3(&mut self, row: &DRow, seen: Frozen) -> DTurn {
        let cell = self.cell(index_of(row));
        if cell == seen.cell() {
            self.note(Label::R3, "same");
            return end_with_effect(row, Answer::Value(seen.value));
        }
        self.note(Label::R3, name_of(cell));
        self.read_cell(row, cell)
    }

    pub(super) fn w1(&mut self, row: &DRow) -> DTurn {
        let cell = self.cell(index_of(row));
        self.note(Label::W1, name_of(cell));
        match cell {
            Cell::Plain { .. } => go(Stage::W3 { seen: cell }),
            Cell::Empty { .. } => end_with_effect(row, Answer::Out),
            Cell::Frozen { value, by, through } => {
                go(Stage::W2 { seen: Frozen { value, by, through } })
            }
        }
    }

    pub(super) fn w2(&mut self, row: &DRow, seen: Frozen) -> DTurn {
        let status = self.status(seen.by);
        self.note(Label::W2, word_for(status));
        match status {
            Status::Pending => go(self.help(seen.by)),
            Status::Done(_) => end_with_effect(row, Answer::Out),
            Status::Final(_) => go(Stage::W3 { seen: seen.cell() }),
        }
    }

    pub(super) fn w3(&mut self, row: &DRow, seen: Cell) -> DTurn {
        let Operation::Write(_, value) = row.operation else {
            unreachable!("only a write has stage W3");
        };
        let yes = self.swap_cell(index_of(row), seen, Cell::Plain { value });
        self.note_swap(Label::W3, yes);
        if yes {
            end_with_effect(row, Answer::Done)
        } else {
            go(Stage::W1)
        }
    }
}

/// The cell of a read or a write; begin made sure that there is one.
fn index_of(row: &DRow) -> usize {
    row.operation.index().expect("only reads and writes look at their cell") as usize
}

fn name_of(cell: Cell) -> &'static str {
    match cell {
        Cell::Plain { .. } => "plain",
        Cell::Empty { .. } => "empty",
        Cell::Frozen { .. } => "frozen",
    }
}

fn word_for(status: Status) -> &'static str {
    match status {
        Status::Pending => "pending",
        Status::Done(_) => "done",
        Status::Final(_) => "final",
    }
}
