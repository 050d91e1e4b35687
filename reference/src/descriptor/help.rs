//! Helping the push (H1, H2) or pop (G1 to G7) of a number, one's own included.

use super::{go, Came, DRow, DTurn, DescriptorVector, Frozen, Plan, Stage};
use crate::container::{Next, Turn};
use crate::coverage::Label;
use crate::memory::Memory;
use crate::operation::{Answer, Number, Operation};
use crate::word::{Cell, Status};

impl<M: Memory> DescriptorVector<M> {
    /// The first stage of helping.
    pub(super) fn help(&self, helped: Number) -> Stage {
        match self.plan(helped) {
            Plan::Push { .. } => Stage::H1 { helped },
            Plan::Pop { .. } => Stage::G1 { helped },
        }
    }

    /// Where a thread goes when help is over: with its own served it ends, or
    /// fetches the value; otherwise its own operation starts again.
    fn help_over(&self, row: &DRow, helped: Number) -> DTurn {
        if helped == row.number {
            return match self.plan(helped) {
                Plan::Push { position, .. } => {
                    Turn { next: Next::End(Answer::Position(position)), effect: None }
                }
                Plan::Pop { .. } => go(Stage::O1),
            };
        }
        match row.operation {
            Operation::Write(..) => go(Stage::W1),
            _ => go(Stage::L1),
        }
    }

    pub(super) fn h1(&mut self, helped: Number) -> DTurn {
        let Plan::Push { position, value, emptied_by } = self.plan(helped) else {
            unreachable!("a pop has no stage H1");
        };
        let yes = self.swap_cell(position, Cell::Empty { by: emptied_by }, Cell::Plain { value });
        self.note_swap(Label::H1, yes);
        // The push takes effect here, whoever makes the step.
        Turn { next: Next::Go(Stage::H2 { helped }), effect: yes.then_some(helped) }
    }

    pub(super) fn h2(&mut self, row: &DRow, helped: Number) -> DTurn {
        let yes = self.swap_status(helped, Status::Pending, Status::Final(0));
        self.note_swap(Label::H2, yes);
        self.help_over(row, helped)
    }

    pub(super) fn g1(&mut self, helped: Number) -> DTurn {
        let cell = self.cell(self.plan(helped).position());
        let (outcome, stage) = match cell {
            Cell::Plain { value } => ("plain", Stage::G3 { helped, seen: cell, value }),
            Cell::Frozen { value, by, through } => {
                let seen = Frozen { value, by, through };
                if by == helped {
                    ("frozen by it", Stage::G4 { helped, frozen: seen })
                } else {
                    ("frozen by another", Stage::G2 { helped, seen })
                }
            }
            Cell::Empty { .. } => ("empty", Stage::G5 { helped, came: Came::FromG1 }),
        };
        self.note(Label::G1, outcome);
        go(stage)
    }

    /// A cell frozen by an operation already final is a late freeze and counts
    /// as plain. Any other freeze means that the helped pop is long over.
    pub(super) fn g2(&mut self, row: &DRow, helped: Number, seen: Frozen) -> DTurn {
        let over = !self.status(seen.by).is_final();
        self.note(Label::G2, if over { "not final" } else { "final" });
        if over {
            self.help_over(row, helped)
        } else {
            go(Stage::G3 { helped, seen: seen.cell(), value: seen.value })
        }
    }

    pub(super) fn g3(&mut self, row: &DRow, helped: Number, seen: Cell, value: u32) -> DTurn {
        let frozen = Frozen { value, by: helped, through: row.number };
        let yes = self.swap_cell(self.plan(helped).position(), seen, frozen.cell());
        self.note_swap(Label::G3, yes);
        if yes && self.coverage.is_some() && self.status(helped).is_final() {
            self.note(Label::G3, "late freeze");
        }
        go(if yes { Stage::G4 { helped, frozen } } else { Stage::G1 { helped } })
    }

    pub(super) fn g4(&mut self, helped: Number, frozen: Frozen) -> DTurn {
        let value = frozen.value;
        let yes = self.swap_status(helped, Status::Pending, Status::Done(value));
        self.note_swap(Label::G4, yes);
        let stage = if yes {
            Stage::G6 { helped, frozen, value }
        } else {
            Stage::G5 { helped, came: Came::FromG4(frozen) }
        };
        // The pop takes effect here, whoever makes the step.
        Turn { next: Next::Go(stage), effect: yes.then_some(helped) }
    }

    pub(super) fn g5(&mut self, row: &DRow, helped: Number, came: Came) -> DTurn {
        match (self.status(helped), came) {
            (Status::Final(_), Came::FromG1) => {
                self.note(Label::G5, "final after G1");
                self.help_over(row, helped)
            }
            (Status::Final(_), Came::FromG4(_)) => {
                self.note(Label::G5, "final after G4");
                self.help_over(row, helped)
            }
            (Status::Done(value), Came::FromG4(frozen)) => {
                self.note(Label::G5, "done after G4");
                go(Stage::G6 { helped, frozen, value })
            }
            (Status::Done(value), Came::FromG1) => {
                self.note(Label::G5, "done after G1");
                go(Stage::G7 { helped, value })
            }
            (Status::Pending, _) => {
                self.note(Label::G5, "pending");
                go(Stage::G1 { helped })
            }
        }
    }

    /// Empties the cell only where that very frozen word still lies in it.
    pub(super) fn g6(&mut self, helped: Number, frozen: Frozen, value: u32) -> DTurn {
        let position = self.plan(helped).position();
        let yes = self.swap_cell(position, frozen.cell(), Cell::Empty { by: helped });
        self.note_swap(Label::G6, yes);
        if !yes && self.coverage.is_some() {
            if let Cell::Frozen { by, .. } = self.cell(position) {
                self.note(
                    Label::G6,
                    if by == helped { "frozen anew" } else { "frozen by another" },
                );
            }
        }
        go(Stage::G7 { helped, value })
    }

    pub(super) fn g7(&mut self, row: &DRow, helped: Number, value: u32) -> DTurn {
        let yes = self.swap_status(helped, Status::Done(value), Status::Final(value));
        self.note_swap(Label::G7, yes);
        self.help_over(row, helped)
    }
}
