//! Finding the current operation, choosing what to do over it, and installing
//! one's own: labels L1 to L4, P1 and O1.

use super::{end_with_effect, go, DRow, DTurn, DescriptorVector, Plan, Stage};
use crate::container::{Next, Turn};
use crate::coverage::Label;
use crate::memory::Memory;
use crate::operation::{Answer, Number, Operation};
use crate::word::{Cell, Status, HEAD};

impl<M: Memory> DescriptorVector<M> {
    pub(super) fn l1(&mut self, row: &DRow) -> DTurn {
        let current = self.load(HEAD) as Number;
        self.note(Label::L1, if current == 0 { "none" } else { "some" });
        if current == 0 {
            self.choose(row, current)
        } else {
            go(Stage::L2 { current })
        }
    }

    pub(super) fn l2(&mut self, row: &DRow, current: Number) -> DTurn {
        let status = self.status(current);
        self.note(
            Label::L2,
            match (status, self.plan(current)) {
                (Status::Final(_), _) => "final",
                (Status::Pending, Plan::Push { .. }) => "push pending",
                (Status::Pending, Plan::Pop { .. }) => "pop pending",
                (Status::Done(_), Plan::Push { .. }) => "push done",
                (Status::Done(_), Plan::Pop { .. }) => "pop done",
            },
        );
        if status.is_final() {
            self.choose(row, current)
        } else {
            go(self.help(current))
        }
    }

    /// What to do over a current operation that is final. No memory access:
    /// it belongs to the step that found this out.
    fn choose(&self, row: &DRow, current: Number) -> DTurn {
        let size = self.size_after(current);
        match row.operation {
            Operation::Pop if size > 0 => {
                let plan = Plan::Pop { position: size - 1 };
                go(Stage::L4 { current, plan })
            }
            Operation::Push(_) if size < self.rows.capacity() => go(Stage::P1 { current }),
            _ => go(Stage::L3 { current }),
        }
    }

    /// Only while `current` is still current does its size answer anything.
    pub(super) fn l3(&mut self, row: &DRow, current: Number) -> DTurn {
        let same = self.load(HEAD) == u64::from(current);
        self.note(Label::L3, if same { "same" } else { "moved" });
        if !same {
            return go(Stage::L1);
        }
        end_with_effect(
            row,
            match row.operation {
                Operation::Push(_) => Answer::Full,
                Operation::Pop => Answer::Empty,
                _ => Answer::Size(self.size_after(current)),
            },
        )
    }

    pub(super) fn p1(&mut self, row: &DRow, current: Number) -> DTurn {
        let Operation::Push(value) = row.operation else {
            unreachable!("only a push looks for an empty cell");
        };
        let position = self.size_after(current);
        match self.cell(position) {
            Cell::Empty { by } => {
                self.note(Label::P1, "empty");
                let plan = Plan::Push { position, value, emptied_by: by };
                go(Stage::L4 { current, plan })
            }
            _ => {
                self.note(Label::P1, "filled");
                go(Stage::L1)
            }
        }
    }

    pub(super) fn l4(&mut self, row: &DRow, current: Number, plan: Plan) -> DTurn {
        let yes = self.swap(HEAD, u64::from(current), u64::from(row.number));
        self.note_swap(Label::L4, yes);
        if !yes {
            return go(Stage::L1);
        }
        self.plans[row.number as usize] = Some(plan);
        go(self.help(row.number))
    }

    pub(super) fn o1(&mut self, row: &DRow) -> DTurn {
        match self.status(row.number) {
            Status::Final(value) => {
                self.note(Label::O1, "final");
                Turn { next: Next::End(Answer::Value(value)), effect: None }
            }
            status => unreachable!("help of an own pop was over at {status:?}"),
        }
    }
}
