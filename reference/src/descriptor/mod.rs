//! The descriptor vector. Location 0 holds the current operation's number,
//! location k the status of operation k, and every thread that meets an
//! unfinished push or pop helps it before going on with its own.

mod cells;
mod find;
mod help;
mod stage;

pub use stage::{Came, Frozen, Plan, Stage};

use crate::container::{Container, Next, Row, Rows, Turn};
use crate::coverage::{Coverage, Label};
use crate::memory::Memory;
use crate::operation::{Answer, Number, Open, Operation, Step};
use crate::refusal::Refusal;
use crate::word::{Cell, Status, CELLS, NUMBERS};

type DRow = Row<Stage>;
type DTurn = Turn<Stage>;

#[derive(Clone, Debug)]
pub struct DescriptorVector<M> {
    memory: M,
    rows: Rows<Stage>,
    /// The plan of each installed push or pop, at its number.
    plans: Vec<Option<Plan>>,
    coverage: Option<Coverage>,
}

impl<M: Memory> DescriptorVector<M> {
    pub fn new(memory: M) -> Self {
        DescriptorVector {
            memory,
            rows: Rows::new(),
            plans: vec![None; NUMBERS as usize + 1],
            coverage: None,
        }
    }

    /// A thread's open operation with its stage.
    pub fn row(&self, thread: u64) -> Result<Option<&DRow>, Refusal> {
        self.rows.row(thread)
    }

    pub fn cell(&self, index: usize) -> Cell {
        Cell::of(self.load(CELLS + index))
    }

    pub fn status(&self, number: Number) -> Status {
        Status::of(self.load(number as usize))
    }

    /// Number 0 stands before the first operation, when the vector is empty.
    fn size_after(&self, number: Number) -> usize {
        if number == 0 {
            0
        } else {
            self.plan(number).size()
        }
    }

    fn plan(&self, number: Number) -> Plan {
        self.plans[number as usize].expect("only installed numbers are ever met")
    }

    // Set-up made sure that every location a step can name is there.
    fn load(&self, location: usize) -> u64 {
        self.memory.load(location).expect("location was granted at set-up")
    }

    fn swap(&mut self, location: usize, old: u64, new: u64) -> bool {
        self.memory.swap(location, old, new).expect("location was granted at set-up")
    }

    fn swap_cell(&mut self, index: usize, old: Cell, new: Cell) -> bool {
        self.swap(CELLS + index, old.word(), new.word())
    }

    fn swap_status(&mut self, number: Number, old: Status, new: Status) -> bool {
        self.swap(number as usize, old.word(), new.word())
    }

    fn note(&mut self, label: Label, outcome: &'static str) {
        if let Some(coverage) = &mut self.coverage {
            coverage.note(label, outcome);
        }
    }

    fn note_swap(&mut self, label: Label, yes: bool) {
        self.note(label, if yes { "yes" } else { "no" });
    }

    /// One step: the single memory access of the thread's stage.
    fn turn(&mut self, row: &DRow) -> DTurn {
        match row.stage {
            Stage::L1 => self.l1(row),
            Stage::L2 { current } => self.l2(row, current),
            Stage::L3 { current } => self.l3(row, current),
            Stage::L4 { current, plan } => self.l4(row, current, plan),
            Stage::P1 { current } => self.p1(row, current),
            Stage::H1 { helped } => self.h1(helped),
            Stage::H2 { helped } => self.h2(row, helped),
            Stage::G1 { helped } => self.g1(helped),
            Stage::G2 { helped, seen } => self.g2(row, helped, seen),
            Stage::G3 { helped, seen, value } => self.g3(row, helped, seen, value),
            Stage::G4 { helped, frozen } => self.g4(helped, frozen),
            Stage::G5 { helped, came } => self.g5(row, helped, came),
            Stage::G6 { helped, frozen, value } => self.g6(helped, frozen, value),
            Stage::G7 { helped, value } => self.g7(row, helped, value),
            Stage::O1 => self.o1(row),
            Stage::R1 => self.r1(row),
            Stage::R2 { seen } => self.r2(row, seen),
            Stage::R3 { seen } => self.r3(row, seen),
            Stage::W1 => self.w1(row),
            Stage::W2 { seen } => self.w2(row, seen),
            Stage::W3 { seen } => self.w3(row, seen),
        }
    }
}

fn go(stage: Stage) -> DTurn {
    Turn { next: Next::Go(stage), effect: None }
}

/// Ends the operation at a step that is also its effect.
fn end_with_effect(row: &DRow, answer: Answer<u32>) -> DTurn {
    Turn { next: Next::End(answer), effect: Some(row.number) }
}

fn first_stage(operation: Operation<u32>) -> Stage {
    match operation {
        Operation::Push(_) | Operation::Pop | Operation::Size => Stage::L1,
        Operation::Read(_) => Stage::R1,
        Operation::Write(..) => Stage::W1,
    }
}

impl<M: Memory> Container for DescriptorVector<M> {
    /// The longest lone way is a stale helper that freezes an emptied and
    /// refilled cell (7 steps) and then pops through a late freeze (10).
    fn bound(&self) -> u32 {
        17
    }

    fn set_up(&mut self, capacity: u64, threads: u64) -> Result<(), Refusal> {
        self.rows.set_up(capacity, threads, &self.memory)
    }

    fn begin(&mut self, thread: u64, operation: Operation<u32>) -> Result<Number, Refusal> {
        self.rows.begin(thread, operation, NUMBERS, first_stage(operation))
    }

    fn step(&mut self, thread: u64) -> Result<Step<u32>, Refusal> {
        let row = self.rows.open(thread)?;
        let turn = self.turn(&row);
        self.rows.book(thread, turn)
    }

    fn look(&self, thread: u64) -> Result<Option<Open>, Refusal> {
        self.rows.look(thread)
    }

    fn label(&self, thread: u64) -> Option<Label> {
        Some(self.rows.row(thread).ok()??.stage.label())
    }

    fn memory(&self) -> &dyn Memory {
        &self.memory
    }

    fn watch(&mut self) {
        self.coverage.get_or_insert_with(Coverage::default);
    }

    fn coverage(&self) -> Option<&Coverage> {
        self.coverage.as_ref()
    }
}
