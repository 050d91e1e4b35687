//! The vector under a lock. Location 0 is the lock, which holds its owner's
//! operation number or 0; location 1 is the length; both are bare numbers.

use crate::container::{Container, Next, Row, Rows, Turn};
use crate::coverage::{Coverage, Label};
use crate::memory::Memory;
use crate::operation::{Answer, Number, Open, Operation, Step};
use crate::refusal::Refusal;
use crate::word::{Cell, CELLS, HEAD, LENGTH, NUMBERS};

#[derive(Clone, Copy, Debug, PartialEq, Eq)]
pub enum Stage {
    K1,
    K2,
    K3 { length: usize },
    K4 { length: usize, seen: u64 },
    K5 { length: usize, new_length: usize, answer: Answer<u32> },
    K6 { answer: Answer<u32> },
}

impl Stage {
    pub fn label(self) -> Label {
        match self {
            Stage::K1 => Label::K1,
            Stage::K2 => Label::K2,
            Stage::K3 { .. } => Label::K3,
            Stage::K4 { .. } => Label::K4,
            Stage::K5 { .. } => Label::K5,
            Stage::K6 { .. } => Label::K6,
        }
    }
}

#[derive(Clone, Debug)]
pub struct LockVector<M> {
    memory: M,
    rows: Rows<Stage>,
    coverage: Option<Coverage>,
}

impl<M: Memory> LockVector<M> {
    pub fn new(memory: M) -> Self {
        LockVector { memory, rows: Rows::new(), coverage: None }
    }

    /// A thread's open operation with its stage.
    pub fn row(&self, thread: u64) -> Result<Option<&Row<Stage>>, Refusal> {
        self.rows.row(thread)
    }

    // Set-up made sure that every location a step can name is there.
    fn load(&self, location: usize) -> u64 {
        self.memory.load(location).expect("location was granted at set-up")
    }

    fn swap(&mut self, location: usize, old: u64, new: u64) -> bool {
        self.memory.swap(location, old, new).expect("location was granted at set-up")
    }

    /// A swap that its owner makes inside the lock, where nobody else writes.
    fn owner_swap(&mut self, label: Label, location: usize, old: u64, new: u64) {
        assert!(self.swap(location, old, new), "{label:?} met a foreign word inside the lock");
        self.note(label, "yes");
    }

    fn note(&mut self, label: Label, outcome: &'static str) {
        if let Some(coverage) = &mut self.coverage {
            coverage.note(label, outcome);
        }
    }

    fn turn(&mut self, row: &Row<Stage>) -> Turn<Stage> {
        match row.stage {
            Stage::K1 => self.k1(row),
            Stage::K2 => self.k2(row),
            Stage::K3 { length } => self.k3(row, length),
            Stage::K4 { length, seen } => self.k4(row, length, seen),
            Stage::K5 { length, new_length, answer } => self.k5(row, length, new_length, answer),
            Stage::K6 { answer } => self.k6(row, answer),
        }
    }

    fn k1(&mut self, row: &Row<Stage>) -> Turn<Stage> {
        let yes = self.swap(HEAD, 0, u64::from(row.number));
        self.note(Label::K1, if yes { "yes" } else { "no" });
        go(if yes { Stage::K2 } else { Stage::K1 })
    }

    /// Whatever the length alone decides takes effect here.
    fn k2(&mut self, row: &Row<Stage>) -> Turn<Stage> {
        let length = self.load(LENGTH) as usize;
        let answer = match row.operation {
            Operation::Size => Some(Answer::Size(length)),
            Operation::Push(_) if length == self.rows.capacity() => Some(Answer::Full),
            Operation::Pop if length == 0 => Some(Answer::Empty),
            Operation::Read(index) | Operation::Write(index, _) if index >= length as u64 => {
                Some(Answer::Out)
            }
            _ => None,
        };
        self.note(Label::K2, if answer.is_some() { "answered" } else { "goes on" });
        match answer {
            Some(answer) => served(row, Stage::K6 { answer }),
            None => go(Stage::K3 { length }),
        }
    }

    fn k3(&mut self, row: &Row<Stage>, length: usize) -> Turn<Stage> {
        let seen = self.load(CELLS + concerned(row.operation, length));
        self.note(Label::K3, "loaded");
        match row.operation {
            Operation::Read(_) => served(row, Stage::K6 { answer: Answer::Value(value_of(seen)) }),
            // A pop leaves its cell's word as it is; only the length changes.
            Operation::Pop => go(Stage::K5 {
                length,
                new_length: length - 1,
                answer: Answer::Value(value_of(seen)),
            }),
            _ => go(Stage::K4 { length, seen }),
        }
    }

    fn k4(&mut self, row: &Row<Stage>, length: usize, seen: u64) -> Turn<Stage> {
        let (Operation::Push(value) | Operation::Write(_, value)) = row.operation else {
            unreachable!("only a push or a write changes a cell");
        };
        let location = CELLS + concerned(row.operation, length);
        self.owner_swap(Label::K4, location, seen, Cell::Plain { value }.word());
        match row.operation {
            Operation::Write(..) => served(row, Stage::K6 { answer: Answer::Done }),
            _ => go(Stage::K5 { length, new_length: length + 1, answer: Answer::Position(length) }),
        }
    }

    fn k5(
        &mut self,
        row: &Row<Stage>,
        length: usize,
        new_length: usize,
        answer: Answer<u32>,
    ) -> Turn<Stage> {
        self.owner_swap(Label::K5, LENGTH, length as u64, new_length as u64);
        served(row, Stage::K6 { answer })
    }

    fn k6(&mut self, row: &Row<Stage>, answer: Answer<u32>) -> Turn<Stage> {
        self.owner_swap(Label::K6, HEAD, u64::from(row.number), 0);
        Turn { next: Next::End(answer), effect: None }
    }
}

fn go(stage: Stage) -> Turn<Stage> {
    Turn { next: Next::Go(stage), effect: None }
}

fn served(row: &Row<Stage>, stage: Stage) -> Turn<Stage> {
    Turn { next: Next::Go(stage), effect: Some(row.number) }
}

/// The cell an operation is about, given the length.
fn concerned(operation: Operation<u32>, length: usize) -> usize {
    match operation {
        Operation::Push(_) => length,
        Operation::Pop => length - 1,
        Operation::Read(index) | Operation::Write(index, _) => index as usize,
        Operation::Size => unreachable!("size looks at no cell"),
    }
}

fn value_of(word: u64) -> u32 {
    match Cell::of(word) {
        Cell::Plain { value } => value,
        cell => unreachable!("a cell below the length holds {cell:?}"),
    }
}

impl<M: Memory> Container for LockVector<M> {
    /// Room for one whole operation, of 6 steps at most, of each of 8 threads.
    fn bound(&self) -> u32 {
        48
    }

    fn set_up(&mut self, capacity: u64, threads: u64) -> Result<(), Refusal> {
        self.rows.set_up(capacity, threads, &self.memory)
    }

    fn begin(&mut self, thread: u64, operation: Operation<u32>) -> Result<Number, Refusal> {
        self.rows.begin(thread, operation, NUMBERS, Stage::K1)
    }

    fn step(&mut self, thread: u64) -> Result<Step<u32>, Refusal> {
        let row = self.rows.open(thread)?;
        let turn = self.turn(&row);
        self.rows.book(thread, turn)
    }

    fn look(&self, thread: u64) -> Result<Option<Open>, Refusal> {
        self.rows.look(thread)
    }

    fn label(&self, thread: u64) -> Option<Label> {
        Some(self.rows.row(thread).ok()??.stage.label())
    }

    fn memory(&self) -> &dyn Memory {
        &self.memory
    }

    fn watch(&mut self) {
        self.coverage.get_or_insert_with(Coverage::default);
    }

    fn coverage(&self) -> Option<&Coverage> {
        self.coverage.as_ref()
    }
}
