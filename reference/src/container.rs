//! What a container shows, and the table of threads that both containers keep.

use crate::coverage::{Coverage, Label};
use crate::memory::Memory;
use crate::operation::{Answer, Number, Open, Operation, Step};
use crate::refusal::Refusal;
use crate::word::{CELLS, NUMBERS};

pub const MOST_CELLS: u64 = 64;
pub const MOST_THREADS: u64 = 8;

pub trait Container {
    /// The words needed for a capacity: numbers, statuses and cells.
    fn words_needed(&self, capacity: usize) -> usize {
        words_needed(capacity)
    }

    /// How many operation numbers are given, counted from 1.
    fn numbers(&self) -> Number {
        NUMBERS
    }

    /// A thread that alone is not idle ends within this many steps.
    fn bound(&self) -> u32;

    fn set_up(&mut self, capacity: u64, threads: u64) -> Result<(), Refusal>;
    fn begin(&mut self, thread: u64, operation: Operation<u32>) -> Result<Number, Refusal>;
    fn step(&mut self, thread: u64) -> Result<Step<u32>, Refusal>;
    fn look(&self, thread: u64) -> Result<Option<Open>, Refusal>;

    /// Where a thread's open operation stands.
    fn label(&self, thread: u64) -> Option<Label>;
    fn memory(&self) -> &dyn Memory;

    /// Starts counting outcomes; without it nothing is counted.
    fn watch(&mut self);
    fn coverage(&self) -> Option<&Coverage>;
}

/// Both containers keep their cells in the same place.
fn words_needed(capacity: usize) -> usize {
    CELLS + capacity
}

/// One open operation; `S` says where it stands.
#[derive(Clone, Copy, Debug)]
pub struct Row<S> {
    pub number: Number,
    pub operation: Operation<u32>,
    pub stage: S,
    pub served: bool,
}

/// Where a step leads its thread.
#[derive(Clone, Copy, Debug)]
pub enum Next<S> {
    Go(S),
    End(Answer<u32>),
}

/// A step's outcome as a container works it out.
#[derive(Clone, Copy, Debug)]
pub struct Turn<S> {
    pub next: Next<S>,
    pub effect: Option<Number>,
}

/// Capacity, threads and numbers of a container; no threads before set-up.
#[derive(Clone, Debug)]
pub struct Rows<S> {
    capacity: usize,
    given: Number,
    rows: Vec<Option<Row<S>>>,
}

impl<S: Copy> Rows<S> {
    pub fn new() -> Self {
        Rows { capacity: 0, given: 0, rows: Vec::new() }
    }

    pub fn capacity(&self) -> usize {
        self.capacity
    }

    pub fn set_up(
        &mut self,
        capacity: u64,
        threads: u64,
        memory: &dyn Memory,
    ) -> Result<(), Refusal> {
        if !self.rows.is_empty() {
            return Err(Refusal::SetUpBefore);
        }
        if !(1..=MOST_CELLS).contains(&capacity) {
            return Err(Refusal::Capacity);
        }
        if !(1..=MOST_THREADS).contains(&threads) {
            return Err(Refusal::ThreadCount);
        }
        if memory.length() < words_needed(capacity as usize) {
            return Err(Refusal::ShortMemory);
        }
        // Every word counts, also those this capacity will never use.
        for location in 0..memory.length() {
            if memory.load(location)? != 0 {
                return Err(Refusal::UsedMemory);
            }
        }
        self.capacity = capacity as usize;
        self.rows = vec![None; threads as usize];
        Ok(())
    }

    pub fn begin(
        &mut self,
        thread: u64,
        operation: Operation<u32>,
        numbers: Number,
        stage: S,
    ) -> Result<Number, Refusal> {
        let slot = self.slot(thread)?;
        if self.rows[slot].is_some() {
            return Err(Refusal::OperationOpen);
        }
        if self.given == numbers {
            return Err(Refusal::NumbersGiven);
        }
        if operation.index().is_some_and(|index| index >= self.capacity as u64) {
            return Err(Refusal::Index);
        }
        self.given += 1;
        self.rows[slot] = Some(Row { number: self.given, operation, stage, served: false });
        Ok(self.given)
    }

    /// The open operation that a step of this thread moves.
    pub fn open(&self, thread: u64) -> Result<Row<S>, Refusal> {
        self.rows[self.slot(thread)?].ok_or(Refusal::NothingOpen)
    }

    pub fn row(&self, thread: u64) -> Result<Option<&Row<S>>, Refusal> {
        Ok(self.rows[self.slot(thread)?].as_ref())
    }

    pub fn look(&self, thread: u64) -> Result<Option<Open>, Refusal> {
        let row = self.row(thread)?;
        Ok(row.map(|row| Open { number: row.number, served: row.served }))
    }

    /// Books a turn of a thread: the effect, which may be another thread's,
    /// and then the thread's own next stage or end.
    pub fn book(&mut self, thread: u64, turn: Turn<S>) -> Result<Step<u32>, Refusal> {
        let slot = self.slot(thread)?;
        if let Some(number) = turn.effect {
            let served = self.rows.iter_mut().flatten().find(|row| row.number == number);
            served.expect("only an open operation takes effect").served = true;
        }
        let end = match turn.next {
            Next::Go(stage) => {
                self.rows[slot].as_mut().ok_or(Refusal::NothingOpen)?.stage = stage;
                None
            }
            Next::End(answer) => {
                self.rows[slot] = None;
                Some(answer)
            }
        };
        Ok(Step { effect: turn.effect, end })
    }

    fn slot(&self, thread: u64) -> Result<usize, Refusal> {
        if (1..=self.rows.len() as u64).contains(&thread) {
            Ok(thread as usize - 1)
        } else {
            Err(Refusal::Thread)
        }
    }
}

impl<S: Copy> Default for Rows<S> {
    fn default() -> Self {
        Self::new()
    }
}
