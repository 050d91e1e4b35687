//! The bench: one container, its log, and the closed run whose log is listed.

use crate::container::Container;
use crate::kinds::Kind;
use crate::operation::{Answer, Number, Open, Operation, Step};
use crate::refusal::Refusal;

/// One record for each granted begin, effect and end.
#[derive(Clone, Copy, Debug, PartialEq, Eq)]
pub enum Record<I> {
    Begin { number: Number, thread: u64, operation: Operation<I> },
    Effect { number: Number },
    End { number: Number, answer: Answer<I> },
}

impl<I> Record<I> {
    pub fn map<J>(self, turn: impl FnOnce(I) -> J) -> Record<J> {
        match self {
            Record::Begin { number, thread, operation } => {
                Record::Begin { number, thread, operation: operation.map(turn) }
            }
            Record::Effect { number } => Record::Effect { number },
            Record::End { number, answer } => Record::End { number, answer: answer.map(turn) },
        }
    }
}

/// A running bench.
#[derive(Clone, Debug)]
pub struct Bench<K: Kind, C> {
    container: C,
    /// Whether this bench's own set-up was granted; it has no threads before.
    ready: bool,
    log: Vec<Record<K::Item>>,
}

impl<K: Kind, C: Container> Bench<K, C> {
    pub fn new(container: C) -> Self {
        Bench { container, ready: false, log: Vec::new() }
    }

    pub fn set_up(&mut self, capacity: u64, threads: u64) -> Result<(), Refusal> {
        self.container.set_up(capacity, threads)?;
        self.ready = true;
        Ok(())
    }

    pub fn begin(&mut self, thread: u64, operation: Operation<K::Item>) -> Result<Number, Refusal> {
        self.has_threads()?;
        let number = self.container.begin(thread, operation.map(K::value_of))?;
        self.log.push(Record::Begin { number, thread, operation });
        Ok(number)
    }

    pub fn step(&mut self, thread: u64) -> Result<Step<K::Item>, Refusal> {
        let open = self.look(thread)?.ok_or(Refusal::NothingOpen)?;
        let step = self.container.step(thread)?;
        if let Some(number) = step.effect {
            self.log.push(Record::Effect { number });
        }
        let end = step.end.map(|answer| answer.map(K::item_of));
        if let Some(answer) = end {
            self.log.push(Record::End { number: open.number, answer });
        }
        Ok(Step { effect: step.effect, end })
    }

    /// A thread's open number, if any, and whether it took effect.
    pub fn look(&self, thread: u64) -> Result<Option<Open>, Refusal> {
        self.has_threads()?;
        self.container.look(thread)
    }

    pub fn container(&self) -> &C {
        &self.container
    }

    pub fn container_mut(&mut self) -> &mut C {
        &mut self.container
    }

    pub fn log(&self) -> &[Record<K::Item>] {
        &self.log
    }

    pub fn close(self) -> ClosedRun<K::Item> {
        ClosedRun { log: self.log }
    }

    fn has_threads(&self) -> Result<(), Refusal> {
        if self.ready {
            Ok(())
        } else {
            Err(Refusal::Thread)
        }
    }
}

/// A run that takes no more calls; only its log is left.
#[derive(Clone, Debug)]
pub struct ClosedRun<I> {
    pub(crate) log: Vec<Record<I>>,
}

impl<I> ClosedRun<I> {
    pub fn log(&self) -> &[Record<I>] {
        &self.log
    }
}
