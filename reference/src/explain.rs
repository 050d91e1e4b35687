//! Judging a log by the plain vector: a list with a capacity that takes the
//! operations whole, one by one, in the order of their effects.

use crate::bench::Record;
use crate::operation::{Answer, Number, Operation};
use std::collections::BTreeMap;

#[derive(Clone, Debug, Default, PartialEq, Eq)]
pub struct PlainVector {
    capacity: usize,
    list: Vec<u32>,
}

impl PlainVector {
    pub fn new(capacity: usize) -> Self {
        PlainVector { capacity, list: Vec::new() }
    }

    pub fn list(&self) -> &[u32] {
        &self.list
    }

    pub fn take(&mut self, operation: Operation<u32>) -> Answer<u32> {
        match operation {
            Operation::Push(_) if self.list.len() == self.capacity => Answer::Full,
            Operation::Push(value) => {
                self.list.push(value);
                Answer::Position(self.list.len() - 1)
            }
            Operation::Pop => self.list.pop().map_or(Answer::Empty, Answer::Value),
            Operation::Read(index) => {
                self.list.get(index as usize).map_or(Answer::Out, |&value| Answer::Value(value))
            }
            Operation::Write(index, value) => match self.list.get_mut(index as usize) {
                Some(place) => {
                    *place = value;
                    Answer::Done
                }
                None => Answer::Out,
            },
            Operation::Size => Answer::Size(self.list.len()),
        }
    }
}

enum State {
    Waiting(Operation<u32>),
    Served(Answer<u32>),
    Ended,
}

/// Checks that every operation begins, takes effect and ends in that order,
/// that numbers are given in turn from 1, and that every end carries the
/// plain vector's answer. Tells the plain vector in which the log results.
pub fn explain(log: &[Record<u32>], capacity: usize) -> Result<PlainVector, String> {
    let mut vector = PlainVector::new(capacity);
    let mut states: BTreeMap<Number, State> = BTreeMap::new();
    for record in log {
        match *record {
            Record::Begin { number, operation, .. } => {
                if number as usize != states.len() + 1 {
                    return Err(format!("number {number} was given out of turn"));
                }
                states.insert(number, State::Waiting(operation));
            }
            Record::Effect { number } => {
                let Some(State::Waiting(operation)) = states.get(&number) else {
                    return Err(format!("effect of {number}, which is not waiting"));
                };
                let answer = vector.take(*operation);
                states.insert(number, State::Served(answer));
            }
            Record::End { number, answer } => match states.insert(number, State::Ended) {
                Some(State::Served(kept)) if kept == answer => {}
                Some(State::Served(kept)) => {
                    return Err(format!("{number} ended with {answer:?}, not {kept:?}"));
                }
                _ => return Err(format!("end of {number}, which is not served")),
            },
        }
    }
    Ok(vector)
}
