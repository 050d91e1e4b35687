//! Scripts of mixed schedules: contention, chance, boundaries and the last
//! operation numbers.

use super::parking::{drawn_operation, pick_idle};
use super::pen::Pen;
use crate::coverage::Label;
use crate::word::NUMBERS;

/// Whole pushes, and now and then a pop and push, so that some cells bear the
/// number that emptied them.
pub fn fill(pen: &mut Pen) {
    let capacity = pen.header().capacity.min(6);
    for _ in 0..pen.rng.between(0, capacity) {
        whole_push(pen);
    }
    if pen.rng.percent(30) {
        whole(pen, "-");
        whole_push(pen);
    }
}

fn whole_push(pen: &mut Pen) {
    let push = format!("+ {}", pen.item());
    whole(pen, &push);
}

/// A whole operation of any idle thread.
fn whole(pen: &mut Pen, operation: &str) {
    if let Some(thread) = pick_idle(pen) {
        pen.whole(thread, operation);
    }
}

/// Several threads at the same end of the vector, a step or two in turn.
pub fn contention(pen: &mut Pen, budget: u64) {
    fill(pen);
    let weights = pen.rng.pick(&[
        [40, 45, 5, 5, 5],
        [45, 50, 0, 5, 0],
        [60, 35, 0, 0, 5],
        [20, 40, 20, 20, 0],
    ]);
    let busy = pen.rng.between(2, 5) as usize;
    // Before a lock most steps are spins, so it takes longer strides to get on.
    let stride = if pen.is_descriptor() { 2 } else { 5 };
    while pen.length() < 3_000 {
        while pen.open().len() < busy && pen.begun() < budget {
            let Some(thread) = pick_idle(pen) else { break };
            let operation = drawn_operation(pen, weights);
            pen.begin(thread, &operation);
        }
        let open = pen.open();
        if open.is_empty() {
            return;
        }
        let thread = pen.rng.pick(&open);
        let count = pen.rng.between(1, stride);
        pen.steps(thread, count);
    }
}

/// Random operations and random step counts.
pub fn chance(pen: &mut Pen, budget: u64) {
    let weights =
        pen.rng.pick(&[[3, 3, 2, 2, 1], [5, 3, 1, 1, 1], [4, 5, 1, 1, 1], [2, 1, 4, 4, 1]]);
    let longest = pen.rng.pick(&[2, 5, 12]);
    while pen.begun() < budget && pen.length() < 3_000 {
        let thread = pen.rng.between(1, pen.header().threads);
        if pen.label(thread).is_some() {
            let count = pen.rng.between(1, longest);
            pen.steps(thread, count);
        } else {
            let operation = drawn_operation(pen, weights);
            pen.begin(thread, &operation);
        }
    }
    if pen.rng.percent(50) {
        pen.settle();
    }
}

/// Filled until full and beyond, popped until empty and beyond, with looks at
/// the first and last index on the way.
pub fn boundaries(pen: &mut Pen) {
    let capacity = pen.header().capacity;
    for _ in 0..pen.rng.between(1, 2) {
        edge_look(pen);
        for _ in 0..capacity + pen.rng.between(1, 2) {
            whole_push(pen);
        }
        edge_look(pen);
        for _ in 0..capacity + pen.rng.between(1, 2) {
            whole(pen, "-");
        }
        edge_look(pen);
    }
}

fn edge_look(pen: &mut Pen) {
    let last = pen.header().capacity - 1;
    let index = pen.rng.pick(&[0, last]);
    let item = pen.item();
    for operation in ["s".to_string(), format!("r {index}"), format!("w {index} {item}")] {
        if pen.rng.percent(70) {
            whole(pen, &operation);
        }
    }
}

/// Uses up every operation number, often with a thread parked all the while.
pub fn exhaustion(pen: &mut Pen) {
    let parked = pen.rng.percent(60) && pen.header().threads > 1;
    if parked && pen.is_descriptor() {
        fill(pen);
        let operation = drawn_operation(pen, [3, 5, 1, 1, 1]);
        pen.begin(1, &operation);
        let label = pen.rng.pick(&Label::DESCRIPTOR);
        pen.run_to(1, label);
    }
    let last_open = pen.rng.percent(30);
    while pen.begun() < u64::from(NUMBERS) {
        let operation = drawn_operation(pen, [3, 3, 2, 2, 1]);
        let Some(thread) = pick_idle(pen) else { return };
        if last_open && pen.begun() + 1 == u64::from(NUMBERS) {
            pen.begin(thread, &operation);
        } else {
            pen.whole(thread, &operation);
        }
    }
    if pen.rng.percent(50) {
        pen.settle();
    }
}
