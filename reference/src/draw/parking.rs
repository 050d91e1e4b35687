//! Scripts that park threads in the middle of an operation while others carry
//! out whole ones. Left to chance that hardly ever happens, and it is where
//! late helpers meet cells that were emptied and filled again.

use super::pen::Pen;
use super::recipes;
use super::schedules::fill;
use crate::coverage::Label;

/// One or more threads parked anywhere, over and over.
pub fn parking(pen: &mut Pen, budget: u64) {
    fill(pen);
    let most_parked = pen.rng.between(1, 3) as usize;
    while pen.begun() < budget && pen.length() < 3_000 {
        match pen.rng.weighted(&[4, 5, 2, 3, 3]) {
            0 => park_one(pen, most_parked),
            1 => churn(pen),
            2 => nudge(pen),
            3 => release(pen),
            _ if pen.is_descriptor() => recipes::some_recipe(pen),
            _ => spin(pen),
        }
    }
    wind_up(pen);
}

/// Mostly everything ends; now and then the parked stay parked.
pub fn wind_up(pen: &mut Pen) {
    if pen.rng.percent(75) {
        pen.settle();
        if let Some(thread) = pick_idle(pen) {
            let probe = drawn_operation(pen, [0, 2, 3, 0, 2]);
            pen.whole(thread, &probe);
        }
    }
}

/// An operation by weights of push, pop, read, write and size.
pub fn drawn_operation(pen: &mut Pen, weights: [u64; 5]) -> String {
    match pen.rng.weighted(&weights) {
        0 => format!("+ {}", pen.item()),
        1 => "-".to_string(),
        2 => format!("r {}", pen.index()),
        3 => {
            let index = pen.index();
            format!("w {index} {}", pen.item())
        }
        _ => "s".to_string(),
    }
}

pub fn pick_idle(pen: &mut Pen) -> Option<u64> {
    let idle = pen.idle();
    (!idle.is_empty()).then(|| pen.rng.pick(&idle))
}

fn pick_open(pen: &mut Pen) -> Option<u64> {
    let open = pen.open();
    (!open.is_empty()).then(|| pen.rng.pick(&open))
}

/// Parks another thread, unless enough are parked or nobody would be left.
fn park_one(pen: &mut Pen, most_parked: usize) {
    if pen.open().len() >= most_parked || pen.idle().len() < 2 {
        return;
    }
    let Some(thread) = pick_idle(pen) else { return };
    let operation = drawn_operation(pen, [25, 40, 12, 15, 8]);
    if pen.begin(thread, &operation) {
        park(pen, thread);
    }
}

/// Takes an open thread some steps on: a few, or up to a label.
fn park(pen: &mut Pen, thread: u64) {
    if pen.rng.percent(50) {
        let count = pen.rng.below(11);
        pen.steps(thread, count);
    } else if pen.is_descriptor() {
        let label = pen.rng.pick(&Label::DESCRIPTOR);
        pen.run_to(thread, label);
    } else {
        let label = pen.rng.pick(&Label::LOCK);
        let patience = pen.rng.between(1, 5);
        for _ in 0..patience + 6 {
            if pen.label(thread) == Some(label) {
                return;
            }
            pen.steps(thread, 1);
        }
    }
}

/// Whole operations of a thread that is not parked, with an eye to emptying
/// and filling the same position again.
fn churn(pen: &mut Pen) {
    let Some(thread) = pick_idle(pen) else { return };
    let push = format!("+ {}", pen.item());
    let plan: &[&str] = match pen.rng.below(8) {
        0 | 1 => &["-", "+"],
        2 => &["+", "-"],
        3 => &["-", "+", "-", "+"],
        4 => &["+", "-", "+"],
        5 => &["s", "+"],
        6 => &["-", "-", "+", "+"],
        _ => &["any"],
    };
    for &part in plan {
        // A thread that spins before a held lock is no longer free.
        if pen.label(thread).is_some() {
            return;
        }
        let operation = match part {
            "+" => push.clone(),
            "any" => drawn_operation(pen, [1, 1, 3, 3, 1]),
            other => other.to_string(),
        };
        pen.whole(thread, &operation);
    }
}

/// A parked thread moves on a little.
fn nudge(pen: &mut Pen) {
    if let Some(thread) = pick_open(pen) {
        let count = pen.rng.between(1, 3);
        pen.steps(thread, count);
    }
}

/// A parked thread runs on, mostly to its end.
fn release(pen: &mut Pen) {
    let Some(thread) = pick_open(pen) else { return };
    if pen.rng.percent(70) {
        pen.run(thread);
    } else {
        park(pen, thread);
    }
}

/// One thread is parked inside the lock while the others spin before it.
fn spin(pen: &mut Pen) {
    let Some(holder) = pick_idle(pen) else { return };
    let operation = drawn_operation(pen, [3, 3, 2, 2, 1]);
    if !pen.begin(holder, &operation) {
        return;
    }
    let stop = pen.rng.pick(&Label::LOCK);
    // Somebody else may hold the lock already; then this thread spins too.
    for _ in 0..8 {
        if pen.label(holder) != Some(stop) {
            pen.steps(holder, 1);
        }
    }
    for _ in 0..pen.rng.between(1, 3) {
        let Some(thread) = pick_idle(pen) else { break };
        let operation = drawn_operation(pen, [3, 3, 2, 2, 1]);
        if pen.begin(thread, &operation) {
            let count = pen.rng.between(1, 6);
            pen.steps(thread, count);
        }
    }
    if pen.rng.percent(60) {
        pen.run(holder);
    }
}
