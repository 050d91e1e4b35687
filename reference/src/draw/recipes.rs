//! Meetings of threads in the descriptor vector that chance rarely arranges.
//! Each needs a thread standing still at one stage while others do just the
//! right whole operations; where a thread does not get there, it runs on.

use super::parking::{drawn_operation, pick_idle};
use super::pen::Pen;
use crate::coverage::Label;
use crate::operation::Answer;

pub fn some_recipe(pen: &mut Pen) {
    match pen.rng.weighted(&[5, 2, 2, 1, 3]) {
        0 => late_freeze(pen),
        1 => overtaken(pen),
        2 => half_popped(pen),
        3 => frozen_anew(pen),
        _ => late_emptying(pen),
    }
}

/// Two idle threads that differ.
fn pick_two(pen: &mut Pen) -> Option<(u64, u64)> {
    let first = pick_idle(pen)?;
    let others: Vec<u64> = pen.idle().into_iter().filter(|&thread| thread != first).collect();
    (!others.is_empty()).then(|| (first, pen.rng.pick(&others)))
}

/// A pop stopped at one of the stages, or run to its end without meeting it.
fn pop_up_to(pen: &mut Pen, thread: u64, stops: &[Label]) -> bool {
    let stop = pen.rng.pick(stops);
    if !pen.begin(thread, "-") {
        return false;
    }
    pen.run_to(thread, stop);
    true
}

/// A popper stands before its freeze while another thread finishes its pop and
/// pushes the same value to the same position.
fn refilled_behind(pen: &mut Pen, victim: u64, worker: u64, stops: &[Label]) -> bool {
    let push = format!("+ {}", pen.item());
    // Onto a full vector nothing is pushed; whatever lies on top will do then.
    pen.whole(worker, &push);
    if !pop_up_to(pen, victim, stops) {
        return false;
    }
    let helping = pen.rng.pick(&["s", "s", "-", ""]);
    if !helping.is_empty() {
        pen.whole(worker, helping);
    }
    pen.whole(worker, &push);
    if helping == "-" {
        pen.whole(worker, &push);
    }
    true
}

/// The late freeze succeeds on a refilled cell, and others look at it.
fn late_freeze(pen: &mut Pen) {
    let Some((victim, worker)) = pick_two(pen) else { return };
    let stops = [Label::G3, Label::G3, Label::G3, Label::G1, Label::G2];
    if !refilled_behind(pen, victim, worker, &stops) {
        return;
    }
    pen.steps(victim, 1);
    if pen.rng.percent(50) {
        pen.run(victim);
    }
    probe_frozen(pen);
}

/// A late helper finds the refilled cell frozen by the next pop, which is
/// still under way.
fn overtaken(pen: &mut Pen) {
    let Some((victim, worker)) = pick_two(pen) else { return };
    if !refilled_behind(pen, victim, worker, &[Label::G1, Label::G1, Label::G3]) {
        return;
    }
    if !pop_up_to(pen, worker, &[Label::G4, Label::G6, Label::G7]) {
        return;
    }
    let count = pen.rng.between(1, 4);
    pen.steps(victim, count);
    if pen.rng.percent(40) {
        probe_frozen(pen);
    }
}

/// A cell is frozen by a pop that has not, or only just, taken effect.
fn half_popped(pen: &mut Pen) {
    let Some(thread) = pick_idle(pen) else { return };
    if pop_up_to(pen, thread, &[Label::G4, Label::G6]) {
        probe_frozen(pen);
    }
}

/// A reader saw a late freeze; before it looks again, another pop freezes the
/// cell anew.
fn frozen_anew(pen: &mut Pen) {
    let Some((victim, worker)) = pick_two(pen) else { return };
    if !refilled_behind(pen, victim, worker, &[Label::G3]) {
        return;
    }
    pen.run(victim);
    let capacity = pen.header().capacity;
    let Some(index) = (0..capacity).rev().find(|&index| pen.is_frozen(index)) else { return };
    if !pen.begin(victim, &format!("r {index}")) {
        return;
    }
    pen.run_to(victim, Label::R3);
    pop_up_to(pen, worker, &[Label::G4, Label::G6]);
    let count = pen.rng.between(1, 3);
    pen.steps(victim, count);
}

/// Two helpers of one pop are late: one froze the cell and is about to empty
/// it, the other is about to freeze it. Once the cell is refilled with the same
/// value and frozen anew, the first must not empty it.
fn late_emptying(pen: &mut Pen) {
    let Some((owner, helper)) = pick_two(pen) else { return };
    let others = pen.idle().into_iter().find(|&thread| thread != owner && thread != helper);
    let Some(worker) = others else { return };
    let push = format!("+ {}", pen.item());
    pen.whole(worker, &push);
    let helping = pen.rng.pick(&["-", "s", &push]).to_string();
    if !pop_up_to(pen, owner, &[Label::G3]) || !pen.begin(helper, &helping) {
        return;
    }
    pen.run_to(helper, Label::G3);
    let (emptier, freezer) = if pen.rng.percent(50) { (owner, helper) } else { (helper, owner) };
    if pen.rng.percent(50) {
        pen.run_to(emptier, Label::G6);
        pen.whole(worker, "s");
    } else {
        // The emptier comes to its stage by way of a status found done.
        pen.run_to(emptier, Label::G4);
        if pen.begin(worker, "s") {
            pen.run_to(worker, Label::G6);
            pen.run_to(emptier, Label::G6);
            pen.run(worker);
        }
    }
    pen.whole(worker, &push);
    let count = pen.rng.between(1, 4);
    pen.steps(freezer, count);
    let count = pen.rng.between(1, 4);
    pen.steps(emptier, count);
    let probe = drawn_operation(pen, [1, 4, 4, 2, 1]);
    pen.whole(worker, &probe);
}

/// Others read, write and pop where a cell is frozen; some are parked there
/// while the cell is emptied and filled once more.
fn probe_frozen(pen: &mut Pen) {
    let stops =
        [Label::R2, Label::R3, Label::W2, Label::W3, Label::G2, Label::G3, Label::G4, Label::G6];
    for _ in 0..pen.rng.between(1, 3) {
        let Some(thread) = pick_idle(pen) else { return };
        let operation = drawn_operation(pen, [1, 3, 5, 5, 0]);
        if !pen.begin(thread, &operation) {
            return;
        }
        if pen.idle().is_empty() || pen.rng.percent(40) {
            pen.run(thread);
        } else {
            let stop = pen.rng.pick(&stops);
            pen.run_to(thread, stop);
        }
        if pen.rng.percent(50) {
            pop_and_push(pen);
        }
    }
}

/// A whole pop, and if it got a value, a whole push; with few items about, the
/// cell often comes to hold the same word again.
fn pop_and_push(pen: &mut Pen) {
    let Some(thread) = pick_idle(pen) else { return };
    let push = format!("+ {}", pen.item());
    if let Some(Answer::Value(_)) = pen.whole(thread, "-") {
        pen.whole(thread, &push);
    }
}
