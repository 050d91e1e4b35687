//! Stage labels, and a counter of what happened at each of them.

use std::collections::BTreeMap;

/// The labels of both containers' stages; each names one step.
#[derive(Clone, Copy, Debug, PartialEq, Eq, PartialOrd, Ord)]
#[rustfmt::skip]
pub enum Label {
    L1, L2, L3, L4, P1,
    H1, H2,
    G1, G2, G3, G4, G5, G6, G7,
    O1,
    R1, R2, R3,
    W1, W2, W3,
    K1, K2, K3, K4, K5, K6,
}

#[rustfmt::skip]
impl Label {
    pub const DESCRIPTOR: [Label; 21] = [
        Label::L1, Label::L2, Label::L3, Label::L4, Label::P1,
        Label::H1, Label::H2,
        Label::G1, Label::G2, Label::G3, Label::G4, Label::G5, Label::G6, Label::G7,
        Label::O1,
        Label::R1, Label::R2, Label::R3,
        Label::W1, Label::W2, Label::W3,
    ];
    pub const LOCK: [Label; 6] =
        [Label::K1, Label::K2, Label::K3, Label::K4, Label::K5, Label::K6];
}

/// How often each outcome was met at each label.
#[derive(Clone, Debug, Default, PartialEq, Eq)]
pub struct Coverage {
    counts: BTreeMap<(Label, &'static str), u64>,
}

impl Coverage {
    pub fn note(&mut self, label: Label, outcome: &'static str) {
        *self.counts.entry((label, outcome)).or_insert(0) += 1;
    }

    pub fn count(&self, label: Label, outcome: &'static str) -> u64 {
        self.counts.get(&(label, outcome)).copied().unwrap_or(0)
    }

    pub fn add(&mut self, other: &Coverage) {
        for (key, count) in &other.counts {
            *self.counts.entry(*key).or_insert(0) += count;
        }
    }

    pub fn iter(&self) -> impl Iterator<Item = (Label, &'static str, u64)> + '_ {
        self.counts.iter().map(|(&(label, outcome), &count)| (label, outcome, count))
    }
}
