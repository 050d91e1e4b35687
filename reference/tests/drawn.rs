//! Drawn scripts: what they reach, and that every log is explained.

mod common;

use common::{walk, Findings};
use reference::coverage::Label::{self, *};
use reference::draw::{draw, draw_one};
use reference::play::run;
use reference::{bundle, play, LISTING_LIMIT};
use std::collections::BTreeMap;

const SEED: u64 = 20_250;
const COUNT: u64 = 2_000;

/// Everything that can happen at a label. Three things never do: that a push
/// is found done, that a pop's status is pending at G5, and that help of an
/// own pop is over before its status is final.
#[rustfmt::skip]
const OUTCOMES: [(Label, &str); 64] = [
    (L1, "none"), (L1, "some"),
    (L2, "final"), (L2, "push pending"), (L2, "pop pending"), (L2, "pop done"),
    (L3, "same"), (L3, "moved"),
    (P1, "empty"), (P1, "filled"),
    (L4, "yes"), (L4, "no"),
    (H1, "yes"), (H1, "no"), (H2, "yes"), (H2, "no"),
    (G1, "plain"), (G1, "frozen by it"), (G1, "frozen by another"), (G1, "empty"),
    (G2, "final"), (G2, "not final"),
    (G3, "yes"), (G3, "no"), (G3, "late freeze"),
    (G4, "yes"), (G4, "no"),
    (G5, "final after G1"), (G5, "final after G4"),
    (G5, "done after G1"), (G5, "done after G4"),
    (G6, "yes"), (G6, "no"), (G6, "frozen anew"), (G6, "frozen by another"), (G7, "yes"), (G7, "no"),
    (O1, "final"),
    (R1, "plain"), (R1, "empty"), (R1, "frozen"),
    (R2, "pending"), (R2, "done"), (R2, "final"),
    (R3, "same"), (R3, "plain"), (R3, "empty"), (R3, "frozen"),
    (W1, "plain"), (W1, "empty"), (W1, "frozen"),
    (W2, "pending"), (W2, "done"), (W2, "final"),
    (W3, "yes"), (W3, "no"),
    (K1, "yes"), (K1, "no"), (K2, "answered"), (K2, "goes on"),
    (K3, "loaded"), (K4, "yes"), (K5, "yes"), (K6, "yes"),
];

#[test]
fn drawn_scripts_reach_everything_and_are_explained() {
    let mut findings = Findings::default();
    let mut refusals: BTreeMap<u32, u64> = BTreeMap::new();
    let mut granted = 0;
    for script in draw(SEED, COUNT) {
        match run(&script) {
            Ok(_) => {
                granted += 1;
                walk(&script, &mut findings);
            }
            Err(fault) => *refusals.entry(fault.refusal.number()).or_insert(0) += 1,
        }
    }
    println!("granted {granted} of {COUNT}, {} operations", findings.operations);
    println!("longest lone run {}", findings.longest_lone_run);
    println!("refusals {refusals:?}");
    println!("two parked {:?}", findings.two_parked_across);
    for (label, outcome, count) in findings.coverage.iter() {
        println!("{label:?} {outcome}: {count}");
    }
    assert!((80..=90).contains(&(granted * 100 / COUNT)), "{granted} scripts without a fault");
    for (label, outcome) in OUTCOMES {
        assert!(findings.coverage.count(label, outcome) > 0, "{label:?} {outcome} never drawn");
    }
    for (label, outcome, _) in findings.coverage.iter() {
        assert!(OUTCOMES.contains(&(label, outcome)), "{label:?} {outcome} cannot be");
    }
    for label in Label::DESCRIPTOR {
        assert!(findings.parked_across.contains(&label), "nobody was parked at {label:?}");
    }
    assert!(findings.spun_before.iter().eq(&Label::LOCK[1..]), "{:?}", findings.spun_before);
    let reachable = [10, 11, 20, 21, 22, 23, 24, 25, 40, 41, 42, 43];
    assert!(refusals.keys().eq(&reachable), "refusals drawn: {refusals:?}");
}

/// The memory behind a container never shows in the listing.
#[test]
fn both_memories_play_alike() {
    for script in draw(SEED + 1, 500) {
        let other = with_other_memory(&script);
        assert_eq!(play(&script, LISTING_LIMIT), play(&other, LISTING_LIMIT));
    }
}

fn with_other_memory(script: &[u8]) -> Vec<u8> {
    let mut other = script.to_vec();
    let mut start = 0;
    for line in script.split_inclusive(|&byte| byte == b'\n') {
        if line[0] != b'\n' && line[0] != b'#' {
            // Only a header of the right letters is changed.
            if let [b'd' | b'g', memory @ (b'f' | b'b'), b'n' | b'p', b' ', ..] = line {
                other[start + 1] = if *memory == b'f' { b'b' } else { b'f' };
            }
            return other;
        }
        start += line.len();
    }
    other
}

/// The same seed draws the same scripts, on every machine and in any order.
#[test]
fn drawing_is_fixed_by_the_seed() {
    let scripts = draw(1, 300);
    for index in [0, 77, 250, 299] {
        assert_eq!(draw_one(1, index), scripts[index as usize]);
    }
    let sum = bundle::write(&scripts).iter().fold(0xcbf2_9ce4_8422_2325_u64, |sum, &byte| {
        (sum ^ u64::from(byte)).wrapping_mul(0x0000_0100_0000_01b3)
    });
    assert_eq!(
        sum, 414_529_884_963_524_894,
        "update this sum whenever the drawing is meant to change"
    );
    assert_ne!(draw(2, 5), scripts[..5]);
}

#[test]
fn bundles() {
    let entries: [&[u8]; 4] = [b"", b"a\n", b"3\nab\n", b"\xff\0"];
    let bundle = bundle::write(&entries);
    assert_eq!(bundle, b"0\n\n2\na\n\n5\n3\nab\n\n2\n\xff\0\n");
    assert_eq!(bundle::read(&bundle).unwrap(), entries);
    assert_eq!(bundle::read(b"").unwrap(), Vec::<&[u8]>::new());
    for broken in [&b"1\n"[..], b"1\na", b"2\na\n", b"x\n\n", b"\n", b"+1\na\n", b"1\nab\n"] {
        assert!(bundle::read(broken).is_err());
    }
}
