//! Scripts that end in a refusal on purpose. Every refusal a script can meet
//! is drawn. Those for a short or used memory, a second set-up and a missing
//! location cannot be met: both memories are long enough for any granted
//! capacity and fresh, and the header is the only set-up. Neither can a listing
//! outgrow its 65,536 bytes: 400 operations list at most 66 bytes each.

use super::items;
use super::parking::{drawn_operation, pick_idle};
use super::pen::{letters, noise, Pen};
use super::rng::Rng;
use crate::script::{Header, KindChoice};

/// Bad headers, or no header at all.
pub fn bad_start(rng: &mut Rng, header: &Header) -> Vec<u8> {
    let letters = letters(header);
    let (capacity, threads) = (header.capacity, header.threads);
    let fine = format!("{letters} {capacity} {threads}");
    let first = match rng.below(9) {
        0 => return no_first_line(rng),
        1 | 2 => format!("{letters} {} {threads}", rng.pick(&BAD_CAPACITIES)),
        3 | 4 => format!("{letters} {capacity} {}", rng.pick(&BAD_THREADS)),
        5 => format!("{letters} {} {}", rng.pick(&BAD_CAPACITIES), rng.pick(&BAD_THREADS)),
        6 => format!("{fine}\n{fine}"),
        7 => return fine.into_bytes(),
        _ => malformed_header(rng, &letters, capacity, threads),
    };
    let mut script = Vec::new();
    if rng.percent(30) {
        script.extend_from_slice(&noise(rng));
    }
    script.extend_from_slice(first.as_bytes());
    script.extend_from_slice(rng.pick(&["\n", "\n1 s\n1 . 2\n", "\n9 9\n"]).as_bytes());
    script
}

const BAD_CAPACITIES: [&str; 7] =
    ["65", "0", "0000000000", "100", "9999999999", "4294967298", "66"];
const BAD_THREADS: [&str; 7] = ["9", "0", "00", "10", "9999999999", "4294967297", "257"];

fn no_first_line(rng: &mut Rng) -> Vec<u8> {
    const PIECES: [&[u8]; 6] =
        [b"\n", b"#\n", b"# nothing\n", b"# caf\xc3\xa9\n", b"\n\n\n", b"#dfn 2 2\n"];
    let mut script = Vec::new();
    for _ in 0..rng.below(4) {
        script.extend_from_slice(rng.pick(&PIECES));
    }
    if rng.percent(30) {
        script.extend_from_slice(b"# unended");
    }
    script
}

fn malformed_header(rng: &mut Rng, letters: &str, capacity: u64, threads: u64) -> String {
    match rng.below(14) {
        0 => format!("{letters}  {capacity} {threads}"),
        1 => format!("{letters} {capacity} {threads} "),
        2 => format!(" {letters} {capacity} {threads}"),
        3 => format!("{letters} {capacity}"),
        4 => letters.to_string(),
        5 => format!("{} {capacity} {threads}", letters.to_uppercase()),
        6 => format!("{} {capacity} {threads}", &letters[..2]),
        7 => format!("{letters}n {capacity} {threads}"),
        8 => format!("{letters} -{capacity} {threads}"),
        9 => format!("{letters} {capacity} {threads} 1"),
        10 => format!("{letters} {capacity:011} {threads}"),
        11 => format!("{letters} {capacity} {threads}\r"),
        12 => "1 + 17".to_string(),
        _ => format!("x{} {capacity} {threads}", &letters[1..]),
    }
}

/// Ends a script under way with a line at fault, and maybe lines after it.
pub fn bad_line(pen: &mut Pen) {
    let kind = pen.header().kind;
    let thread = pen.rng.between(1, pen.header().threads);
    match pen.rng.below(9) {
        0 | 1 => malformed_line(pen, thread, kind),
        2 | 3 => item_out_of_range(pen, thread, kind),
        4 => bad_count(pen, thread),
        5 => bad_thread(pen),
        6 => begin_on_open(pen),
        7 => bad_index(pen),
        _ => step_on_idle(pen),
    }
    if pen.rng.percent(50) {
        pen.raw(&format!("{thread} ?"));
    }
}

fn malformed_line(pen: &mut Pen, thread: u64, kind: KindChoice) {
    let item = items::malformed(pen.rng, kind);
    let line = match pen.rng.below(22) {
        0..=3 => format!("{thread} + {item}"),
        4..=6 => format!("{thread} w 0 {item}"),
        // An item of no form wins over a thread that is not there.
        7 => format!("99 + {item}"),
        8 => format!("{thread} - 1"),
        9 => format!("{thread} r"),
        10 => format!("{thread} r -1"),
        11 => format!("{thread} w 0"),
        12 => format!("{thread} s "),
        13 => format!("{thread}  s"),
        14 => format!("-{thread} s"),
        15 => format!("{thread} . -1"),
        16 => format!("{thread} . 00000000001"),
        17 => format!("{thread:011} s"),
        18 => format!("{thread} R 0"),
        19 => " ".to_string(),
        20 => " # comment".to_string(),
        _ => "dfn 2 2".to_string(),
    };
    pen.raw(&line);
}

fn item_out_of_range(pen: &mut Pen, thread: u64, kind: KindChoice) {
    let item = items::out_of_range(pen.rng, kind);
    let line = match pen.rng.below(6) {
        0..=2 => format!("{thread} + {item}"),
        3 => format!("{thread} w 0 {item}"),
        // The item wins over the thread and over the index.
        4 => format!("9 + {item}"),
        _ => format!("{thread} w 64 {item}"),
    };
    pen.raw(&line);
}

fn bad_count(pen: &mut Pen, thread: u64) {
    let count =
        pen.rng.pick(&["0", "1000", "9999999999", "0000000000", "4294967297", "0000001000"]);
    let thread = if pen.rng.percent(30) { 77 } else { thread };
    pen.raw(&format!("{thread} . {count}"));
}

fn bad_thread(pen: &mut Pen) {
    let above = pen.header().threads + 1;
    let thread = pen.rng.pick(&[0, above, above, 9, 257, 4_294_967_297, 9_999_999_999]);
    let thread = if thread > pen.header().threads || thread == 0 { thread } else { above };
    let item = pen.item();
    let index = pen.rng.pick(&[0, 64, pen.header().capacity]);
    let call = match pen.rng.below(6) {
        0 => ". 1".to_string(),
        1 => ". 999".to_string(),
        2 => format!("r {index}"),
        3 => format!("w {index} {item}"),
        4 => format!("+ {item}"),
        _ => "-".to_string(),
    };
    pen.raw(&format!("{thread} {call}"));
}

fn begin_on_open(pen: &mut Pen) {
    if pen.open().is_empty() {
        let Some(thread) = pick_idle(pen) else { return };
        let operation = drawn_operation(pen, [1, 1, 1, 1, 1]);
        pen.begin(thread, &operation);
    }
    let open = pen.open();
    let thread = pen.rng.pick(&open);
    let operation = match pen.rng.below(3) {
        // An open operation wins over the index.
        0 => format!("r {}", pen.header().capacity),
        _ => drawn_operation(pen, [1, 1, 1, 1, 1]),
    };
    pen.raw(&format!("{thread} {operation}"));
}

fn bad_index(pen: &mut Pen) {
    pen.settle();
    let Some(thread) = pick_idle(pen) else { return };
    let capacity = pen.header().capacity;
    let index = pen.rng.pick(&[capacity, capacity, capacity + 1, 64, 4_294_967_296, 9_999_999_999]);
    let item = pen.item();
    let call = if pen.rng.percent(50) { format!("r {index}") } else { format!("w {index} {item}") };
    pen.raw(&format!("{thread} {call}"));
}

/// Steps where nothing is open: at once, or past the end of an operation.
fn step_on_idle(pen: &mut Pen) {
    let Some(thread) = pick_idle(pen) else { return };
    if pen.rng.percent(50) {
        let operation = drawn_operation(pen, [1, 1, 1, 1, 1]);
        pen.begin(thread, &operation);
        let count = pen.rng.pick(&[99, 999]);
        if pen.is_descriptor() {
            pen.raw(&format!("{thread} . {count}"));
        } else {
            // Before a held lock a thread may spin for ever without a fault.
            pen.run(thread);
            pen.raw(&format!("{thread} . {count}"));
        }
    } else {
        pen.raw(&format!("{thread} . {}", 1));
    }
}

/// One begin more than there are numbers, and calls that are refused before
/// or after it is.
pub fn one_too_many(pen: &mut Pen) {
    let capacity = pen.header().capacity;
    let Some(thread) = pick_idle(pen) else { return };
    let call = match pen.rng.below(4) {
        0 => format!("r {capacity}"),
        1 => "s".to_string(),
        _ => drawn_operation(pen, [1, 1, 1, 1, 1]),
    };
    pen.raw(&format!("{thread} {call}"));
}
