//! Damaged scripts: bytes changed, lost or added in one that was fine.

use super::rng::Rng;

pub fn damage(rng: &mut Rng, script: &mut Vec<u8>) {
    for _ in 0..rng.pick(&[1, 1, 1, 2, 3]) {
        if script.is_empty() {
            return;
        }
        match rng.below(12) {
            0 | 1 => change_byte(rng, script),
            2 => lose_byte(rng, script),
            3 | 4 => add_byte(rng, script),
            5 => lose_end(rng, script),
            6 => lose_line(rng, script),
            7 => double_line(rng, script),
            8 => space_somewhere(rng, script),
            9 => carriage_return(rng, script),
            10 => odd_comment(rng, script),
            _ => unended_comment(script),
        }
    }
}

const ODD: [u8; 16] = [
    b' ', b'\t', b'\r', 0, 0x80, 0xff, 0xc3, b'-', b'.', b',', b'#', b'0', b'9', b'+', b'\n', 0x7f,
];

fn place(rng: &mut Rng, script: &[u8]) -> usize {
    rng.below(script.len() as u64) as usize
}

fn change_byte(rng: &mut Rng, script: &mut [u8]) {
    let at = place(rng, script);
    script[at] = if rng.percent(50) { rng.pick(&ODD) } else { rng.next() as u8 };
}

fn lose_byte(rng: &mut Rng, script: &mut Vec<u8>) {
    let at = place(rng, script);
    script.remove(at);
}

fn add_byte(rng: &mut Rng, script: &mut Vec<u8>) {
    let at = place(rng, script);
    let byte = if rng.percent(70) { rng.pick(&ODD) } else { rng.next() as u8 };
    script.insert(at, byte);
}

/// Cuts the script anywhere, or takes just the last LF.
fn lose_end(rng: &mut Rng, script: &mut Vec<u8>) {
    let keep = if rng.percent(60) { script.len() - 1 } else { place(rng, script) };
    script.truncate(keep);
}

/// The ends of the lines, each behind its LF.
fn line_ends(script: &[u8]) -> Vec<usize> {
    (0..script.len()).filter(|&at| script[at] == b'\n').map(|at| at + 1).collect()
}

/// The bytes of a line, its LF included; all of the script if it has no LF.
fn some_line(rng: &mut Rng, script: &[u8]) -> std::ops::Range<usize> {
    let ends = line_ends(script);
    if ends.is_empty() {
        return 0..script.len();
    }
    let choice = rng.below(ends.len() as u64) as usize;
    let start = if choice == 0 { 0 } else { ends[choice - 1] };
    start..ends[choice]
}

fn lose_line(rng: &mut Rng, script: &mut Vec<u8>) {
    let line = some_line(rng, script);
    script.drain(line);
}

fn double_line(rng: &mut Rng, script: &mut Vec<u8>) {
    let line = some_line(rng, script);
    let copy = script[line.clone()].to_vec();
    script.splice(line.end..line.end, copy);
}

/// A space at the end or start of a line, or one more where one is.
fn space_somewhere(rng: &mut Rng, script: &mut Vec<u8>) {
    let line = some_line(rng, script);
    let inner = line.clone().find(|&at| script[at] == b' ').unwrap_or(line.start);
    let at = rng.pick(&[line.start, line.end.saturating_sub(1), inner]);
    script.insert(at, b' ');
}

fn carriage_return(rng: &mut Rng, script: &mut Vec<u8>) {
    let line = some_line(rng, script);
    script.insert(line.end.saturating_sub(1), b'\r');
}

/// A comment that is fine in spite of its control bytes, or is not ASCII.
fn odd_comment(rng: &mut Rng, script: &mut Vec<u8>) {
    const COMMENTS: [&[u8]; 5] =
        [b"#\r\t\0\n", b"# caf\xc3\xa9\n", b"#\x80\n", b"# \x7f\x1b\n", b"#\xff"];
    let line = some_line(rng, script);
    let comment = rng.pick(&COMMENTS);
    script.splice(line.start..line.start, comment.iter().copied());
}

fn unended_comment(script: &mut Vec<u8>) {
    script.extend_from_slice(b"# unended");
}
