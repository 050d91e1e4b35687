//! The three programs, run as such.

use reference::{bundle, draw, play, LISTING_LIMIT};
use std::io::Write;
use std::process::{Command, Output, Stdio};

fn run(program: &str, arguments: &[&str], input: &[u8]) -> Output {
    let mut child = Command::new(program)
        .args(arguments)
        .stdin(Stdio::piped())
        .stdout(Stdio::piped())
        .stderr(Stdio::piped())
        .spawn()
        .unwrap();
    let mut stdin = child.stdin.take().unwrap();
    let input = input.to_vec();
    let writer = std::thread::spawn(move || {
        // A program that ends without reading everything is no trouble here.
        let _ = stdin.write_all(&input);
    });
    let output = child.wait_with_output().unwrap();
    writer.join().unwrap();
    output
}

#[test]
fn bench_prints_listing_or_fault() {
    for (script, printed) in [
        (&b"gfn 1 1\n1 s\n1 . 3\n"[..], &b"begin 1 1 s\neffect 1\nend 1 0\n"[..]),
        (b"gfn 1 1\n", b""),
        (b"gfn 1 1\n1 . 1\n", b"fault 2 25\n"),
        (b"", b"fault 0 43\n"),
        (b"\xff\xfe", b"fault 1 41\n"),
    ] {
        let output = run(env!("CARGO_BIN_EXE_bench"), &[], script);
        assert!(output.status.success());
        assert_eq!(output.stdout, printed);
    }
}

#[test]
fn draw_and_play_bundle_agree_with_the_library() {
    let drawn = run(env!("CARGO_BIN_EXE_draw"), &["7", "60"], b"");
    assert!(drawn.status.success());
    let scripts = draw::draw(7, 60);
    assert_eq!(bundle::read(&drawn.stdout).unwrap(), scripts);

    let played = run(env!("CARGO_BIN_EXE_play_bundle"), &[], &drawn.stdout);
    assert!(played.status.success());
    let outputs: Vec<Vec<u8>> = scripts.iter().map(|script| play(script, LISTING_LIMIT)).collect();
    assert_eq!(bundle::read(&played.stdout).unwrap(), outputs);
}

#[test]
fn misuse_is_told() {
    assert!(!run(env!("CARGO_BIN_EXE_draw"), &["1"], b"").status.success());
    assert!(!run(env!("CARGO_BIN_EXE_draw"), &["1", "x"], b"").status.success());
    assert!(!run(env!("CARGO_BIN_EXE_play_bundle"), &[], b"5\nabc\n").status.success());
}
