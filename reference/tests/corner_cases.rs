//! Corner cases of scripts, as a table of script and output.

use reference::{play, LISTING_LIMIT};

fn check(cases: &[(&[u8], &str)]) {
    for (script, output) in cases {
        let played = String::from_utf8(play(script, LISTING_LIMIT)).unwrap();
        assert_eq!(&played, output, "script {:?}", String::from_utf8_lossy(script));
    }
}

/// A script that follows a header, where the fault stands in its second line.
fn check_second_lines(header: &str, cases: &[(&str, u32)]) {
    for (line, refusal) in cases {
        let script = format!("{header}\n{line}\n");
        let played = String::from_utf8(play(script.as_bytes(), LISTING_LIMIT)).unwrap();
        assert_eq!(played, format!("fault 2 {refusal}\n"), "script {script:?}");
    }
}

/// What a push of an item lists as.
fn check_items(header: &str, cases: &[(&str, &str)]) {
    for (item, listed) in cases {
        let script = format!("{header}\n1 + {item}\n");
        let played = String::from_utf8(play(script.as_bytes(), LISTING_LIMIT)).unwrap();
        assert_eq!(played, format!("begin 1 1 + {listed}\n"), "script {script:?}");
    }
}

#[test]
fn first_lines() {
    check(&[
        (b"", "fault 0 43\n"),
        (b"\n", "fault 0 43\n"),
        (b"\n\n# a\n#\n", "fault 0 43\n"),
        (b"# unended", "fault 0 43\n"),
        (b"# caf\xc3\xa9\n\n# unended", "fault 0 43\n"),
        (b"dfn 2 2", "fault 1 41\n"),
        (b"dfn 2 2\n", ""),
        (b"\n# c\n\ndfn 2 2\n# end\n\n", ""),
        (b"# caf\xc3\xa9\ndfn 2 2\n", "fault 1 41\n"),
        (b"dfn 2 2\n# caf\xc3\xa9\n", "fault 2 41\n"),
        (b"dfn 2 2\n1 s\n# unended", "fault 3 41\n"),
        (b"dfn 2 2\n#\r\t\0\x1b\x7f\n", ""),
        (b" \n", "fault 1 41\n"),
        (b"\r\n", "fault 1 41\n"),
        (b"\xff", "fault 1 41\n"),
        (b" # c\ndfn 2 2\n", "fault 1 41\n"),
        (b"dfn 2 2\ndfn 2 2\n", "fault 2 41\n"),
        (b"1 s\n", "fault 1 41\n"),
        (b"\n1 s\ndfn 2 2\n", "fault 2 41\n"),
    ]);
}

#[test]
#[rustfmt::skip]
fn headers() {
    let fine = [
        "dfn 1 1", "dfp 64 8", "dbn 2 2", "dbp 2 2", "gfn 2 2", "gfp 2 2", "gbn 2 2",
        "gbp 2 2", "dfn 0000000064 0000000008", "dfn 01 01",
    ];
    for header in fine {
        assert_eq!(play(format!("{header}\n").as_bytes(), LISTING_LIMIT), b"", "{header}");
    }
    let refused = [
        ("dfn 65 1", 10), ("dfn 0 1", 10), ("dfn 1 9", 11), ("dfn 1 0", 11), ("dfn 65 9", 10),
        ("dfn 9999999999 1", 10), ("dfn 4294967297 1", 10), ("dfn 1 4294967297", 11),
        ("dfn 00000000001 1", 41), ("dfn -1 1", 41), ("dfn 1 -1", 41), ("dfn +1 1", 41),
        ("dfn 1", 41), ("dfn", 41), ("dfn 1 1 1", 41), ("dfn  1 1", 41), ("dfn 1  1", 41),
        ("dfn 1 1 ", 41), (" dfn 1 1", 41), ("dfn\t1 1", 41), ("dfn 1 1\r", 41),
        ("Dfn 1 1", 41), ("dgn 1 1", 41), ("ndf 1 1", 41), ("df 1 1", 41), ("dfnn 1 1", 41),
        ("d f n 1 1", 41), ("dfn 1.0 1", 41), ("dfn 1 x", 41), ("dfn 65 x", 41),
    ];
    for (header, refusal) in refused {
        let played = play(format!("{header}\n").as_bytes(), LISTING_LIMIT);
        assert_eq!(played, format!("fault 1 {refusal}\n").as_bytes(), "{header:?}");
    }
}

#[test]
#[rustfmt::skip]
fn forms_of_lines() {
    check_second_lines(
        "dfn 2 2",
        &[
            (" ", 41), ("\r", 41), ("\t", 41), (" #", 41), (" 1 s", 41), ("1 s ", 41),
            ("1  s", 41), ("1\ts", 41), ("1 s\r", 41), ("1", 41), ("1 ", 41), ("1 x", 41),
            ("1 S", 41), ("s", 41), ("x s", 41), ("-1 s", 41), ("1 ss", 41), ("1 - 1", 41),
            ("1 s 1", 41), ("1 +", 41), ("1 + ", 41), ("1 + 1 2", 41), ("1 +17", 41),
            ("1 r", 41), ("1 r x", 41), ("1 r -1", 41), ("1 r -0", 41), ("1 r 0 0", 41),
            ("1 w 0", 41), ("1 w -0 1", 41), ("1 w 0 1 2", 41), ("1 .", 41), ("1 . -1", 41),
            ("1 . x", 41), ("1 . 1 1", 41), ("00000000001 s", 41), ("1 r 00000000000", 41),
            ("1 . 00000000001", 41), ("1 \u{e9}", 41), ("1 s\0", 41),
        ],
    );
    check(&[
        (b"dfn 2 2\n1 s", "fault 2 41\n"),
        (b"dfn 2 2\n1 \xff\n", "fault 2 41\n"),
        (b"dfn 2 2\n0000000001 s\n01 . 002\n", "begin 1 1 s\neffect 1\nend 1 0\n"),
    ]);
}

#[test]
#[rustfmt::skip]
fn number_items() {
    check_items(
        "dfn 2 2",
        &[
            ("0", "0"), ("-0", "0"), ("-0000000000", "0"), ("007", "7"),
            ("-0000000017", "-17"), ("2147483647", "2147483647"),
            ("-2147483648", "-2147483648"),
        ],
    );
    check_second_lines(
        "gbn 2 2",
        &[
            ("1 + 2147483648", 42), ("1 + -2147483649", 42), ("1 + 9999999999", 42),
            ("1 + -9999999999", 42), ("1 + 4294967296", 42), ("1 w 0 4294967301", 42),
            ("1 + 10000000000", 41), ("1 + 00000000000", 41), ("1 + -00000000000", 41),
            ("1 + -", 41), ("1 + --1", 41), ("1 + +1", 41), ("1 + 1.5", 41), ("1 + 1.0", 41),
            ("1 + 1,2,3", 41), ("1 + 1e1", 41),
        ],
    );
}

#[test]
#[rustfmt::skip]
fn point_items() {
    check_items(
        "dfp 2 2",
        &[
            ("0,0,0", "0,0,0"), ("1.5,-1.5,511.4", "2,-2,511"), ("-0.4,-0.5,0.5", "0,-1,1"),
            ("-0,-0.0,00.4", "0,0,0"), ("0000000511.4,-0000000512.4,1.9", "511,-512,2"),
            ("-511.5,510.5,2.5", "-512,511,3"), ("-2.5,-0000000000.5,0.0", "-3,-1,0"),
        ],
    );
    check_second_lines(
        "dbp 2 2",
        &[
            ("1 + 511.5,0,0", 24), ("1 + 0,-512.5,0", 24), ("1 + 0,0,512", 24),
            ("1 + -513,0,0", 24), ("1 + 9999999999.9,0,0", 24), ("1 + 0,4294967296,0", 24),
            ("1 w 0 0,0,-9999999999", 24), ("1 + 5", 41), ("1 + 1.5", 41), ("1 + 1,2", 41),
            ("1 + 1,2,3,4", 41), ("1 + 1,2,", 41), ("1 + ,,", 41), ("1 + .5,0,0", 41),
            ("1 + 1.,0,0", 41), ("1 + 1.55,0,0", 41), ("1 + -.5,0,0", 41),
            ("1 + 00000000001,0,0", 41), ("1 + 00000000000.5,0,0", 41), ("1 + 1.-5,0,0", 41),
            ("1 + 1.2.3,0,0", 41), ("1 + --1,0,0", 41), ("1 + 1, 2,3", 41),
            ("1 + 600,0,1.", 41),
        ],
    );
}

#[test]
#[rustfmt::skip]
fn counts_of_steps() {
    check_second_lines(
        "dfn 2 2",
        &[
            ("1 . 0", 42), ("1 . 1000", 42), ("1 . 9999999999", 42), ("1 . 4294967297", 42),
            ("1 . 999", 25), ("1 . 1", 25), ("0 . 1", 20), ("3 . 1", 20), ("9 . 0", 42),
        ],
    );
    check(&[
        // Played steps before the fault leave nothing in the output.
        (b"dfn 2 2\n1 s\n1 . 3\n", "fault 3 25\n"),
        (b"dfn 2 2\n1 s\n1 . 2\n", "begin 1 1 s\neffect 1\nend 1 0\n"),
        (b"dfn 2 2\n1 s\n1 . 1\n1 . 1\n", "begin 1 1 s\neffect 1\nend 1 0\n"),
        // A thread may spin as long as it likes.
        (b"gfn 2 2\n1 s\n1 . 1\n2 s\n2 . 999\n", "begin 1 1 s\nbegin 2 2 s\n"),
    ]);
}

#[test]
#[rustfmt::skip]
fn which_fault_wins() {
    check_second_lines(
        "dfn 2 2",
        &[
            ("9 + 9999999999", 42), ("9 + x", 41), ("9 w 9 9999999999", 42), ("9 w 9 1", 20),
            ("9 r 9", 20), ("1 r 2", 23), ("1 w 2 5", 23), ("1 r 9999999999", 23),
            ("1 r 4294967296", 23), ("0 s", 20), ("3 s", 20), ("9999999999 s", 20),
            ("4294967297 s", 20),
        ],
    );
    check_second_lines("dfp 2 2", &[("9 w 9 512,0,0", 24), ("9 w 9 512,0,", 41)]);
    check(&[
        (b"dfn 2 2\n1 s\n1 r 2\n", "fault 3 21\n"),
        (b"dfn 2 2\n1 s\n1 w 0 2147483648\n", "fault 3 42\n"),
        (b"dfp 2 2\n1 s\n1 w 0 512,0,0\n", "fault 3 24\n"),
        // Lines are played in order, but 40 and 43 come before all.
        (b"dfn 2 2\n1 s\n1 s\nnonsense\n", "fault 3 21\n"),
        (b"dfn 2 2\n1 s\nnonsense\n1 s\n", "fault 3 41\n"),
        (b"dfn 65 2\nnonsense\n", "fault 1 10\n"),
        (b"dfn 2 2\n\n#\n\n3 s\n", "fault 5 20\n"),
        (b"dfn 2 2\n2 . 1\n# caf\xc3\xa9\n", "fault 2 25\n"),
    ]);
}

#[test]
fn lengths_of_scripts() {
    let sized = |length: usize, start: &str| {
        let mut script = start.as_bytes().to_vec();
        script.resize(length - 1, b'#');
        script.push(b'\n');
        script
    };
    assert_eq!(play(&sized(16_384, "dfn 2 2\n"), LISTING_LIMIT), b"");
    assert_eq!(play(&sized(16_385, "dfn 2 2\n"), LISTING_LIMIT), b"fault 0 40\n");
    assert_eq!(play(&sized(16_384, "#"), LISTING_LIMIT), b"fault 0 43\n");
    assert_eq!(play(&sized(16_385, "#"), LISTING_LIMIT), b"fault 0 40\n");
    assert_eq!(play(&sized(16_385, "dfn 65 2\n"), LISTING_LIMIT), b"fault 0 40\n");
}

#[test]
fn last_numbers() {
    let mut script = b"gfn 2 2\n".to_vec();
    for _ in 0..400 {
        script.extend_from_slice(b"1 s\n1 . 3\n");
    }
    let listing = play(&script, LISTING_LIMIT);
    assert!(listing.ends_with(b"begin 400 1 s\neffect 400\nend 400 0\n"));
    for (line, refusal) in [("1 s", 22), ("1 r 2", 22), ("3 r 2", 20), ("1 . 1", 25)] {
        let longer = [&script[..], line.as_bytes(), b"\n"].concat();
        let fault = format!("fault 802 {refusal}\n");
        assert_eq!(play(&longer, LISTING_LIMIT), fault.as_bytes());
    }
}

/// No script can make a listing that is too long: with every operation's lines
/// as long as they can be, the listing stays well below the limit.
#[test]
fn longest_listing() {
    let begin = "begin 400 8 w 63 -512,-512,-512\n".len();
    let effect = "effect 400\n".len();
    let end = "end 400 -512,-512,-512\n".len();
    assert!(400 * (begin + effect + end) < LISTING_LIMIT);
}

#[test]
fn every_answer_is_listed() {
    check(&[(
        b"gbp 1 1\n1 -\n1 . 3\n1 + 1.5,-2,3\n1 . 6\n1 + 0,0,0\n1 . 3\n1 r 0\n1 . 4\n\
          1 w 0 -512,511,-0\n1 . 5\n1 s\n1 . 3\n1 -\n1 . 5\n1 r 0\n1 . 3\n1 w 0 1,1,1\n1 . 3\n",
        "begin 1 1 -\neffect 1\nend 1 empty\n\
         begin 2 1 + 2,-2,3\neffect 2\nend 2 0\n\
         begin 3 1 + 0,0,0\neffect 3\nend 3 full\n\
         begin 4 1 r 0\neffect 4\nend 4 2,-2,3\n\
         begin 5 1 w 0 -512,511,0\neffect 5\nend 5 done\n\
         begin 6 1 s\neffect 6\nend 6 1\n\
         begin 7 1 -\neffect 7\nend 7 -512,511,0\n\
         begin 8 1 r 0\neffect 8\nend 8 out\n\
         begin 9 1 w 0 1,1,1\neffect 9\nend 9 out\n",
    )]);
}
