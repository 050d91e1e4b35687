//! Items as text: fine ones, ones out of range and ones of no form.

use super::rng::Rng;
use crate::script::KindChoice;

/// A few digits, for scripts where only the schedule matters.
pub fn simple(rng: &mut Rng, kind: KindChoice) -> String {
    match kind {
        KindChoice::Numbers => rng.below(10).to_string(),
        KindChoice::Points => {
            format!("{},{},{}", rng.below(3), rng.below(3), rng.below(3))
        }
    }
}

/// Any item that is granted, the odd ones often.
pub fn fine(rng: &mut Rng, kind: KindChoice) -> String {
    match kind {
        KindChoice::Numbers => fine_number(rng),
        KindChoice::Points => {
            format!("{},{},{}", fine_part(rng), fine_part(rng), fine_part(rng))
        }
    }
}

fn fine_number(rng: &mut Rng) -> String {
    #[rustfmt::skip]
    const EDGES: [&str; 16] = [
        "-2147483648", "2147483647", "-2147483647", "2147483646", "-0", "0", "-1", "1",
        "0000000000", "-0000000000", "0000000017", "-0000000017", "007", "1000000000",
        "-1000000000", "2000000000",
    ];
    match rng.below(3) {
        0 => rng.pick(&EDGES).to_string(),
        1 => (rng.next() as i32).to_string(),
        _ => (rng.below(2001) as i64 - 1000).to_string(),
    }
}

fn fine_part(rng: &mut Rng) -> String {
    #[rustfmt::skip]
    const EDGES: [&str; 30] = [
        "0", "-0", "0.0", "-0.0", "0.4", "-0.4", "0.5", "-0.5", "1.5", "-1.5", "2.5", "-2.5",
        "511", "-512", "511.4", "-512.4", "510.5", "-511.5", "511.0", "-512.0", "0000000511",
        "-0000000512", "0000000000.5", "-0000000000.5", "0000000511.4", "-0000000512.4",
        "00.9", "9.9", "-9.9", "07",
    ];
    let sign = rng.pick(&["", "-"]);
    match rng.below(4) {
        0 => rng.pick(&EDGES).to_string(),
        1 => format!("{sign}{}", rng.below(512)),
        2 => format!("{sign}{}.{}", rng.below(511), rng.below(10)),
        _ => format!("{sign}{}.5", rng.below(511)),
    }
}

/// Of the kind's form, but out of its range.
pub fn out_of_range(rng: &mut Rng, kind: KindChoice) -> String {
    #[rustfmt::skip]
    const NUMBERS: [&str; 10] = [
        "2147483648", "-2147483649", "9999999999", "-9999999999", "4294967295", "4294967296",
        "4294967301", "-4294967296", "-2147483653", "6442450944",
    ];
    #[rustfmt::skip]
    const PARTS: [&str; 14] = [
        "512", "-513", "511.5", "-512.5", "511.9", "-512.9", "1024", "-1024", "9999999999",
        "-9999999999", "9999999999.9", "4294967296", "4294967301.5", "65536",
    ];
    match kind {
        KindChoice::Numbers => rng.pick(&NUMBERS).to_string(),
        KindChoice::Points => {
            let bad = rng.below(3);
            let parts: Vec<String> = (0..3)
                .map(|index| {
                    if index == bad || rng.percent(15) {
                        rng.pick(&PARTS).to_string()
                    } else {
                        fine_part(rng)
                    }
                })
                .collect();
            parts.join(",")
        }
    }
}

/// Of no form under the kind, also items of the other kind.
pub fn malformed(rng: &mut Rng, kind: KindChoice) -> String {
    #[rustfmt::skip]
    const NUMBERS: [&str; 17] = [
        "", "-", "--1", "+1", "1.5", "1.0", "1,2,3", "10000000000", "00000000001",
        "-00000000001", "0x10", "1e3", "1_0", "5-", "1,", "a", "99999999999999999999",
    ];
    #[rustfmt::skip]
    const POINTS: [&str; 22] = [
        "", "-", "5", "1,2", "1,2,3,4", ",,", "1,,3", "1,2,", ",2,3", ".5,0,0", "1.,0,0",
        "1.55,0,0", "-.5,0,0", "0,0,1.2.3", "--1,0,0", "+1,0,0", "00000000001,0,0",
        "0,10000000000,0", "0,0,00000000000.5", "600,0,1.", "1;2;3", "1,2,-",
    ];
    match kind {
        KindChoice::Numbers => rng.pick(&NUMBERS).to_string(),
        KindChoice::Points => rng.pick(&POINTS).to_string(),
    }
}
