//! IDs compared where they stand (order 3): of one byte and of as many as can
//! be, in two slices and in one, differing where an escape is or isn't.

use super::{codes_of, joined, quoted, written, Cases, Style};
use crate::compare::case::{EQUAL, EQUAL_FOLDED, LONGEST};
use crate::compare::ids::{all_pairs, id_codes, main_pairs, pairs};

const LONG: usize = 200_000;

pub(super) fn add(cases: &mut Cases) {
    add_short(cases);
    add_every_mix_of_escapes(cases);
    add_in_one_slice(cases);
    add_escaped_escapes(cases);
    add_long(cases);
    add_longest(cases);
    add_long_before_a_fault(cases);
}

fn add_short(cases: &mut Cases) {
    for length in [1, 2, 3, 9] {
        for pair in all_pairs(&id_codes(length)) {
            cases.equality(&pair.first, &pair.second);
            cases.equality(&pair.second, &pair.first);
        }
    }
    for pair in all_pairs(&codes_of("Té/€\u{1F600}q")) {
        cases.equality(&pair.first, &pair.second);
    }
    for length in [60, 1_000] {
        for pair in pairs(&id_codes(length)) {
            cases.equality(&pair.first, &pair.second);
        }
    }
}

/// Each character as itself or as an escape, in either string, and one of the
/// characters changed or none.
fn add_every_mix_of_escapes(cases: &mut Cases) {
    let codes = codes_of("A/b\"");
    let mix = |codes: &[u32], mask: usize| {
        let style = |at: usize| if mask >> at & 1 == 1 { Style::LowerHex } else { Style::Short };
        let inner: Vec<u8> =
            codes.iter().enumerate().flat_map(|(at, code)| written(*code, style(at))).collect();
        quoted(&inner)
    };
    let masks = 1 << codes.len();
    for at in 0..=codes.len() {
        let mut other = codes.clone();
        if let Some(code) = other.get_mut(at) {
            *code ^= 1;
        }
        for first in 0..masks {
            for second in 0..masks {
                cases.equality(&mix(&codes, first), &mix(&other, second));
            }
        }
    }
}

/// Both stand in one file, either one first.
fn add_in_one_slice(cases: &mut Cases) {
    for length in [1, 60] {
        for pair in pairs(&id_codes(length)) {
            let front = joined(&[b"[{\"ID\":", &pair.first, b"},{\"ID\":"]);
            let file = joined(&[&front, &pair.second, b"}]"]);
            let places = [b"[{\"ID\":".len(), front.len()];
            for at in places {
                for other in places {
                    cases.push(EQUAL_FOLDED, at, other, &file, &file);
                }
            }
            cases.push(EQUAL, places[0], places[1], &file, &file);
        }
    }
}

/// What looks like an escape and is none, and escapes of what escapes are made
/// of.
fn add_escaped_escapes(cases: &mut Cases) {
    let strings: [&[u8]; 12] = [
        br#""A""#,
        br#""\u0041""#,
        br#""\\u0041""#,
        br#""\u005cu0041""#,
        br#""\u005C\u0075\u0030\u0030\u0034\u0031""#,
        br#""\\\u0041""#,
        br#""\\A""#,
        br#""\\a""#,
        br#""\\\\u0041""#,
        br#""u0041""#,
        br#""\/\u002f/""#,
        br#""///""#,
    ];
    for first in strings {
        for second in strings {
            cases.equality(first, second);
        }
    }
}

fn add_long(cases: &mut Cases) {
    for pair in main_pairs(&id_codes(LONG)) {
        cases.push(EQUAL_FOLDED, 0, 0, &pair.first, &pair.second);
    }
    let wide = codes_of(&"é€\u{1F600}K".repeat(LONG / 80));
    for pair in pairs(&wide).iter().filter(|pair| pair.first != pair.second) {
        cases.push(EQUAL_FOLDED, 0, 0, &pair.first, &pair.second);
    }
}

/// As long as a slice may be, and different at its last character or nowhere.
fn add_longest(cases: &mut Cases) {
    let ids = [b'q', b'Q', b'p'].map(|last| {
        let mut inner = vec![b'K'; LONGEST - 2];
        inner[LONGEST - 3] = last;
        quoted(&inner)
    });
    for other in &ids[1..] {
        cases.push(EQUAL_FOLDED, 0, 0, &ids[0], other);
    }
}

/// A string that meets a fault has the characters before it.
fn add_long_before_a_fault(cases: &mut Cases) {
    let many = vec![b'K'; LONG / 10];
    for end in [&b"\""[..], b"", b"\\", b"\\x\"", b"\\u00\"", b"\xFF\"", b"\xE2\x80", b"\n\""] {
        for other in [&b"\""[..], b"\\u004", b"k\""] {
            let first = joined(&[b"\"", &many, end]);
            let second = joined(&[b"\"", &many, other]);
            cases.push(EQUAL_FOLDED, 0, 0, &first, &second);
        }
    }
}
