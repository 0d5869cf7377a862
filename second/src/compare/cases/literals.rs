//! Spaces and literals.

use super::{joined, replaced, Cases};
use crate::compare::case::{LITERAL, LONGEST, SPACES};

pub(super) fn add(cases: &mut Cases) {
    add_spaces(cases);
    add_space_runs(cases);
    add_words(cases);
    add_other_words(cases);
}

/// Each byte alone, after a space and before one.
fn add_spaces(cases: &mut Cases) {
    for byte in 0..=255 {
        cases.one(SPACES, 0, &[byte]);
        cases.one(SPACES, 0, &[b' ', byte, b'\n']);
        cases.one(SPACES, 1, &[byte, b'\t', b'\r', b'x']);
    }
}

fn add_space_runs(cases: &mut Cases) {
    let bytes = [b' ', b'\t', b'\n', b'\r', b' ', b'\r', b'x', 0x0B, 0x00, 0xA0];
    for length in 0..40 {
        let run: Vec<u8> = (0..length).map(|_| cases.random.pick(&bytes)).collect();
        for at in 0..=length + 2 {
            cases.one(SPACES, at, &run);
        }
    }
    let long = vec![b' '; LONGEST];
    cases.one(SPACES, 0, &long);
    let long_then_byte = joined(&[&long[..100_000], b"]"]);
    cases.one(SPACES, 17, &long_then_byte);
}

/// Each word cut at each length, with each byte at each place, at each place.
fn add_words(cases: &mut Cases) {
    for word in ["true", "false", "null"] {
        let word = word.as_bytes();
        for length in 0..=word.len() {
            cases.one(LITERAL, 0, &word[..length]);
            cases.one_placed(LITERAL, &joined(&[&word[..length], b" "]));
        }
        for at in 0..word.len() {
            for byte in 0..=255 {
                cases.one(LITERAL, 0, &replaced(word, at, byte));
            }
        }
        for at in 0..=word.len() + 2 {
            cases.one(LITERAL, at, word);
        }
        for byte in 0..=255 {
            cases.one(LITERAL, 1, &joined(&[b" ", word, &[byte]]));
        }
    }
}

/// Words that begin as one literal and go on as another, or nearly so.
fn add_other_words(cases: &mut Cases) {
    let words = [
        "",
        "t",
        "f",
        "n",
        "tr",
        "fa",
        "nu",
        "tru",
        "fals",
        "nul",
        "TRUE",
        "True",
        "False",
        "NULL",
        "Null",
        "tRUE",
        "trull",
        "nulse",
        "fallse",
        "nuull",
        "truetrue",
        "nullnull",
        "falsefalse",
        "nan",
        "none",
        "undefined",
        "true\0",
        "tru\0",
        "0",
        "-",
        "\"true\"",
        "[",
        "{",
        "}",
        "]",
        ",",
    ];
    for word in words {
        for at in 0..=word.len() + 1 {
            cases.one(LITERAL, at, word.as_bytes());
        }
    }
}
