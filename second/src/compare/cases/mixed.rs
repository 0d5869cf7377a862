//! Random mixes: bytes that mean something to some reader, in any order, and
//! any reader at any place.

use super::{inserted, quoted, Cases, ODD_BYTES};
use crate::compare::case::*;

pub(super) fn add(cases: &mut Cases) {
    for _ in 0..9_000 {
        add_any_reader(cases);
    }
    for _ in 0..2_000 {
        add_any_string(cases);
    }
}

/// Pieces of all the things that are read.
const PIECES: [&[u8]; 45] = [
    b" ",
    b"\t",
    b"\n",
    b"\r",
    b"\"",
    b"\"",
    b"\"",
    b"\\",
    b"\\n",
    b"\\/",
    b"\\u0041",
    b"\\u00e9",
    b"\\uD83D",
    b"\\uDE00",
    b"\\u00",
    b"\xC3\xA9",
    b"\xE2\x82\xAC",
    b"\xF0\x9F\x98\x80",
    b"\xC2\xA0",
    b"\xE2\x80\xA8",
    b"\xE2\x80\x8B",
    b"\\u3000",
    b"\\u2009",
    b"\xE2\x82",
    b"\xFF",
    b"a",
    b"A",
    b"Z",
    b"z",
    b"0",
    b"1",
    b"9",
    b"15",
    b"-",
    b"+",
    b".",
    b"e",
    b"E-",
    b"true",
    b"null",
    b"false",
    b"2016-01-31",
    b"2000-02-2",
    b",",
    b":",
];

fn mixed_bytes(cases: &mut Cases, most: usize) -> Vec<u8> {
    let mut bytes = Vec::new();
    for _ in 0..cases.random.below(most + 1) {
        if cases.random.below(6) == 0 {
            bytes.push(cases.random.pick(&ODD_BYTES));
        } else {
            bytes.extend_from_slice(cases.random.pick(&PIECES));
        }
    }
    bytes
}

/// A mix and a place in it or past its end: for a reader of strings mostly one
/// with a quote.
fn mixed_place(cases: &mut Cases, op: u32) -> (Vec<u8>, usize) {
    let bytes = mixed_bytes(cases, 12);
    if (op == TEXT || (EQUAL..=DATE).contains(&op)) && cases.random.below(8) > 0 {
        let at = cases.random.below(bytes.len() + 1);
        return (inserted(&bytes, at, b'"'), at);
    }
    let at = cases.random.below(bytes.len() + 2);
    (bytes, at)
}

fn add_any_reader(cases: &mut Cases) {
    let op = 1 + cases.random.below(OPS as usize) as u32;
    let (a, at) = mixed_place(cases, op);
    let (b, other) = match op {
        TEXT => (Vec::new(), cases.random.below(3)),
        EQUAL | EQUAL_FOLDED | EQUAL_NUMBERS if cases.random.below(3) == 0 => (a.clone(), at),
        EQUAL | EQUAL_FOLDED | EQUAL_NUMBERS => mixed_place(cases, op),
        EQUAL_FIXED | EQUAL_FIXED_FOLDED => {
            let mut b = mixed_bytes(cases, 3);
            b.retain(u8::is_ascii);
            (b, 0)
        }
        _ => (Vec::new(), 0),
    };
    cases.push(op, at, other, &a, &b);
}

/// A mix between quotes, so that more of it is read.
fn add_any_string(cases: &mut Cases) {
    let mut inner = mixed_bytes(cases, 10);
    inner.retain(|byte| *byte != b'"');
    let string = quoted(&inner);
    cases.text_by_some_kind(0, &string);
    cases.push(EQUAL_FOLDED, 0, 0, &string, &quoted(&inner.to_ascii_uppercase()));
}
