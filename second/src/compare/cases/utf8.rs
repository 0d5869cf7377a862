//! UTF-8 sequences, well-formed and not.

use super::{joined, quoted, Cases};
use crate::compare::case::CHARACTER;

pub(super) fn add(cases: &mut Cases) {
    add_all_first_and_second_bytes(cases);
    add_single_bytes(cases);
    add_third_and_fourth_bytes(cases);
    add_cut_sequences(cases);
    add_code_points(cases);
}

/// Every byte from 0x80 on as the first, with every byte as the second.
fn add_all_first_and_second_bytes(cases: &mut Cases) {
    for first in 0x80..=255 {
        for second in 0..=255 {
            cases.one(CHARACTER, 0, &[first, second, 0x80, 0xBF]);
        }
    }
}

fn add_single_bytes(cases: &mut Cases) {
    for byte in 0..=255 {
        cases.one(CHARACTER, 0, &[byte]);
        cases.one(CHARACTER, 1, &[b'a', byte, b'"']);
        cases.text_by_each_kind(0, &quoted(&[b'a', byte, b'b']));
    }
}

const EDGES: [u8; 8] = [0x22, 0x7F, 0x80, 0x8F, 0x9F, 0xA0, 0xBF, 0xC0];

fn add_third_and_fourth_bytes(cases: &mut Cases) {
    let firsts = [0xC2, 0xDF, 0xE0, 0xE1, 0xEC, 0xED, 0xEE, 0xEF, 0xF0, 0xF1, 0xF3, 0xF4, 0xF5];
    let seconds = [0x80, 0x8F, 0x90, 0x9F, 0xA0, 0xBF];
    for first in firsts {
        for second in seconds {
            for third in EDGES {
                for fourth in EDGES {
                    cases.one(CHARACTER, 0, &[first, second, third, fourth]);
                }
                let inner = [first, second, third, 0xBF, b'z'];
                cases.text_by_some_kind(0, &quoted(&inner));
            }
        }
    }
}

/// Sequences cut off by the end, by the closing quote or by another sequence.
fn add_cut_sequences(cases: &mut Cases) {
    for text in ["\u{80}", "\u{7FF}", "\u{800}", "\u{D7FF}", "\u{FFFF}", "\u{10000}", "\u{10FFFF}"]
    {
        let sequence = text.as_bytes();
        for length in 0..=sequence.len() {
            let cut = &sequence[..length];
            cases.one(CHARACTER, 0, cut);
            cases.text_by_each_kind(0, &joined(&[b"\"a", cut]));
            cases.text_by_each_kind(0, &quoted(&joined(&[b"a", cut])));
            cases.text_by_each_kind(0, &quoted(&joined(&[cut, sequence])));
            cases.text_by_each_kind(0, &quoted(&joined(&[b"\\", cut])));
        }
        for at in 0..=sequence.len() {
            cases.one(CHARACTER, at, sequence);
        }
    }
}

/// Code points around each line, and some from everywhere.
fn add_code_points(cases: &mut Cases) {
    let edges = [0x20, 0x7F, 0x80, 0x7FF, 0x800, 0xFFF, 0x1000, 0xD7FF, 0xE000, 0xFFFF, 0x10000];
    for edge in edges.into_iter().chain([0x3FFFF, 0x40000, 0xFFFFF, 0x100000, 0x10FFFF]) {
        for code in edge - 2..=edge + 2 {
            add_code_point(cases, code);
        }
    }
    for _ in 0..1000 {
        let code = cases.random.below(0x110000) as u32;
        add_code_point(cases, code);
    }
}

fn add_code_point(cases: &mut Cases, code: u32) {
    if let Some(c) = char::from_u32(code) {
        cases.one(CHARACTER, 0, c.to_string().as_bytes());
    }
}
