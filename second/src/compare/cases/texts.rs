//! The string rules: which is broken first, and where.

use super::{joined, quoted, written, Cases, Style, STYLES};
use crate::compare::case::TEXT;
use crate::compare::white_space::{
    placed, white_in_low_bits, writings, BESIDE, UNLISTED, WHITE_SPACE,
};
use crate::compare::wrong_characters::EXAMPLES;

/// The text kind that takes the whole White_Space list for whitespace.
const STRING: usize = 1;

/// All of the list is below this code.
const ABOVE_THE_LIST: u32 = 0x3100;

pub(super) fn add(cases: &mut Cases) {
    add_pairs_of_codes(cases);
    add_codes_at_each_end(cases);
    add_space_patterns(cases);
    add_white_space(cases);
    add_pairs_of_white_space(cases);
    add_white_in_low_bits(cases);
    add_each_code(cases);
    add_examples(cases);
}

/// Both sides of each line of the string rules.
const CODES: [u32; 42] = [
    0x00, 0x01, 0x07, 0x08, 0x09, 0x0A, 0x0B, 0x0C, 0x0D, 0x0E, 0x1E, 0x1F, 0x20, 0x21, 0x22, 0x2F,
    0x41, 0x5C, 0x7A, 0x7E, 0x7F, 0x80, 0x85, 0x9F, 0xA0, 0xFF, 0x7FF, 0x800, 0x2003, 0x2028,
    0x3000, 0xD7FF, 0xD800, 0xDBFF, 0xDC00, 0xDFFF, 0xE000, 0xFEFF, 0xFFFF, 0x10000, 0x1F600,
    0x10FFFF,
];

fn add_pairs_of_codes(cases: &mut Cases) {
    for first in CODES {
        for second in CODES {
            let style = cases.random.pick(&STYLES);
            let other_style = cases.random.pick(&STYLES);
            let inner =
                joined(&[b"a", &written(first, style), &written(second, other_style), b"z"]);
            cases.text_by_each_kind(0, &quoted(&inner));
        }
    }
}

fn add_codes_at_each_end(cases: &mut Cases) {
    for code in CODES {
        for style in STYLES {
            let character = written(code, style);
            cases.text_by_each_kind(0, &quoted(&character));
            cases.text_by_each_kind(0, &quoted(&joined(&[&character, b"a"])));
            cases.text_by_each_kind(0, &quoted(&joined(&[b"a", &character])));
            cases.text_by_each_kind(0, &quoted(&joined(&[b"a ", &character])));
            cases.text_by_each_kind(0, &quoted(&joined(&[&character, b" a"])));
        }
    }
}

/// Every short string of letters and spaces of every kind.
fn add_space_patterns(cases: &mut Cases) {
    let pieces: [Vec<u8>; 5] = [
        b"a".to_vec(),
        b" ".to_vec(),
        written(0x20, Style::LowerHex),
        written(0x09, Style::Short),
        written(0x1F, Style::UpperHex),
    ];
    let mut patterns: Vec<Vec<u8>> = vec![Vec::new()];
    for _ in 0..4 {
        patterns = patterns
            .iter()
            .flat_map(|front| pieces.iter().map(|piece| joined(&[front, piece])))
            .collect();
        for pattern in &patterns {
            cases.text_by_each_kind(0, &quoted(pattern));
        }
    }
}

/// Each code of the list, and each that is near to it or looks so, in every
/// writing at every place.
fn add_white_space(cases: &mut Cases) {
    for code in WHITE_SPACE.into_iter().chain(BESIDE).chain(UNLISTED) {
        for character in writings(code) {
            for inner in placed(&character) {
                cases.text_by_each_kind(0, &quoted(&inner));
            }
        }
    }
}

/// The first of two is wrong unless it is a single space.
fn add_pairs_of_white_space(cases: &mut Cases) {
    for first in WHITE_SPACE {
        for second in WHITE_SPACE {
            let characters = [first, second].map(|code| {
                let style = cases.random.pick(&STYLES);
                written(code, style)
            });
            cases.text_by_each_kind(0, &quoted(&joined(&[b"a", &characters.concat(), b"z"])));
        }
    }
}

fn add_white_in_low_bits(cases: &mut Cases) {
    for code in white_in_low_bits() {
        let style = cases.random.pick(&STYLES);
        for inner in placed(&written(code, style)) {
            cases.push(TEXT, 0, STRING, &quoted(&inner), &[]);
        }
    }
}

/// Every code up to the list's last one, and some from everywhere.
fn add_each_code(cases: &mut Cases) {
    for code in 0..ABOVE_THE_LIST {
        add_code(cases, code);
    }
    for _ in 0..2_000 {
        let code = cases.random.below(0x11_0000) as u32;
        add_code(cases, code);
    }
}

/// Inside a String, where no other rule hides whether it is whitespace.
fn add_code(cases: &mut Cases, code: u32) {
    let style = cases.random.pick(&STYLES);
    let inner = joined(&[b"a", &written(code, style), b"b"]);
    cases.push(TEXT, 0, STRING, &quoted(&inner), &[]);
}

/// The strings of order 4, at the start and behind other bytes.
fn add_examples(cases: &mut Cases) {
    for example in &EXAMPLES {
        let string = example.quoted();
        cases.text_by_each_kind(0, &string);
        cases.text_by_each_kind(3, &joined(&[b"[\"\\", &string, b"\""]));
    }
}
