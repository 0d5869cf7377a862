//! Spaces: each of the four in each gap between two tokens, and bytes that
//! only look like spaces.

use super::draft::{file_tokens, spaced, Draft, Token};
use super::values::good_value;
use super::{joined, tables, Cases, FOUR_SPACES};
use crate::fields::fields_of;

/// None of these is a space of JSON.
const NO_SPACES: [&[u8]; 14] = [
    b"\x0B",
    b"\x0C",
    b"\x00",
    b"\x1C",
    b"\x85",
    b"\xA0",
    b"\xC2\x85",
    b"\xC2\xA0",
    b"\xE2\x80\x83",
    b"\xE2\x80\xA8",
    b"\xE3\x80\x80",
    b"\xEF\xBB\xBF",
    b"/**/",
    b"\\n",
];

pub(super) fn add(cases: &mut Cases) {
    for table in tables() {
        let tokens = sample_tokens(table);
        add_spaces_in_all_gaps(cases, table, &tokens);
        for gap in 0..=tokens.len() {
            add_in_gap(cases, table, &tokens, gap);
        }
    }
    add_each_pair_of_gaps(cases);
}

/// One record with the fields that it must have and two more.
fn sample_tokens(table: usize) -> Vec<Token> {
    let mut draft = Draft::least(table, 1);
    for field in fields_of(table).filter(|field| field.nullable).take(2) {
        draft = draft.with_value(field.name, good_value(field.kind, 1));
    }
    file_tokens(table, &[draft])
}

fn add_spaces_in_all_gaps(cases: &mut Cases, table: usize, tokens: &[Token]) {
    for space in FOUR_SPACES {
        cases.file(table, &spaced(tokens, |_| space.to_vec()));
        cases.file(table, &spaced(tokens, |_| space.repeat(3)));
    }
    cases.file(table, &spaced(tokens, |_| b" \t\n\r".to_vec()));
    cases.file(table, &spaced(tokens, |gap| b"\r\n\t ".repeat(gap % 5)));
}

fn add_in_gap(cases: &mut Cases, table: usize, tokens: &[Token], gap: usize) {
    for space in FOUR_SPACES {
        cases.file(table, &in_gap(tokens, gap, space));
    }
    for _ in 0..3 {
        let other = cases.random.pick(&NO_SPACES);
        cases.file(table, &in_gap(tokens, gap, other));
    }
    let after_space = joined(&[b" ", cases.random.pick(&NO_SPACES)]);
    cases.file(table, &in_gap(tokens, gap, &after_space));
}

fn in_gap(tokens: &[Token], gap: usize, bytes: &[u8]) -> Vec<u8> {
    spaced(tokens, |index| if index == gap { bytes.to_vec() } else { Vec::new() })
}

/// Spaces in two gaps at once.
fn add_each_pair_of_gaps(cases: &mut Cases) {
    let tokens = file_tokens(5, &[Draft::least(5, 0), Draft::least(5, 1)]);
    for first in 0..=tokens.len() {
        for second in 0..first {
            let space = cases.random.pick(&FOUR_SPACES);
            let has_space = |index| index == first || index == second;
            let gap = |index| if has_space(index) { space.to_vec() } else { Vec::new() };
            cases.file(5, &spaced(&tokens, gap));
        }
    }
}
