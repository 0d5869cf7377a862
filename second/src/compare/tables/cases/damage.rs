//! Small samples of every file, cut at every length, with a byte or a token
//! changed, taken out or put in at every place.

use super::draft::{file_tokens, random_gap, spaced, Draft, Token};
use super::values::good_value;
use super::{inserted, removed, replaced, tables, Cases, ODD_BYTES};
use crate::fields::fields_of;
use crate::table::is_singleton;

/// Tables that get every odd byte at every place; between them they have every
/// type but Boolean.
const CLOSELY: [usize; 4] = [2, 6, 8, 15];

/// The table whose records are too long to have two in a small sample.
const LONGEST_TABLE: usize = 10;

pub(super) fn add(cases: &mut Cases) {
    for table in tables() {
        let tokens = sample_tokens(table);
        let sample = spaced(&tokens, |_| random_gap(&mut cases.random, 4));
        add_cuts(cases, table, &sample);
        add_some_bytes(cases, table, &sample);
        add_other_tokens(cases, table, &tokens);
    }
    for table in CLOSELY {
        let tokens = file_tokens(table, &[longer_draft(table)]);
        let sample = spaced(&tokens, |_| random_gap(&mut cases.random, 6));
        add_every_odd_byte(cases, table, &sample);
    }
}

fn sample_tokens(table: usize) -> Vec<Token> {
    let first = Draft::least(table, 0);
    if table == LONGEST_TABLE {
        return file_tokens(table, &[first]);
    }
    if is_singleton(table) {
        return file_tokens(table, &[longer_draft(table)]);
    }
    file_tokens(table, &[first, longer_draft(table)])
}

/// A record with the fields that it must have, one with a value and a null.
fn longer_draft(table: usize) -> Draft {
    let mut draft = Draft::least(table, 3);
    let mut nullable = fields_of(table).filter(|field| field.nullable);
    if let Some(field) = nullable.next() {
        draft = draft.with_value(field.name, good_value(field.kind, 2));
    }
    if let Some(field) = nullable.next() {
        draft = draft.with_value(field.name, b"null");
    }
    draft
}

fn add_cuts(cases: &mut Cases, table: usize, sample: &[u8]) {
    for length in 0..=sample.len() {
        cases.file(table, &sample[..length]);
    }
}

/// At every place a byte taken out, one put in, and a few others in its stead.
fn add_some_bytes(cases: &mut Cases, table: usize, sample: &[u8]) {
    for at in 0..sample.len() {
        cases.file(table, &removed(sample, at));
        let byte = cases.random.pick(&ODD_BYTES);
        cases.file(table, &inserted(sample, at, byte));
        for _ in 0..4 {
            let byte = cases.random.pick(&ODD_BYTES);
            cases.file(table, &replaced(sample, at, byte));
        }
    }
}

fn add_every_odd_byte(cases: &mut Cases, table: usize, sample: &[u8]) {
    for at in 0..sample.len() {
        for byte in ODD_BYTES {
            cases.file(table, &replaced(sample, at, byte));
        }
    }
}

/// What may stand wrongly where another token stood.
const TOKENS: [&[u8]; 10] = [b"[", b"]", b"{", b"}", b",", b":", b"\"A\"", b"1", b"null", b"{}"];

fn add_other_tokens(cases: &mut Cases, table: usize, tokens: &[Token]) {
    for at in 0..tokens.len() {
        for token in TOKENS {
            let mut changed = tokens.to_vec();
            changed[at] = token.to_vec();
            cases.file(table, &changed.concat());
        }
        let mut without = tokens.to_vec();
        without.remove(at);
        cases.file(table, &without.concat());
        let mut doubled = tokens.to_vec();
        doubled.insert(at, tokens[at].clone());
        cases.file(table, &doubled.concat());
        let mut swapped = tokens.to_vec();
        swapped.swap(at, (at + 1) % tokens.len());
        cases.file(table, &swapped.concat());
    }
}
