//! Random mixes: files that hold with some bytes or tokens changed, and tokens
//! in any order.

use super::accepted::{random_draft, random_file};
use super::draft::{file_tokens, quoted, random_gap, spaced, Token};
use super::values::VALUES;
use super::{Cases, ODD_BYTES};
use crate::fields::fields_of;

pub(super) fn add(cases: &mut Cases) {
    for _ in 0..4_000 {
        add_changed_bytes(cases);
    }
    for _ in 0..4_000 {
        add_changed_tokens(cases);
    }
    for _ in 0..4_000 {
        add_any_tokens(cases);
    }
}

fn any_table(cases: &mut Cases) -> usize {
    1 + cases.random.below(19)
}

/// One to three bytes changed, taken out or put in.
fn add_changed_bytes(cases: &mut Cases) {
    let table = any_table(cases);
    let mut bytes = random_file(table, &mut cases.random);
    for _ in 0..1 + cases.random.below(3) {
        // earlier changes may have taken out the last byte of a short file
        if bytes.is_empty() {
            break;
        }
        let byte = cases.random.pick(&ODD_BYTES);
        let at = cases.random.below(bytes.len());
        match cases.random.below(3) {
            0 => bytes[at] = byte,
            1 => bytes.insert(at, byte),
            _ => drop(bytes.remove(at)),
        }
    }
    cases.file(table, &bytes);
}

/// One or two tokens changed, taken out, put in or exchanged.
fn add_changed_tokens(cases: &mut Cases) {
    let table = any_table(cases);
    let drafts = [random_draft(table, &mut cases.random), random_draft(table, &mut cases.random)];
    let mut tokens = file_tokens(table, &drafts);
    for _ in 0..1 + cases.random.below(2) {
        let token = any_token(cases, table);
        let at = cases.random.below(tokens.len());
        let other = cases.random.below(tokens.len());
        match cases.random.below(5) {
            0 | 1 => tokens[at] = token,
            2 => tokens.insert(at, token),
            3 => tokens.swap(at, other),
            _ => drop(tokens.remove(at)),
        }
    }
    add_spaced(cases, table, &tokens);
}

/// A beginning that holds, then tokens in any order.
fn add_any_tokens(cases: &mut Cases) {
    let table = any_table(cases);
    let draft = random_draft(table, &mut cases.random);
    let mut tokens = file_tokens(table, &[draft]);
    let kept = cases.random.below(tokens.len());
    tokens.truncate(kept);
    for _ in 0..cases.random.below(10) {
        let token = any_token(cases, table);
        tokens.push(token);
    }
    add_spaced(cases, table, &tokens);
}

fn add_spaced(cases: &mut Cases, table: usize, tokens: &[Token]) {
    let often = cases.random.pick(&[3, 1000]);
    let bytes = spaced(tokens, |_| random_gap(&mut cases.random, often));
    cases.file(table, &bytes);
}

/// A name of the table, a value, or what stands between them.
fn any_token(cases: &mut Cases, table: usize) -> Token {
    let names: Vec<&str> = fields_of(table).map(|field| field.name).collect();
    match cases.random.below(3) {
        0 => quoted(cases.random.pick(&names)),
        1 => cases.random.pick(&VALUES).to_vec(),
        _ => vec![cases.random.pick(b"[]{},::,")],
    }
}
