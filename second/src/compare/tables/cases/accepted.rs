//! Files that hold: all fields or few, in any order, names and values written
//! in many ways, so that places are tested.

use super::draft::{file_tokens, quoted, random_gap, spaced, Draft};
use super::values::{good_value, good_values, may_be_empty};
use super::{record_places, tables, Cases};
use crate::compare::random::Random;
use crate::fields::{fields_of, Field};

pub(super) fn add(cases: &mut Cases) {
    for table in tables() {
        add_plain(cases, table);
        for field in fields_of(table) {
            add_each_good_value(cases, field);
        }
        for _ in 0..150 {
            add_random(cases, table);
        }
    }
}

fn add_plain(cases: &mut Cases, table: usize) {
    let mut reversed = Draft::full(table, 3);
    reversed.members.reverse();
    for draft in [Draft::least(table, 0), Draft::full(table, 0), reversed] {
        for at in 0..record_places(table) {
            cases.among_others(table, &draft, at);
        }
        cases.record(table, &draft);
    }
    for count in [2, 5, 20] {
        let drafts: Vec<Draft> = (0..count).map(|number| Draft::least(table, number)).collect();
        cases.records(table, &drafts);
    }
}

/// Each good value, and null in its two forms where it is allowed.
fn add_each_good_value(cases: &mut Cases, field: &Field) {
    let base = Draft::least(field.table, 0);
    for value in good_values(field.kind) {
        cases.somewhere(field.table, &base.with_value(field.name, value));
    }
    if field.nullable {
        cases.somewhere(field.table, &base.with_value(field.name, b"null"));
        cases.somewhere(field.table, &Draft::full(field.table, 1).with_value(field.name, b"null"));
    }
    if field.nullable && may_be_empty(field.kind) {
        cases.somewhere(field.table, &base.with_value(field.name, b"\"\""));
        cases.somewhere(field.table, &Draft::full(field.table, 2).with_value(field.name, b"\"\""));
    }
}

// ---------------------------------------------------------- random files

fn add_random(cases: &mut Cases, table: usize) {
    let bytes = random_file(table, &mut cases.random);
    cases.file(table, &bytes);
}

/// A file that holds, with up to four records and spaces anywhere.
pub(super) fn random_file(table: usize, random: &mut Random) -> Vec<u8> {
    let count = if random.below(8) == 0 { 4 } else { 1 + random.below(2) };
    let drafts: Vec<Draft> = (0..count).map(|_| random_draft(table, random)).collect();
    let often = random.pick(&[2, 5, 1000]);
    spaced(&file_tokens(table, &drafts), |_| random_gap(random, often))
}

/// A record that holds, its members in any order.
pub(super) fn random_draft(table: usize, random: &mut Random) -> Draft {
    let many = random.below(2) == 0;
    let mut draft = Draft::default();
    for field in fields_of(table) {
        if let Some(value) = random_value(field, many, random) {
            let at = random.below(draft.members.len() + 1);
            draft = draft.with_member(at, &random_name(field.name, random), &value);
        }
    }
    draft
}

/// A value that holds in the field, or nothing for an absent field.
fn random_value(field: &Field, many: bool, random: &mut Random) -> Option<Vec<u8>> {
    let form = random.below(if many { 8 } else { 16 });
    let value: &[u8] = match form {
        0 if field.nullable => b"null",
        1 if field.nullable && may_be_empty(field.kind) => b"\"\"",
        7.. if field.nullable => return None,
        _ => good_value(field.kind, random.below(100)),
    };
    Some(value.to_vec())
}

/// The name as it is, or some of its letters as escapes.
fn random_name(name: &str, random: &mut Random) -> Vec<u8> {
    if random.below(6) > 0 {
        return quoted(name);
    }
    let letters: Vec<String> = name
        .bytes()
        .map(|letter| match random.below(4) {
            0 => format!("\\u{letter:04x}"),
            1 => format!("\\u{letter:04X}"),
            _ => char::from(letter).to_string(),
        })
        .collect();
    quoted(&letters.concat())
}
