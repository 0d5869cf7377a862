//! Rules not judged: each file unreadable in many ways, omitted, or without
//! records; and null in each field.

use super::Cases;
use crate::bundle::FILES;
use crate::compare::draft::{quoted, text, Draft};
use crate::compare::gate::set_draft::{places, FileDraft, SetDraft};
use crate::fields::{fields_of, Field, Type, FIELDS};

pub(super) fn add(cases: &mut Cases) {
    let base = cases.base.clone();
    for number in 0..FILES {
        cases.judge_set(&base.without(number));
        for contents in WHOLE_FILES {
            cases.judge_set(&base.with_bytes(number, contents));
        }
        add_cut(cases, &base, number);
    }
    for table in 1..FILES {
        for at in places(base.records(table).len()) {
            add_unreadable(cases, &base, table, at);
        }
    }
    for field in &FIELDS {
        add_nulls(cases, &base, field);
        add_spoilt_values(cases, field);
    }
    add_pairs(cases, &base);
}

const WHOLE_FILES: [&[u8]; 8] =
    [b"", b"[]", b"{}", b"[{}]", b" ", b"null", b"[1]", b"\xEF\xBB\xBF[]"];

fn add_cut(cases: &mut Cases, base: &SetDraft, number: usize) {
    let whole = base.present(number);
    for length in [1, whole.len() / 2, whole.len() - 1] {
        cases.judge_set(&base.with_bytes(number, &whole[..length]));
        cases.judge_set(&base.with_bytes(number, &whole[length..]));
    }
    for more in [&b"x"[..], b" ", b"]"] {
        cases.judge_set(&base.with_bytes(number, &[&whole, more].concat()));
    }
}

/// Faults of the record at `at`, each of which makes the file unreadable.
fn add_unreadable(cases: &mut Cases, base: &SetDraft, table: usize, at: usize) {
    let record = &base.records(table)[at];
    for spoilt in spoilt_records(table, record) {
        let mut set = base.clone();
        set.records_mut(table)[at] = spoilt;
        cases.judge_set(&set);
    }
    if !(1..=3).contains(&table) {
        let mut elements: Vec<Vec<u8>> = base.records(table).iter().map(Draft::text).collect();
        elements[at] = b"[]".to_vec();
        let contents = [&b"["[..], &elements.join(&b','), b"]"].concat();
        cases.judge_set(&base.with_bytes(table, &contents));
    }
}

fn spoilt_records(table: usize, record: &Draft) -> Vec<Draft> {
    let last = record.members.len();
    let name = record.members[0].name.clone();
    let mut nested = record.clone();
    nested.members[0].value = b"[]".to_vec();
    let mut spoilt = vec![
        nested,
        record.with_member(last, b"\"Unknown\"", b"1"),
        record.with_member(0, &name.to_ascii_lowercase(), b"1"),
        record.with_member(last, &name, b"null"),
        record.with_name(0, b"\"\\x\""),
        record.with_name(0, b"\"\xC3\""),
    ];
    if let Some(field) = fields_of(table).find(|field| !field.nullable) {
        spoilt.push(record.without(field.name));
        spoilt.push(record.with_value(field.name, b"null"));
        spoilt.push(Draft::default());
    }
    spoilt
}

/// Values that the field can't have, in a set of its table alone.
fn add_spoilt_values(cases: &mut Cases, field: &Field) {
    let base = cases.base.only(&[field.table]);
    for value in spoilt_values(field) {
        let at = cases.random.below(base.records(field.table).len());
        cases.judge_set(&base.with_value(field.table, at, field.name, Some(value)));
    }
}

fn spoilt_values(field: &Field) -> &'static [&'static [u8]] {
    match field.kind {
        Type::Boolean => &[b"1", b"\"true\"", b"[]"],
        Type::Date => &[b"\"2019-02-29\"", b"\"\"", b"20190228", b"\"2020-1-01\""],
        Type::Decimal => {
            &[b"1e16", b"\"1\"", b"1.", b"1000000000000001", b"10e15", b"1e-16", b"0.10e-15"]
        }
        Type::Integer => {
            &[b"0.5", b"1e15", b"\"1\"", b"true", b"1000000000000000", b"10000000000000000e-17"]
        }
        Type::String => {
            &[b"\" x\"", b"\"a  b\"", b"1", b"\"\\ud800\"", b"\"a\\tb\"", b"\"\\u000b\""]
        }
        Type::StringID => &[b"\"\xC3\xA9\"", b"\"x \"", b"{}", b"\"\\u007f\"", b"\"\xFF\""],
        Type::Text => &[b"\"\\u0000\"", b"\"a\nb\"", b"false", b"\"\\udc00\""],
    }
}

// ----------------------------------------------------------------- nulls

/// The three forms of null in the field, of which an empty Date is none.
fn add_nulls(cases: &mut Cases, base: &SetDraft, field: &Field) {
    for at in places(base.records(field.table).len()) {
        for null in [None, Some(&b"null"[..]), Some(b"\"\"")] {
            cases.judge_set(&base.with_value(field.table, at, field.name, null));
        }
    }
}

// ----------------------------------------------------------------- pairs

/// Every two files: omitted, without records, unreadable, or one of each.
fn add_pairs(cases: &mut Cases, base: &SetDraft) {
    for first in 0..FILES {
        for second in first + 1..FILES {
            for _ in 0..2 {
                let set = with_odd_file(cases, base, first);
                let set = with_odd_file(cases, &set, second);
                cases.judge_set(&set);
            }
        }
    }
}

fn with_odd_file(cases: &mut Cases, set: &SetDraft, number: usize) -> SetDraft {
    let empty = text(number, &[Draft::default()]);
    let files = [
        FileDraft::Omitted,
        FileDraft::Bytes(b"[]".to_vec()),
        FileDraft::Bytes(empty),
        FileDraft::Bytes(b"".to_vec()),
        FileDraft::Bytes([b"[{", &quoted("Unknown")[..]].concat()),
    ];
    set.with_file(number, files[cases.random.below(files.len())].clone())
}

#[cfg(test)]
mod tests {
    use super::*;
    use crate::gate::judge;

    #[test]
    fn no_field_takes_its_spoilt_values() {
        for field in &FIELDS {
            let table = field.table;
            let base = SetDraft::accepted().only(&[table]);
            for value in spoilt_values(field) {
                let set = base.with_value(table, 0, field.name, Some(value));
                let shown = String::from_utf8_lossy(value);
                let kind = judge(&set.bundle()).board.marks[table].kind;
                let of_value = [10, 11, 15, 17, 18].contains(&kind) || (30..=34).contains(&kind);
                assert!(of_value, "{} {shown}", field.name);
            }
        }
    }
}
