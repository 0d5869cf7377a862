//! Files of the contract side with a single fault: of each kind, in each field
//! that can have it, in the first, a middle and the last record. Which record a
//! mark names is counted here by hand.

use std::sync::Arc;

use super::super::case::Change;
use super::super::contract_draft::ContractDraft;
use super::super::files::Files;
use super::super::Which;
use super::Cases;
use crate::compare::draft::{quoted, Draft};
use crate::compare::gate::set_draft::places;
use crate::compare::tables::names_its_record;
use crate::fields::{Field, Type};

pub(super) fn add(cases: &mut Cases) {
    let base = ContractDraft::accepted();
    let files = base.files();
    for file in 0..4 {
        for at in places(base.tables[file].len()) {
            for (kind, spoilt) in spoilt_records(file, &base.tables[file][at]) {
                let contents = with_element(&base.tables[file], at, &spoilt);
                add_faulty(cases, &files, file, &contents, kind, at);
            }
        }
        add_whole(cases, &files, file);
    }
}

fn add_faulty(
    cases: &mut Cases,
    files: &Files,
    file: usize,
    contents: &[u8],
    kind: u32,
    at: usize,
) {
    let set = files.with(file, contents);
    let mark = set.board()[file];
    let named = if names_its_record(kind) { at as u32 + 1 } else { 0 };
    let shown = String::from_utf8_lossy(contents);
    assert_eq!((mark.kind, mark.companion), (kind, named), "{shown}");
    cases.judge_and_ask(&set, file);
    if cases.random.below(3) == 0 {
        cases.add_as_changes(files, &set);
    }
}

fn with_element(records: &[Draft], at: usize, element: &[u8]) -> Vec<u8> {
    let mut elements: Vec<Vec<u8>> = records.iter().map(Draft::text).collect();
    elements[at] = element.to_vec();
    [b"[", &elements.join(&b","[..])[..], b"]"].concat()
}

/// The record with one fault, in every way there is.
pub(in crate::compare) fn spoilt_records(file: usize, record: &Draft) -> Vec<(u32, Vec<u8>)> {
    let mut all: Vec<(u32, Vec<u8>)> = Vec::new();
    for field in (Which::Contract.gate().fields)(file) {
        for (kind, value) in wrong_values(field) {
            all.push((kind, record.with_value(field.name, value).text()));
        }
        let mut twice =
            record.with_choice(field.name, Some(record.value(field.name).unwrap_or(b"null")));
        twice.push(&quoted(field.name), b"null");
        all.push((14, twice.text()));
        let name = field.name.to_lowercase();
        all.push((13, record.with_member(0, &quoted(&name), b"null").text()));
        if !field.nullable {
            all.push((19, record.without(field.name).text()));
            all.push((19, record.with_value(field.name, b"null").text()));
        }
    }
    all.extend([&b"1"[..], b"null", b"[]", b"\"x\""].map(|other| (12, other.to_vec())));
    all.push((13, record.with_member(0, b"\"BaselineFinishDate\"", b"null").text()));
    all
}

fn wrong_values(field: &Field) -> Vec<(u32, &'static [u8])> {
    let mut values: Vec<(u32, &[u8])> =
        vec![(10, b"\"\xFF\""), (11, b"tru"), (11, b"\"\\x\""), (15, b"[]"), (15, b"{}")];
    match field.kind {
        Type::Date => {
            values.extend([(17, &b"\"x\""[..]), (17, b"\"\""), (17, b"\"2019-02-29\""), (15, b"0")])
        }
        Type::Integer => values.extend([
            (18, &b"1e99"[..]),
            (18, b"1000000000000000"),
            (34, b"0.5"),
            (34, b"1e-1"),
            (15, b"\"1\""),
        ]),
        Type::Boolean => values.extend([(15, &b"0"[..]), (15, b"\"true\"")]),
        Type::String => values.extend([
            (30, &b"\"\\u0000\""[..]),
            (31, b"\" A\""),
            (31, b"\"A\xC2\xA0B\""),
            (31, b"\"A\\u3000\""),
            (33, b"\"\\uD800\""),
            (15, b"true"),
        ]),
        Type::StringID => values.extend([
            (30, &b"\"A\\u007f\""[..]),
            (31, b"\"A  B\""),
            (31, b"\"A\\t\""),
            (32, b"\"\xC3\xA9\""),
            (32, b"\"A\\u00a0B\""),
            (32, b"\"\\uD800\""),
            (15, b"5"),
        ]),
        Type::Text | Type::Decimal => {}
    }
    values
}

/// Files that are no table at all, judged and put in.
fn add_whole(cases: &mut Cases, files: &Files, file: usize) {
    let contents: [&[u8]; 12] = [
        b"",
        b" ",
        b"{}",
        b"null",
        b"[1]",
        b"[{}]",
        b"[{},]",
        b"[]]",
        b"[",
        b"\xEF\xBB\xBF[]",
        b"IPMDAR_CONTRACT_PERFORMANCE_DATASET/1.0",
        b" [ ] ",
    ];
    let bundle = Arc::new(files.bundle());
    for new in contents {
        cases.judge_and_ask(&files.with(file, new), file);
        let board = cases.random_board(Which::Contract);
        let change = Change { board, file: file as u32, new: Some(Arc::new(new.to_vec())) };
        cases.try_change(Which::Contract, &bundle, change);
    }
}
