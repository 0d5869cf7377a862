//! Long tables: as many records as a table may have, one fewer and one more;
//! keys and targets that are found late; long outlines.
//!
//! A program that compares every record with every other takes its time over
//! some of these, so few tables as long as can be are gone through to the end.

use super::targets::{links, Link};
use super::Cases;
use crate::bundle::FILES;
use crate::compare::draft::{quoted, Draft};
use crate::compare::gate::set_draft::{places, SetDraft};
use crate::compare::gate::styles::shuffle;
use crate::fields::{fields_of, Type};
use crate::rules::{rule, Rule};
use crate::table::{is_singleton, MOST_RECORDS};

/// Long enough for what a short table may miss.
const LONG: usize = 300;

/// Enough for targets that are far from each other.
const MIXED: usize = 60;

pub(super) fn add(cases: &mut Cases) {
    for table in (1..FILES).filter(|table| !is_singleton(*table)) {
        // So many records of file 10 are longer than a bundle may be.
        if table != 10 {
            add_counts(cases, table);
        }
        for part in 0..key_of(table).len() {
            add_late_keys(cases, table, part, LONG);
        }
    }
    add_late_keys(cases, 6, 0, MOST_RECORDS);
    add_late_keys(cases, 7, 1, MOST_RECORDS / 4);
    for link in links() {
        add_late_targets(cases, &link);
    }
    add_outlines(cases);
}

/// A record with all that can't be null. Its IDs are those of the number.
pub(in crate::compare) fn short_record(table: usize, number: usize) -> Draft {
    let mut draft = Draft::default();
    for field in fields_of(table).filter(|field| !field.nullable) {
        draft.push(&quoted(field.name), &short_value(field.kind, number));
    }
    draft
}

fn short_value(kind: Type, number: usize) -> Vec<u8> {
    match kind {
        Type::StringID => quoted(&id(number)),
        Type::String | Type::Text => b"\"A\"".to_vec(),
        Type::Date => quoted(&date(number)),
        Type::Integer => number.to_string().into_bytes(),
        Type::Decimal => b"1".to_vec(),
        Type::Boolean => b"true".to_vec(),
    }
}

/// The lowest digit comes first, so that most IDs differ in their first letter.
fn id(number: usize) -> String {
    let digits = b"0123456789abcdefghijklmnopqrstuvwxyz";
    let digit = |power: u32| char::from(digits[number / digits.len().pow(power) % digits.len()]);
    (0..3).map(digit).collect()
}

/// Another date for each number below 4,096.
fn date(number: usize) -> String {
    format!("{:04}-{:02}-{:02}", 2000 + number / 336, 1 + number / 28 % 12, 1 + number % 28)
}

/// The same record so many times, which breaks the key at once.
fn add_counts(cases: &mut Cases, table: usize) {
    for count in [MOST_RECORDS - 1, MOST_RECORDS, MOST_RECORDS + 1] {
        let records = vec![short_record(table, 1); count];
        cases.judge_set(&SetDraft::empty().with_records(table, &records));
    }
}

// ------------------------------------------------------------------ keys

fn key_of(table: usize) -> &'static [&'static str] {
    match rule(table + 16) {
        Rule::Key { fields, .. } => fields,
        _ => unreachable!("marks 20 to 35 are keys"),
    }
}

/// Records that differ in one part of the key only, all of them, or all but
/// the last one.
fn add_late_keys(cases: &mut Cases, table: usize, part: usize, count: usize) {
    let name = key_of(table)[part];
    let field = fields_of(table).find(|field| field.name == name);
    let kind = field.expect("a key is made of fields").kind;
    let base = short_record(table, 0);
    let with_part = |number| base.with_value(name, &short_value(kind, number));
    let mut records: Vec<Draft> = (0..count).map(with_part).collect();
    cases.judge_set(&SetDraft::empty().with_records(table, &records));
    for again in [0, count - 2] {
        records[count - 1] = with_part(again);
        cases.judge_set(&SetDraft::empty().with_records(table, &records));
    }
}

// --------------------------------------------------------------- targets

/// The searched table has the IDs in the opposite order. All are found, or all
/// but the last or the first one.
fn add_late_targets(cases: &mut Cases, link: &Link) {
    let set = asking_set(link, LONG);
    let searched: Vec<Draft> =
        (0..LONG).rev().map(|number| searched_record(link, number)).collect();
    for found in [&searched[..], &searched[1..], &searched[..LONG - 1]] {
        cases.judge_set(&set.with_records(link.other, found));
    }
}

/// Targets in no order, for every link.
pub(super) fn add_all_mixed_targets(cases: &mut Cases) {
    for link in links() {
        add_mixed_targets(cases, &link);
    }
}

/// The searched table has the IDs in no order, all of them or those from the
/// middle on. All are found, or all but the first, a middle or the last one.
fn add_mixed_targets(cases: &mut Cases, link: &Link) {
    let set = asking_set(link, MIXED);
    for first in [0, MIXED / 2] {
        let mut searched: Vec<Draft> =
            (0..MIXED).map(|number| searched_record(link, number)).collect();
        shuffle(&mut searched[first..], &mut cases.random);
        cases.judge_set(&set.with_records(link.other, &searched));
        for missing in places(MIXED) {
            let missing = quoted(&id(missing));
            let mut found = searched.clone();
            found.retain(|record| record.value(link.other_field) != Some(&missing[..]));
            cases.judge_set(&set.with_records(link.other, &found));
        }
    }
}

/// Texts as they are spelled: of plain bytes, in capitals, with a space, with escapes of a letter, a space, a quote and a
/// backslash, one that begins another, and one letter alone. Some are one text.
const SPELLINGS: [&str; 11] = [
    r#""ab""#,
    r#""AB""#,
    r#""a\u0062""#,
    r#""a b""#,
    r#""a\u0020b""#,
    r#""a\"b""#,
    r#""a\u0022b""#,
    r#""a\\""#,
    r#""a\\b""#,
    r#""abc""#,
    r#""a""#,
];

/// Targets that stand beside their askers, record for record, and are the same bytes or not, the same text or not.
pub(super) fn add_all_copies(cases: &mut Cases) {
    for link in links() {
        for asked in SPELLINGS {
            for held in SPELLINGS {
                add_copies(cases, &link, asked, held);
            }
        }
    }
}

/// The second of three records asks for a text, and the second of three searched records has that or another.
fn add_copies(cases: &mut Cases, link: &Link, asked: &str, held: &str) {
    let mut asking: Vec<Draft> = (0..3).map(|number| asking_record(link, number)).collect();
    asking[1] = asking[1].clone().with_value(link.field, asked.as_bytes());
    let mut searched: Vec<Draft> = (0..3).map(|number| searched_record(link, number)).collect();
    searched[1] = searched[1].clone().with_value(link.other_field, held.as_bytes());
    let set = SetDraft::empty().with_records(link.file, &asking);
    cases.judge_set(&set.with_records(link.other, &searched));
}

/// So many records that ask for one ID each.
fn asking_set(link: &Link, count: usize) -> SetDraft {
    let asking: Vec<Draft> = (0..count).map(|number| asking_record(link, number)).collect();
    SetDraft::empty().with_records(link.file, &asking)
}

pub(super) fn searched_record(link: &Link, number: usize) -> Draft {
    short_record(link.other, number).with_value(link.other_field, &quoted(&id(number)))
}

/// Its type is the one that makes a task ask for a place in the outline.
pub(super) fn asking_record(link: &Link, number: usize) -> Draft {
    let record = short_record(link.file, number).with_value(link.field, &quoted(&id(number)));
    match link.file {
        9 => record.with_value("TaskTypeID", b"\"SUMMARY\""),
        _ => record,
    }
}

// -------------------------------------------------------------- outlines

/// Rows of these Levels. The IDs come in turns of three, so that the rows near
/// a parent have others; a parent that isn't there is left out.
fn outline(levels: &[usize], parent_of: impl Fn(usize) -> Option<usize>) -> Vec<Draft> {
    let task = |at: usize| format!("\"{}\"", ["S", "a", "B"][at % 3]).into_bytes();
    let row = |(at, level): (usize, &usize)| {
        let row = Draft::default().with_value("Level", level.to_string().as_bytes());
        let row = row.with_value("TaskID", &task(at));
        match parent_of(at) {
            Some(parent) => row.with_value("ParentTaskID", &task(parent)),
            None => row,
        }
    };
    levels.iter().enumerate().map(row).collect()
}

fn add_outlines(cases: &mut Cases) {
    let most = MOST_RECORDS;
    let flat: Vec<usize> = vec![1; most];
    add_outline(cases, outline(&flat, |_| None));
    let stairs: Vec<usize> = (1..=most).collect();
    add_outline(cases, outline(&stairs, |at| at.checked_sub(1)));
    let saw: Vec<usize> = (0..most).map(|at| 1 + at % 3).collect();
    add_outline(cases, outline(&saw, |at| (at % 3 > 0).then(|| at - 1)));
    // From here on the parent is the first row of all.
    let one_family: Vec<usize> = (0..most).map(|at| if at == 0 { 1 } else { 2 }).collect();
    add_outline(cases, outline(&one_family, |at| (at > 0).then_some(0)));
    let falling: Vec<usize> = (0..most / 2).map(|at| if at == 0 { 1 } else { most - at }).collect();
    add_outline(cases, outline(&falling, |at| (at > 0).then_some(0)));
}

/// All three tasks are SUMMARY, so that only the outline itself decides. The
/// last row is right, without its parent, and a level too deep.
fn add_outline(cases: &mut Cases, mut rows: Vec<Draft>) {
    let tasks = ["S", "A", "B"].map(|id| {
        short_record(9, 0).with_value("ID", &quoted(id)).with_value("TaskTypeID", b"\"SUMMARY\"")
    });
    let set = SetDraft::empty().with_records(9, &tasks);
    let last = rows.len() - 1;
    let right = rows[last].clone();
    let parentless = right.without("ParentTaskID");
    let too_deep = right.with_value("Level", b"999999999");
    for row in [right, parentless, too_deep] {
        rows[last] = row;
        cases.judge_set(&set.with_records(15, &rows));
    }
}

#[cfg(test)]
mod tests {
    use super::*;
    use crate::gate::judge;
    use std::collections::HashSet;

    #[test]
    fn ids_and_dates_are_all_different() {
        let ids: HashSet<String> = (0..MOST_RECORDS + 1).map(id).collect();
        assert_eq!(ids.len(), MOST_RECORDS + 1);
        let dates: HashSet<String> = (0..MOST_RECORDS).map(date).collect();
        assert_eq!(dates.len(), MOST_RECORDS);
    }

    #[test]
    fn short_records_are_readable() {
        for table in 4..FILES {
            let records: Vec<Draft> = (0..50).map(|number| short_record(table, number)).collect();
            let set = SetDraft::empty().with_records(table, &records);
            assert_eq!(judge(&set.bundle()).board.marks[table].kind, 0, "file {table}");
        }
    }
}
