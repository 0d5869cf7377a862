//! The accepted set written in many ways, and each rule broken at the first, a
//! middle and the last record of it: judged in full, and as a change of each
//! file that breaks it.

use std::sync::Arc;

use super::{change, random_board, Cases};
use crate::bundle::FILES;
use crate::compare::draft::Draft;
use crate::compare::gate::set_draft::{folded_id, places, places_from, SetDraft};
use crate::compare::gate::styles::restyled;
use crate::rules::{rule, Rule, FIRST_RULE, LAST_RULE};

const STYLES: usize = 150;

pub(super) fn add(cases: &mut Cases) {
    let base = cases.base.clone();
    cases.judge_set(&base);
    for _ in 0..STYLES {
        let styled = restyled(&base, &mut cases.random);
        cases.judge_set(&styled);
    }
    for mark in FIRST_RULE..=LAST_RULE {
        for set in broken_sets(mark, &base) {
            cases.judge_set(&set);
            let styled = restyled(&set, &mut cases.random);
            cases.judge_set(&styled);
            add_as_changes(cases, &base, &set);
        }
    }
}

/// Each file that differs is put into the set that has all the others.
fn add_as_changes(cases: &mut Cases, base: &SetDraft, set: &SetDraft) {
    for number in (0..FILES).filter(|number| base.bytes(*number) != set.bytes(*number)) {
        let before = Arc::new(set.with_file(number, base.files[number].clone()).bundle());
        let board = random_board(&mut cases.random);
        cases.try_change(&before, change(board, number, set.bytes(number)));
    }
}

/// Sets in which the rule is broken at the first, a middle and the last record,
/// and some that are nearly so.
pub(in crate::compare) fn broken_sets(mark: usize, base: &SetDraft) -> Vec<SetDraft> {
    match rule(mark) {
        Rule::Key { file, fields } => repeated_keys(base, file, fields),
        Rule::OneOf { file, field, .. } => with_value_at_places(base, file, field, b"\"NONE\""),
        Rule::Target { file, field, .. } => with_value_at_places(base, file, field, b"\"No-1\""),
        Rule::HasOne { file, other, other_field, .. } => {
            let at_places = places(base.records(file).len()).into_iter();
            at_places.map(|at| without_match(base, file, at, other, other_field)).collect()
        }
        Rule::Each { file, .. } => {
            let at_places = places(base.records(file).len()).into_iter();
            at_places.map(|at| with_values(base, file, at, breaking_values(mark))).collect()
        }
        Rule::LevelRun => wrong_levels(base),
        Rule::ParentGiven => wrong_parents(base),
        Rule::ParentIsSummary => parents_of_other_types(base),
    }
}

/// A field and its value, nothing where it is absent.
type FieldValue = (&'static str, Option<&'static [u8]>);

fn with_values(base: &SetDraft, table: usize, at: usize, values: &[FieldValue]) -> SetDraft {
    let mut set = base.clone();
    for (name, value) in values {
        set = set.with_value(table, at, name, *value);
    }
    set
}

fn with_value_at_places(
    base: &SetDraft,
    table: usize,
    name: &'static str,
    value: &'static [u8],
) -> Vec<SetDraft> {
    let at_places = places(base.records(table).len()).into_iter();
    at_places.map(|at| base.with_value(table, at, name, Some(value))).collect()
}

/// The key of the first record, and of the one before, once more.
fn repeated_keys(base: &SetDraft, table: usize, fields: &[&str]) -> Vec<SetDraft> {
    let mut sets = Vec::new();
    for at in places_from(1, base.records(table).len()) {
        for from in [0, at - 1] {
            let mut set = base.clone();
            let source = base.records(table)[from].clone();
            for field in fields {
                set = set.with_value(table, at, field, source.value(field));
            }
            sets.push(set);
        }
    }
    sets
}

/// A record that needs one in the other table, which has none for it. Of tasks
/// it is made a SUMMARY, which all rules of this shape ask about.
fn without_match(
    base: &SetDraft,
    file: usize,
    at: usize,
    other: usize,
    other_field: &str,
) -> SetDraft {
    let mut set = base.clone();
    if file == 9 {
        set = set.with_value(9, at, "TaskTypeID", Some(b"\"SUMMARY\""));
    }
    let id = folded_id(&set.records(file)[at], "ID");
    let is_match = |record: &Draft| folded_id(record, other_field) == id;
    set.records_mut(other).retain(|record| !is_match(record));
    set
}

fn breaking_values(mark: usize) -> &'static [FieldValue] {
    match mark {
        65 => &[("ContractorIDCodeTypeID", None)],
        66 => &[("EVMSAccepted", Some(b"false"))],
        68 => &[("SundayWorkHours", Some(b"1")), ("SaturdayWorkHours", Some(b"-1e-15"))],
        69 => &[
            ("SundayWorkHours", Some(b"0.0")),
            ("MondayWorkHours", None),
            ("TuesdayWorkHours", Some(b"null")),
            ("WednesdayWorkHours", Some(b"-0")),
            ("FridayWorkHours", None),
            ("SaturdayWorkHours", None),
        ],
        70 => &[("WorkHours", Some(b"-0.5"))],
        71 => &[("TaskTypeID", Some(b"\"Activity\"")), ("TaskPlanningLevelID", None)],
        72 => &[
            ("EarnedValueTechniqueID", Some(b"\"UNITS\"")),
            ("OtherEarnedValueTechnique", Some(b"\"x\"")),
        ],
        75 => &[("BaselineDuration", Some(b"1")), ("BaselineStartDate", None)],
        76 => {
            &[("ConstraintTypeID", Some(b"\"DEADLINE\"")), ("OtherConstraintType", Some(b"\"x\""))]
        }
        77 => &[("ConstraintTypeID", Some(b"\"MUST_START_ON\"")), ("ConstraintDate", None)],
        _ => panic!("mark {mark} isn't of one record by itself"),
    }
}

fn wrong_levels(base: &SetDraft) -> Vec<SetDraft> {
    let mut sets = Vec::new();
    for at in places(base.records(15).len()) {
        for level in [&b"0"[..], b"-1", b"5", b"999999999999999", b"-999999999999999"] {
            sets.push(base.with_value(15, at, "Level", Some(level)));
        }
    }
    sets
}

fn wrong_parents(base: &SetDraft) -> Vec<SetDraft> {
    let mut sets = Vec::new();
    for at in places(base.records(15).len()) {
        for parent in [Some(&b"\"T3\""[..]), Some(b"\"T\""), Some(b"\"\""), None] {
            sets.push(base.with_value(15, at, "ParentTaskID", parent));
        }
    }
    sets
}

/// Three parents with a child each, one of them no SUMMARY.
fn parents_of_other_types(base: &SetDraft) -> Vec<SetDraft> {
    let rows = [
        r#"{"Level":1,"TaskID":"S1"}"#,
        r#"{"Level":2,"TaskID":"T1","ParentTaskID":"S1"}"#,
        r#"{"Level":1,"TaskID":"S2"}"#,
        r#"{"Level":2,"TaskID":"T2","ParentTaskID":"S2"}"#,
        r#"{"Level":1,"TaskID":"T3"}"#,
        r#"{"Level":2,"TaskID":"T\/4 B","ParentTaskID":"T3"}"#,
    ];
    let outline = format!("[{}]", rows.join(","));
    let mut set = base.with_bytes(15, outline.as_bytes());
    let parents = [0, 1, 4];
    for at in parents {
        set = set.with_value(9, at, "TaskTypeID", Some(b"\"SUMMARY\""));
    }
    let types = parents.map(|at| set.with_value(9, at, "TaskTypeID", Some(b"\"HAMMOCK\"")));
    types.into_iter().chain([set]).collect()
}

#[cfg(test)]
mod tests {
    use super::*;
    use crate::gate::judge;
    use crate::rules::files_read;

    /// The places at which the rule is broken by one of its sets.
    fn broken_places(mark: usize) -> Vec<u32> {
        let sets = broken_sets(mark, &SetDraft::accepted());
        let marks = sets.iter().map(|set| judge(&set.bundle()).board.marks[mark]);
        let mut places: Vec<u32> =
            marks.filter(|mark| mark.kind == 1).map(|mark| mark.place).collect();
        places.sort_unstable();
        places.dedup();
        places
    }

    #[test]
    fn every_rule_is_broken_at_the_first_a_middle_and_the_last_record() {
        for mark in FIRST_RULE..=LAST_RULE {
            let count = SetDraft::accepted().records(files_read(mark)[0]).len();
            let places = match mark {
                // Six records of its own outline, the parents at odd places.
                80 => vec![1, 3, 5],
                20..=35 => places_from(1, count),
                _ => places(count),
            };
            let expected: Vec<u32> = places.iter().map(|at| *at as u32 + 1).collect();
            assert_eq!(broken_places(mark), expected, "mark {mark}");
        }
    }
}
