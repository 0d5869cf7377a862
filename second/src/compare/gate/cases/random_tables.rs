//! Records at random, of values by which rules hold and break.

use crate::compare::draft::{quoted, Draft};
use crate::compare::gate::styles::{recased, renumbered, shuffle};
use crate::compare::random::Random;
use crate::fields::{fields_of, Enumeration, Field, Type, ENUMERATION_VALUES};
use crate::rules::{rule, Rule};
use crate::table::is_singleton;

/// A table of up to so many records; a singleton has one.
pub(super) fn random_records(table: usize, most: usize, random: &mut Random) -> Vec<Draft> {
    let count = if is_singleton(table) { 1 } else { random.below(most + 1) };
    match table {
        15 => random_outline(count, random),
        _ => (0..count).map(|_| random_record(table, random)).collect(),
    }
}

pub(super) fn random_record(table: usize, random: &mut Random) -> Draft {
    let baseline = random.below(4) == 0;
    let mut draft = Draft::default();
    for field in fields_of(table) {
        if field.nullable && !is_given(field, baseline, random) {
            continue;
        }
        draft.push(&quoted(field.name), &random_value(field, random));
    }
    if random.below(3) == 0 {
        shuffle(&mut draft.members, random);
    }
    draft
}

/// Fields that a rule asks about are given more often, the baseline mostly in
/// full or not at all.
fn is_given(field: &Field, baseline: bool, random: &mut Random) -> bool {
    match (field.table, field.name) {
        (10, name) if name.contains("Baseline") || name.contains("Variance") => {
            baseline != (random.below(12) == 0)
        }
        (7 | 8 | 13 | 14 | 15, _) => random.below(3) > 0,
        (1, name) if name.contains("EVMS") || name.contains("IDCode") => random.below(3) > 0,
        (9, name) if name.contains("Technique") || name.contains("PlanningLevel") => {
            random.below(3) > 0
        }
        _ => random.below(6) == 0,
    }
}

/// A value by which the file stays readable: good or null.
pub(super) fn random_value(field: &Field, random: &mut Random) -> Vec<u8> {
    if field.nullable && random.below(6) == 0 {
        return random_null(field.kind, random).to_vec();
    }
    match field.kind {
        Type::StringID => random_id(field, random),
        Type::Boolean => random.pick(&[&b"true"[..], b"false"]).to_vec(),
        Type::Date => quoted(random.pick(&DATES)),
        Type::Decimal => random.pick(&DECIMALS).to_vec(),
        Type::Integer => renumbered(random.pick(&INTEGERS), random),
        Type::String => quoted(random.pick(&STRINGS)),
        Type::Text => quoted(random.pick(&TEXTS)),
    }
}

pub(super) fn random_null(kind: Type, random: &mut Random) -> &'static [u8] {
    match kind {
        Type::String | Type::StringID | Type::Text => random.pick(&[&b"null"[..], b"\"\""]),
        Type::Boolean | Type::Date | Type::Decimal | Type::Integer => b"null",
    }
}

const STRINGS: [&str; 7] = ["x", "a b", "20/80", "\\u00e9", "ß", "\u{200b}", "\\u180E a"];

const TEXTS: [&str; 7] =
    ["x", " a  b ", "\\n", "\\uD83D\\uDE00", "Ä", "\u{a0}", "\\u2028 \u{3000}"];

const DATES: [&str; 5] = ["2020-12-25", "2020-12-26", "2020-02-29", "0001-01-01", "9999-12-31"];

const DECIMALS: [&[u8]; 20] = [
    b"0",
    b"0",
    b"-0",
    b"-0.0",
    b"0e3",
    b"1",
    b"8",
    b"4.5",
    b"-1",
    b"1e-15",
    b"-1e-15",
    b"-0e-5",
    b"999999999999999e15",
    b"-1E+2",
    b"8.0000000000000000",
    b"-0.000e-99",
    b"0E99999999999999999999",
    b"1000000000000000",
    b"0.0000000000000010",
    b"-100000000000000000e-32",
];

const INTEGERS: [&[u8]; 10] =
    [b"0", b"0", b"1", b"1", b"2", b"3", b"-1", b"10", b"999999999999999", b"-999999999999999"];

// ------------------------------------------------------------------ IDs

fn random_id(field: &Field, random: &mut Random) -> Vec<u8> {
    let word = match enumeration_of(field) {
        Some(enumeration) => random_word(enumeration, random),
        None => random.pick(ids_of(field)).to_string(),
    };
    recased(&quoted(&word), random)
}

/// The enumeration of the field by its rule, or by the table it points to.
fn enumeration_of(field: &Field) -> Option<Enumeration> {
    if field.name == "CustomFieldID" {
        return Some(Enumeration::CustomField);
    }
    (36..=47).find_map(|mark| match rule(mark) {
        Rule::OneOf { file, field: name, values } => {
            (file == field.table && name == field.name).then_some(values)
        }
        _ => None,
    })
}

/// Mostly one of few right values, so that equal ones meet; else any value,
/// or one cut short or longer.
fn random_word(enumeration: Enumeration, random: &mut Random) -> String {
    let own: Vec<&str> = ENUMERATION_VALUES
        .iter()
        .filter(|(of, _)| *of == enumeration)
        .map(|(_, value)| *value)
        .collect();
    let word = random.pick(&own);
    match random.below(20) {
        0 => ENUMERATION_VALUES[random.below(ENUMERATION_VALUES.len())].1.to_string(),
        1 => word[..1 + random.below(word.len())].to_string(),
        2 => format!("{word}{}", random.pick(&["X", "_", "1"])),
        3..=6 => own[random.below(own.len().min(3))].to_string(),
        7..=10 => random_word_that_rules_name(&own, random),
        _ => word.to_string(),
    }
}

/// The values that rules 71 to 77 and 80 ask for.
fn random_word_that_rules_name(own: &[&str], random: &mut Random) -> String {
    let named = [
        "ACTIVITY",
        "SUMMARY",
        "FIXED_X_Y",
        "OTHER_DISCRETE",
        "OTHER",
        "AS_LATE_AS_POSSIBLE",
        "FIELD_03",
        "FIELD_10",
    ];
    let among: Vec<&str> = own.iter().filter(|word| named.contains(word)).copied().collect();
    random.pick(if among.is_empty() { own } else { &among }).to_string()
}

const TASK_IDS: [&str; 12] =
    ["S1", "S2", "T1", "T2", "T3", "T/4 b", "S1", "T1", "T", "T1 1", "T@", "T`"];

/// IDs of the accepted set, and some near them.
fn ids_of(field: &Field) -> &'static [&'static str] {
    match (field.table, field.name) {
        (6, "ID") | (_, "CalendarID" | "LagCalendarID") => {
            &["C1", "C2", "C4", "C1", "C2", "C", "C1 1", "@c", "`C"]
        }
        (16, "ID") | (_, "ResourceID") => {
            &["ENG-01", "MAT-01", "Yard/\\\"7\\\"", "ENG-01", "R[", "R{", "ENG-1"]
        }
        (9, "ID") => &TASK_IDS,
        (_, name) if name.contains("TaskID") => &TASK_IDS,
        _ => &["X", "y z"],
    }
}

// -------------------------------------------------------------- outline

/// Levels that mostly run as they should, with parents mostly right.
pub(super) fn random_outline(count: usize, random: &mut Random) -> Vec<Draft> {
    let mut levels: Vec<i64> = Vec::new();
    let mut rows: Vec<Draft> = Vec::new();
    for at in 0..count {
        levels.push(random_level(levels.last().copied().unwrap_or(0), random));
        let level = renumbered(levels[at].to_string().as_bytes(), random);
        let id = recased(&quoted(random.pick(&TASK_IDS)), random);
        let row = Draft::default().with_value("Level", &level).with_value("TaskID", &id);
        let parent = levels[..at].iter().rposition(|level| *level < levels[at]);
        let parent = parent.filter(|_| levels[at] != 1).and_then(|at| rows[at].value("TaskID"));
        rows.push(with_random_parent(&row, parent, random));
    }
    rows
}

fn random_level(previous: i64, random: &mut Random) -> i64 {
    match random.below(10) {
        0 => random.pick(&[-1, 0, 1, 2, 3, 5, previous + 2]),
        1 => random.pick(&[999_999_999_999_999, -999_999_999_999_999, 1, 2, 3, 4, 1, 2]),
        _ => 1 + random.below((previous + 1).clamp(1, 6) as usize) as i64,
    }
    .clamp(-999_999_999_999_999, 999_999_999_999_999)
}

fn with_random_parent(row: &Draft, right: Option<&[u8]>, random: &mut Random) -> Draft {
    match random.below(14) {
        0 => row.with_value("ParentTaskID", &quoted(random.pick(&TASK_IDS))),
        1 => row.with_value("ParentTaskID", b"null"),
        2 => row.with_value("ParentTaskID", b"\"\""),
        _ => match right {
            Some(id) => row.with_value("ParentTaskID", &recased(id, random)),
            None => row.clone(),
        },
    }
}

#[cfg(test)]
mod tests {
    use super::*;
    use crate::compare::draft::text;
    use crate::table::read_file;

    #[test]
    fn random_tables_are_readable() {
        let mut random = Random::new(6);
        for table in 1..20 {
            for _ in 0..100 {
                let records = random_records(table, 4, &mut random);
                let reading = read_file(table, Some(&text(table, &records)));
                assert_eq!(reading.unwrap().len(), records.len());
            }
        }
    }
}
