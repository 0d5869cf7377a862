//! Marks 20 to 80: what each rule reads and where it is broken.

use std::cmp::Ordering;
use std::collections::hash_map::Entry;
use std::collections::{HashMap, HashSet};

use crate::board::{broken_at, Mark, HOLDS, NOT_JUDGED};
use crate::fields::{is_value_of, Enumeration};
use crate::json::Date;
use crate::table::{Reading, Record, Value};

pub const FIRST_RULE: usize = 20;
pub const LAST_RULE: usize = 80;

/// A rule by its shape. The table named first is the one whose records count.
pub(crate) enum Rule {
    /// No record has the key of an earlier one.
    Key {
        file: usize,
        fields: &'static [&'static str],
    },
    /// The field is null or a value of the enumeration.
    OneOf {
        file: usize,
        field: &'static str,
        values: Enumeration,
    },
    /// The field is null or the ID of some record of the other table.
    Target {
        file: usize,
        field: &'static str,
        other: usize,
        other_field: &'static str,
    },
    /// Each record of `file` that counts has a record in the other table.
    HasOne {
        file: usize,
        counts: fn(&Record) -> bool,
        other: usize,
        other_field: &'static str,
    },
    /// No record by itself is wrong.
    Each {
        file: usize,
        wrong: fn(&Record) -> bool,
    },
    /// 78, 79 and 80.
    LevelRun,
    ParentGiven,
    ParentIsSummary,
}

use Enumeration::*;

pub(crate) fn rule(number: usize) -> Rule {
    match number {
        20..=35 => Rule::Key { file: number - 16, fields: key_of(number - 16) },

        36 => one_of(1, "ContractorIDCodeTypeID", ContractorIDCodeType),
        37 => one_of(3, "DurationUnitsID", DurationUnits),
        38 => one_of(4, "CustomFieldID", CustomField),
        39 => one_of(9, "TaskTypeID", TaskType),
        40 => one_of(9, "TaskSubtypeID", TaskSubtype),
        41 => one_of(9, "TaskPlanningLevelID", TaskPlanningLevel),
        42 => one_of(9, "EarnedValueTechniqueID", EarnedValueTechnique),
        43 => one_of(11, "CustomFieldID", CustomField),
        44 => one_of(13, "ConstraintTypeID", TaskConstraintType),
        45 => one_of(14, "RelationshipTypeID", TaskRelationshipType),
        46 => one_of(16, "ElementOfCostID", ElementOfCost),
        47 => one_of(17, "CustomFieldID", CustomField),

        48 => target(5, "CustomFieldID", 4, "CustomFieldID"),
        49 => target(7, "CalendarID", 6, "ID"),
        50 => target(8, "CalendarID", 6, "ID"),
        51 => target(10, "TaskID", 9, "ID"),
        52 => target(10, "CalendarID", 6, "ID"),
        53 => target(12, "TaskID", 9, "ID"),
        54 => target(12, "CustomFieldID", 11, "CustomFieldID"),
        55 => target(13, "TaskID", 9, "ID"),
        56 => target(14, "PredecessorTaskID", 9, "ID"),
        57 => target(14, "SuccessorTaskID", 9, "ID"),
        58 => target(14, "LagCalendarID", 6, "ID"),
        59 => target(15, "TaskID", 9, "ID"),
        60 => target(15, "ParentTaskID", 9, "ID"),
        61 => target(18, "ResourceID", 16, "ID"),
        62 => target(18, "CustomFieldID", 17, "CustomFieldID"),
        63 => target(19, "ResourceID", 16, "ID"),
        64 => target(19, "TaskID", 9, "ID"),

        65 => Rule::Each { file: 1, wrong: has_code_without_type },
        66 => Rule::Each { file: 1, wrong: has_acceptance_date_unaccepted },
        67 => Rule::HasOne { file: 6, counts: |_| true, other: 7, other_field: "CalendarID" },
        68 => Rule::Each { file: 7, wrong: has_hours_below_zero },
        69 => Rule::Each { file: 7, wrong: has_no_hours_above_zero },
        70 => Rule::Each { file: 8, wrong: |record| is_below_zero(record, "WorkHours") },
        71 => Rule::Each { file: 9, wrong: is_activity_without_level },
        72 => Rule::Each { file: 9, wrong: has_needless_other_technique },
        73 => Rule::HasOne { file: 9, counts: |_| true, other: 10, other_field: "TaskID" },
        74 => Rule::HasOne { file: 9, counts: is_summary, other: 15, other_field: "TaskID" },
        75 => Rule::Each { file: 10, wrong: has_part_of_a_baseline },
        76 => Rule::Each { file: 13, wrong: has_needless_other_constraint },
        77 => Rule::Each { file: 13, wrong: lacks_constraint_date },
        78 => Rule::LevelRun,
        79 => Rule::ParentGiven,
        80 => Rule::ParentIsSummary,
        _ => panic!("rules are numbered 20 to 80"),
    }
}

fn one_of(file: usize, field: &'static str, values: Enumeration) -> Rule {
    Rule::OneOf { file, field, values }
}

fn target(file: usize, field: &'static str, other: usize, other_field: &'static str) -> Rule {
    Rule::Target { file, field, other, other_field }
}

/// The primary keys of files 4 to 19.
pub(crate) fn key_of(file: usize) -> &'static [&'static str] {
    match file {
        4 | 5 | 11 | 17 => &["CustomFieldID"],
        6 | 9 | 16 => &["ID"],
        7 => &["CalendarID", "Ordinal"],
        8 => &["CalendarID", "ExceptionDate"],
        10 | 15 => &["TaskID"],
        12 => &["TaskID", "CustomFieldID"],
        13 => &["TaskID", "ConstraintTypeID"],
        14 => &["PredecessorTaskID", "SuccessorTaskID", "RelationshipTypeID"],
        18 => &["ResourceID", "CustomFieldID"],
        19 => &["ResourceID", "TaskID"],
        _ => panic!("only files 4 to 19 have a key"),
    }
}

/// The files a rule reads, the table named first before the other.
pub fn files_read(number: usize) -> Vec<usize> {
    match rule(number) {
        Rule::Key { file, .. } | Rule::OneOf { file, .. } | Rule::Each { file, .. } => vec![file],
        Rule::Target { file, other, .. } | Rule::HasOne { file, other, .. } => vec![file, other],
        Rule::LevelRun | Rule::ParentGiven => vec![15],
        Rule::ParentIsSummary => vec![15, 9],
    }
}

/// The rule's mark. `reading_of` gives the reading of each file it reads.
pub fn judge_rule<'a>(number: usize, reading_of: impl Fn(usize) -> &'a Reading) -> Mark {
    let mut tables: Vec<&[Record]> = Vec::new();
    for file in files_read(number) {
        match reading_of(file) {
            Ok(records) => tables.push(records),
            Err(_) => return NOT_JUDGED,
        }
    }
    match first_breaking(&rule(number), &tables) {
        Some(Broken { at, companion }) => broken_at(at + 1, companion.map_or(0, |index| index + 1)),
        None => HOLDS,
    }
}

/// Where the rule is broken, for a gate that has these rules among others.
/// `tables` holds the records of the files read, in the order of `files_read`.
pub(crate) fn breaking(number: usize, tables: &[&[Record]]) -> Option<crate::gates::Broken> {
    let Broken { at, companion } = first_breaking(&rule(number), tables)?;
    let companion = companion.map_or(0, |index| index + 1);
    Some(crate::gates::Broken { record: at + 1, companion })
}

/// The file in which a rule of 48 to 64 looks for its target.
pub(crate) fn searched(number: usize) -> Option<usize> {
    match rule(number) {
        Rule::Target { other, .. } => Some(other),
        _ => None,
    }
}

/// The index of a breaking record, and of the one that is named with it.
#[derive(Clone, Copy, Debug, PartialEq, Eq)]
struct Broken {
    at: usize,
    companion: Option<usize>,
}

impl Broken {
    /// By itself, or by what another table lacks: no record is named with it.
    fn alone(at: usize) -> Broken {
        Broken { at, companion: None }
    }
}

/// The first breaking record. `tables` holds the records of the files read, in
/// the order of `files_read`.
fn first_breaking(rule: &Rule, tables: &[&[Record]]) -> Option<Broken> {
    match *rule {
        Rule::Key { fields, .. } => first_repeated_key(tables[0], fields),
        Rule::ParentGiven => first_wrong_parent(tables[0]),
        Rule::ParentIsSummary => first_child_of_no_summary(tables[0], tables[1]),
        _ => first_breaking_alone(rule, tables).map(Broken::alone),
    }
}

/// The index of the first breaking record, for the rules that name no other.
fn first_breaking_alone(rule: &Rule, tables: &[&[Record]]) -> Option<usize> {
    let records = tables[0];
    match *rule {
        Rule::OneOf { field, values, .. } => records
            .iter()
            .position(|record| record.id(field).map_or(false, |id| !is_value_of(values, &id))),
        Rule::Target { field, other_field, .. } => {
            let ids = ids_of(tables[1], other_field);
            records
                .iter()
                .position(|record| record.id(field).map_or(false, |id| !ids.contains(&id)))
        }
        Rule::HasOne { counts, other_field, .. } => {
            let ids = ids_of(tables[1], other_field);
            records.iter().position(|record| {
                counts(record) && record.id("ID").map_or(false, |id| !ids.contains(&id))
            })
        }
        Rule::Each { wrong, .. } => records.iter().position(wrong),
        Rule::LevelRun => first_wrong_level(records),
        Rule::Key { .. } | Rule::ParentGiven | Rule::ParentIsSummary => {
            unreachable!("these name another record")
        }
    }
}

fn ids_of(records: &[Record], field: &str) -> HashSet<String> {
    records.iter().filter_map(|record| record.id(field)).collect()
}

// ------------------------------------------------------------------ keys

/// A key value as it is compared: IDs folded, integers and dates by value.
#[derive(PartialEq, Eq, Hash)]
enum KeyPart {
    Id(String),
    Integer(i64),
    Date(Date),
}

/// With the earliest record of the same key.
fn first_repeated_key(records: &[Record], fields: &[&str]) -> Option<Broken> {
    let mut first_with: HashMap<Vec<KeyPart>, usize> = HashMap::new();
    for (at, record) in records.iter().enumerate() {
        let key = fields.iter().map(|field| key_part(record, field)).collect();
        match first_with.entry(key) {
            Entry::Occupied(first) => return Some(Broken { at, companion: Some(*first.get()) }),
            Entry::Vacant(free) => drop(free.insert(at)),
        }
    }
    None
}

/// Ordinal is the only key field that can be null, and a null Ordinal is 0.
fn key_part(record: &Record, field: &str) -> KeyPart {
    match record.value(field) {
        None => KeyPart::Integer(0),
        Some(Value::Text(text)) => KeyPart::Id(text.to_ascii_lowercase()),
        Some(Value::Integer(integer)) => KeyPart::Integer(*integer),
        Some(Value::Date(date)) => KeyPart::Date(*date),
        Some(Value::Boolean(_) | Value::Decimal(_)) => unreachable!("no key has such a field"),
    }
}

// -------------------------------------------------------- single records

fn id_is(record: &Record, field: &str, values: &[&str]) -> bool {
    record.id(field).map_or(false, |id| values.iter().any(|value| value.eq_ignore_ascii_case(&id)))
}

fn has_code_without_type(record: &Record) -> bool {
    !record.is_null("ContractorIDCode") && record.is_null("ContractorIDCodeTypeID")
}

fn has_acceptance_date_unaccepted(record: &Record) -> bool {
    !record.is_null("EVMSAcceptanceDate") && !record.is_true("EVMSAccepted")
}

const DAYS_HOURS: [&str; 7] = [
    "SundayWorkHours",
    "MondayWorkHours",
    "TuesdayWorkHours",
    "WednesdayWorkHours",
    "ThursdayWorkHours",
    "FridayWorkHours",
    "SaturdayWorkHours",
];

fn has_sign(record: &Record, field: &str, sign: Ordering) -> bool {
    record.decimal(field).map_or(false, |number| number.sign() == sign)
}

fn is_below_zero(record: &Record, field: &str) -> bool {
    has_sign(record, field, Ordering::Less)
}

fn has_hours_below_zero(record: &Record) -> bool {
    DAYS_HOURS.iter().any(|field| is_below_zero(record, field))
}

fn has_no_hours_above_zero(record: &Record) -> bool {
    !DAYS_HOURS.iter().any(|field| has_sign(record, field, Ordering::Greater))
}

fn is_summary(record: &Record) -> bool {
    id_is(record, "TaskTypeID", &["SUMMARY"])
}

fn is_activity_without_level(record: &Record) -> bool {
    id_is(record, "TaskTypeID", &["ACTIVITY"]) && record.is_null("TaskPlanningLevelID")
}

fn has_needless_other_technique(record: &Record) -> bool {
    !record.is_null("OtherEarnedValueTechnique")
        && !id_is(record, "EarnedValueTechniqueID", &["OTHER_DISCRETE", "FIXED_X_Y"])
}

/// The five baseline and variance fields.
pub(crate) const BASELINE_FIELDS: [&str; 5] = [
    "BaselineDuration",
    "BaselineStartDate",
    "BaselineFinishDate",
    "StartVarianceDuration",
    "FinishVarianceDuration",
];

fn has_part_of_a_baseline(record: &Record) -> bool {
    let nulls = BASELINE_FIELDS.iter().filter(|field| record.is_null(field)).count();
    nulls != 0 && nulls != BASELINE_FIELDS.len()
}

fn has_needless_other_constraint(record: &Record) -> bool {
    !record.is_null("OtherConstraintType") && !id_is(record, "ConstraintTypeID", &["OTHER"])
}

fn lacks_constraint_date(record: &Record) -> bool {
    record.is_null("ConstraintDate")
        && !id_is(record, "ConstraintTypeID", &["AS_LATE_AS_POSSIBLE", "OTHER"])
}

// --------------------------------------------------------------- outline

fn levels(outline: &[Record]) -> Vec<i64> {
    let level = |record: &Record| record.integer("Level");
    outline
        .iter()
        .map(|record| level(record).expect("a readable outline gives every Level"))
        .collect()
}

fn first_wrong_level(outline: &[Record]) -> Option<usize> {
    let levels = levels(outline);
    (0..levels.len()).find(|&index| {
        let here = levels[index];
        if index == 0 {
            here != 1
        } else {
            here < 1 || here > levels[index - 1] + 1
        }
    })
}

/// The nearest earlier record of lower Level, however the levels run.
fn parent_of(levels: &[i64], index: usize) -> Option<usize> {
    levels[..index].iter().rposition(|level| *level < levels[index])
}

/// With the parent that should have been given, if there is one; at Level 1
/// there is none, whatever stands before.
fn first_wrong_parent(outline: &[Record]) -> Option<Broken> {
    let levels = levels(outline);
    (0..outline.len()).find_map(|at| {
        let given = outline[at].id("ParentTaskID");
        if levels[at] == 1 {
            return given.is_some().then(|| Broken::alone(at));
        }
        let companion = parent_of(&levels, at);
        let is_right = companion.map_or(false, |parent| given == outline[parent].id("TaskID"));
        (!is_right).then_some(Broken { at, companion })
    })
}

/// With the parent that is no SUMMARY.
fn first_child_of_no_summary(outline: &[Record], tasks: &[Record]) -> Option<Broken> {
    let levels = levels(outline);
    let summaries: HashSet<String> =
        tasks.iter().filter(|task| is_summary(task)).filter_map(|task| task.id("ID")).collect();
    let is_summary_record =
        |index: usize| outline[index].id("TaskID").map_or(false, |id| summaries.contains(&id));
    (0..outline.len()).filter(|at| levels[*at] != 1).find_map(|at| {
        let parent = parent_of(&levels, at)?;
        (!is_summary_record(parent)).then_some(Broken { at, companion: Some(parent) })
    })
}

#[cfg(test)]
mod tests {
    use super::*;

    #[test]
    fn the_parent_is_the_nearest_earlier_record_of_lower_level() {
        let parents = |levels: &[i64]| -> Vec<Option<usize>> {
            (0..levels.len()).map(|index| parent_of(levels, index)).collect()
        };
        assert_eq!(parents(&[1, 2, 3, 3, 2]), [None, Some(0), Some(1), Some(1), Some(0)]);
        // A broken run: the parent need not be one level up, nor the row above.
        assert_eq!(parents(&[1, 4, 4, 3, 0, 1]), [None, Some(0), Some(0), Some(0), None, Some(4)]);
    }

    #[test]
    fn the_rules_read_the_files_of_their_lines() {
        let pairs: Vec<usize> =
            (FIRST_RULE..=LAST_RULE).filter(|rule| files_read(*rule).len() == 2).collect();
        let expected: Vec<usize> = (48..=64).chain([67, 73, 74, 80]).collect();
        assert_eq!(pairs, expected);
        assert_eq!(files_read(80), [15, 9]);
    }
}
