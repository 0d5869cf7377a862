//! The sentence beside a mark that doesn't hold: what is wrong, and what to do
//! about it. Each family of rules has its own words here.

use crate::board::Mark;
use crate::bundle::file_part;
use crate::fields::{Enumeration, ENUMERATION_VALUES, FILE_NAMES};
use crate::reason::{Reason, Shown};
use crate::rules::BASELINE_FIELDS;
use crate::table::{is_singleton, FILE_TYPE, MOST_RECORDS};

/// A longer value is cut.
pub const LONGEST_VALUE: usize = 80;

/// The sentence of that mark of the bundle, for its reason; empty if it holds.
pub fn sentence(bundle: &[u8], mark: usize, reason: &Reason) -> String {
    match *reason {
        Reason::Refused(_) | Reason::Holds => String::new(),
        Reason::NotJudged { file } => {
            format!("Not judged, since {} does not hold. Mend that file first.", file_name(file))
        }
        Reason::OwnMark(own) => of_own_mark(mark, file_part(bundle, mark), own),
        Reason::Broken(shown) => of_broken(mark, &Words::new(bundle, shown)),
        Reason::Missing { shown, searched } => {
            of_missing(mark, &Words::new(bundle, shown), searched)
        }
    }
}

/// The folder's line for so many marks that one file keeps from being judged.
pub fn kept_from_judgement(file: usize, marks: usize) -> String {
    let which = match marks {
        1 => "1 mark which reads it was".to_string(),
        _ => format!("{marks} marks which read it were"),
    };
    format!("{} does not hold, so that {which} not judged. Mend that file first.", file_name(file))
}

pub fn file_name(number: usize) -> String {
    match number {
        0 => FILE_NAMES[0].to_string(),
        table => format!("{}.json", FILE_NAMES[table]),
    }
}

// ------------------------------------------------------- a file's own mark

/// A place in a file as an editor shows it, both counted from 1.
pub(crate) fn line_and_column(contents: &[u8], place: usize) -> String {
    let before = std::str::from_utf8(&contents[..place]).expect("the first fault stands behind");
    let line = before.split('\n').count();
    let last = before.rsplit('\n').next().unwrap_or(before);
    let column = 1 + last.chars().count();
    format!("line {line}, column {column}")
}

fn of_own_mark(number: usize, contents: &[u8], own: Mark) -> String {
    let name = file_name(number);
    match own.kind {
        21 => return format!("{name} is missing. Add it; a set must have it."),
        22 => {
            return format!(
                "{name} does not consist of the {} bytes {}. Write these alone, with no line feed, \
                space or byte order mark.",
                FILE_TYPE.len(),
                String::from_utf8_lossy(FILE_TYPE)
            )
        }
        _ => {}
    }
    let place = line_and_column(contents, own.place as usize);
    let fault = fault_at_place(own.kind);
    match own.companion {
        0 => format!("{name} {place}: {fault}"),
        record => format!("{name} {place}, record {record}: {fault}"),
    }
}

pub(crate) fn fault_at_place(kind: u32) -> String {
    let fixed = match kind {
        10 => "the text is not UTF-8 here. Save the file in UTF-8.",
        11 => {
            "no JSON text goes on like this. Look for a comma, quote or bracket too many or too \
            few, a comment, a byte order mark, or a file that was cut off."
        }
        12 => return misplaced_value(),
        13 => {
            "the name that starts here is no field of this table. Write names as the format has \
            them, capitals included, or take this one out."
        }
        14 => "this name stands in the record a second time. Take one of the two out.",
        15 => {
            "the value that starts here is of the wrong kind for its field. Write text and dates \
            in quotes, numbers without, and true or false for yes or no."
        }
        17 => {
            "this is no date. Write year, month and day as in 2026-01-31, a day that the month has."
        }
        18 => {
            "the number is outside the limits. It may have 15 digits, zeros at the end not \
            counted, and a power of ten from -15 to 15; a whole number is at most 999999999999999 \
            either way."
        }
        19 => {
            "the record that ends here lacks a mandatory value, or has it null or empty. Give each \
            mandatory field of this table its value."
        }
        20 => {
            return format!(
            "record {} starts here. A file may have {MOST_RECORDS} records; take the others out.",
            MOST_RECORDS + 1
        )
        }
        30 => "a control character that is barred. Take it out.",
        31 => {
            "a space that may not be here. Leave single spaces inside the text, none at its ends, \
            and no tab, line break or other kind of space."
        }
        32 => {
            "a character that no ID may have. Use letters without accents, digits, spaces and the \
            signs of a plain keyboard."
        }
        33 => "half of a surrogate pair. Write the whole character, or both halves.",
        34 => "this number must be whole. Write it without a fraction.",
        _ => panic!("no file's own mark has kind {kind}"),
    };
    fixed.to_string()
}

fn misplaced_value() -> String {
    let singletons: Vec<&str> = (1..FILE_NAMES.len())
        .filter(|number| is_singleton(*number))
        .map(|number| FILE_NAMES[number])
        .collect();
    format!(
        "the value that starts here does not belong here. {} are one object in braces each; every \
        other file is an array of objects.",
        listed(&singletons, "and")
    )
}

// ---------------------------------------------------------- broken rules

/// What a reason shows, in words.
struct Words {
    /// The table, and the record of one that has several.
    place: String,
    field: &'static str,
    /// `null` where there is none.
    value: String,
    /// The record that goes with it, or `none`.
    companion: String,
}

impl Words {
    fn new(bundle: &[u8], shown: Shown) -> Words {
        let table = FILE_NAMES[shown.file];
        Words {
            place: match is_singleton(shown.file) {
                true => table.to_string(),
                false => format!("{table} record {}", shown.record),
            },
            field: shown.field_name(),
            value: cut(std::str::from_utf8(shown.value(bundle)).expect("a readable file is UTF-8")),
            companion: match shown.companion {
                0 => "none".to_string(),
                record => format!("record {record}"),
            },
        }
    }

    /// How most sentences begin.
    fn field_with_value(&self) -> String {
        format!("{}: {} {}", self.place, self.field, self.value)
    }
}

/// The value, or of a long one as many whole characters as fit, with dots
/// behind. As it is one JSON token without raw control bytes, a line stays a
/// line.
pub(crate) fn cut(value: &str) -> String {
    if value.is_empty() {
        return "null".to_string();
    }
    if value.len() <= LONGEST_VALUE {
        return value.to_string();
    }
    let mut kept = String::new();
    for character in value.chars() {
        if kept.len() + character.len_utf8() > LONGEST_VALUE {
            break;
        }
        kept.push(character);
    }
    kept + "..."
}

/// `A, B and C`.
pub(crate) fn listed(words: &[&str], last: &str) -> String {
    let (end, front) = words.split_last().expect("there is a word");
    format!("{} {last} {end}", front.join(", "))
}

fn of_broken(mark: usize, words: &Words) -> String {
    match mark {
        20..=35 => of_repeated_key(mark, words),
        36..=47 => of_unknown_value(mark, words),
        67 | 73 | 74 => of_lacking_record(mark, words),
        78..=80 => of_outline(mark, words),
        _ => of_record_by_itself(mark, words),
    }
}

fn of_repeated_key(mark: usize, words: &Words) -> String {
    let other = &words.companion;
    let rest = match mark {
        20 | 27 | 33 => format!(
            "is defined in {other} already. Define a custom field once; take one of the two \
            records out."
        ),
        21 => format!(
            "has its value in {other} already. Give a custom field of the project one value; take \
            one of the two records out."
        ),
        22 => same_id(other, "calendar"),
        25 => same_id(other, "task"),
        32 => same_id(other, "resource"),
        23 => format!(
            "stands with the same Ordinal in {other} already; without one it counts as 0. Give \
            each workshift of a calendar an Ordinal of its own."
        ),
        24 => format!(
            "has an exception on the same ExceptionDate in {other} already. Give a calendar one \
            exception for a day."
        ),
        26 => format!(
            "has schedule data in {other} already. Give each task one record of schedule data."
        ),
        28 => two_values(other, "task"),
        34 => two_values(other, "resource"),
        29 => format!(
            "has a constraint of the same ConstraintTypeID in {other} already. Give a task one \
            constraint of each type."
        ),
        30 => format!(
            "has a link to the same SuccessorTaskID of the same RelationshipTypeID in {other} \
            already. Take one of the two links out."
        ),
        31 => format!("stands in {other} already. Give each task one place in the outline."),
        35 => format!(
            "is assigned to the same TaskID in {other} already. Make one assignment of the two."
        ),
        _ => panic!("mark {mark} is of no key"),
    };
    format!("{} {rest}", words.field_with_value())
}

pub(crate) fn same_id(other: &str, thing: &str) -> String {
    format!(
        "is that of {other} too; capital and small letters count as the same. Give each {thing} an \
        ID of its own."
    )
}

fn two_values(other: &str, owner: &str) -> String {
    format!(
        "has a value for the same CustomFieldID in {other} already. Give a {owner} one value for \
        each custom field."
    )
}

fn of_unknown_value(mark: usize, words: &Words) -> String {
    use Enumeration::*;
    let (thing, values) = match mark {
        36 => ("type of code", ContractorIDCodeType),
        37 => ("unit of duration", DurationUnits),
        39 => ("type of task", TaskType),
        40 => ("subtype of task", TaskSubtype),
        41 => ("planning level", TaskPlanningLevel),
        42 => ("earned value technique", EarnedValueTechnique),
        44 => ("type of constraint", TaskConstraintType),
        45 => ("type of link", TaskRelationshipType),
        46 => ("element of cost", ElementOfCost),
        38 | 43 | 47 => ("custom field", CustomField),
        _ => panic!("mark {mark} is of no enumeration"),
    };
    let all: Vec<&str> = ENUMERATION_VALUES
        .iter()
        .filter(|(of, _)| *of == values)
        .map(|(_, value)| *value)
        .collect();
    let choice = match values {
        CustomField => format!("one of {}, {} and so on up to {}", all[0], all[1], all[9]),
        // It may well be meant to have none.
        TaskSubtype => format!("{}, or leave it out", listed(&all, "or")),
        _ => listed(&all, "or"),
    };
    format!("{} is no {thing}. Write {choice}.", words.field_with_value())
}

fn of_missing(mark: usize, words: &Words, searched: usize) -> String {
    let (id, advice) = match searched {
        4 | 11 | 17 => ("CustomFieldID", "Define it there, or take the value out"),
        6 => ("ID", "Add that calendar, or name one that is there"),
        16 => ("ID", of_missing_resource(mark)),
        _ => ("ID", of_missing_task(mark)),
    };
    let table = FILE_NAMES[searched];
    format!("{} is not the {id} of any record in {table}. {advice}.", words.field_with_value())
}

fn of_missing_resource(mark: usize) -> &'static str {
    match mark {
        61 => "Add that resource, or take its value out",
        _ => "Add that resource, or take the assignment out",
    }
}

fn of_missing_task(mark: usize) -> &'static str {
    match mark {
        51 => "Add that task, or take its schedule data out",
        53 => "Add that task, or take its value out",
        55 => "Add that task, or take its constraint out",
        56 | 57 => "Add that task, or take the link out",
        59 => "Add that task, or take it out of the outline",
        60 => "Add that task, or name the parent that is there",
        _ => "Add that task, or take the assignment out",
    }
}

fn of_lacking_record(mark: usize, words: &Words) -> String {
    let rest = match mark {
        67 => {
            "is the CalendarID of no record in CalendarWorkshifts. Give each calendar a workshift."
        }
        73 => "is the TaskID of no record in TaskScheduleData. Give each task its schedule data.",
        _ => {
            "is that of a SUMMARY task and the TaskID of no record in TaskOutlineStructure. Put \
            each SUMMARY task into the outline."
        }
    };
    format!("{} {rest}", words.field_with_value())
}

fn of_record_by_itself(mark: usize, words: &Words) -> String {
    let Words { place, field, value, .. } = words;
    let rest = match mark {
        69 => {
            return format!(
                "{place}: no day from SundayWorkHours to SaturdayWorkHours has hours above zero; \
                {field} is {value}. Give a day its hours."
            )
        }
        71 => {
            return format!(
                "{place}: {field} is not given, and TaskTypeID is ACTIVITY. Give each activity its \
                planning level."
            )
        }
        75 => {
            let all = listed(&BASELINE_FIELDS, "and");
            return format!(
                "{place}: {field} is not given, but others of the five baseline and variance \
                fields are. Give all of {all}, or none."
            );
        }
        77 => {
            return format!(
                "{place}: {field} is not given. Give the date; only the types \
                AS_LATE_AS_POSSIBLE and OTHER may go without one."
            )
        }
        65 => {
            "is given without a ContractorIDCodeTypeID. Give the type of the code, or take the \
            code out."
        }
        66 => {
            "is given though EVMSAccepted is not true. Set EVMSAccepted to true, or take the date \
            out."
        }
        68 | 70 => "is below zero. Give hours of 0 or more.",
        72 => {
            "is given, but EarnedValueTechniqueID is neither OTHER_DISCRETE nor FIXED_X_Y. Take it \
            out, or correct the technique."
        }
        76 => "is given, but ConstraintTypeID is not OTHER. Take it out, or correct the type.",
        _ => panic!("mark {mark} isn't of one record by itself"),
    };
    format!("{} {rest}", words.field_with_value())
}

fn of_outline(mark: usize, words: &Words) -> String {
    let Words { place, field, value, companion } = words;
    match mark {
        78 => format!(
            "{place}: {field} {value} does not fit. The first record has {field} 1; each later one \
            has at least 1 and at most one more than the record before."
        ),
        79 => format!(
            "{place}: {field} is {value}, and the parent by Level is {companion}. A record of \
            Level 1 has no {field}; any other has the TaskID of its parent, the nearest earlier \
            record of lower Level."
        ),
        _ => format!(
            "{place}: no SUMMARY task has the TaskID of the parent by Level, {companion}; {field} \
            is {value}. Make the parent's task one of type SUMMARY."
        ),
    }
}
