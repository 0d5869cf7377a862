//! The sentences of a gate's marks. Those of the schedule gate stay as they are;
//! the baseline profile has four more, the contract side its own.

use super::layout::look_up;
use super::Gate;
use crate::board::Mark;
use crate::contract::{OBS, WBS};
use crate::reason::{Reason, Shown};
use crate::rules::{BASELINE_FIELDS, LAST_RULE};
use crate::sentence::{self, cut, fault_at_place, line_and_column, listed, same_id};

const NOT_A_TABLE: u32 = 12;

/// The sentence of that mark of the bundle, for its reason; empty if it holds.
pub fn sentence(gate: &Gate, bundle: &[u8], mark: usize, reason: &Reason) -> String {
    let is_contract = gate.files == crate::contract::CONTRACT.files;
    match *reason {
        Reason::Refused(_) | Reason::Holds => String::new(),
        Reason::NotJudged { file } => {
            let name = file_name(gate, file);
            format!("Not judged, since {name} does not hold. Mend that file first.")
        }
        Reason::OwnMark(own) if is_contract => {
            of_own_mark(&file_name(gate, mark), look_up(gate, bundle, mark).1, own)
        }
        Reason::Broken(shown) if is_contract => of_broken(mark, &Words::new(gate, bundle, shown)),
        Reason::Missing { shown, searched } if is_contract => {
            let words = Words::new(gate, bundle, shown);
            of_missing(mark, &words, gate.file_names[searched])
        }
        Reason::Broken(shown) if mark > LAST_RULE => {
            of_profile(mark, &Words::new(gate, bundle, shown))
        }
        _ => sentence::sentence(bundle, mark, reason),
    }
}

/// The folder's line for so many marks that one file keeps from being judged.
pub fn kept_from_judgement(gate: &Gate, file: usize, marks: usize) -> String {
    let which = match marks {
        1 => "1 mark which reads it was".to_string(),
        _ => format!("{marks} marks which read it were"),
    };
    let name = file_name(gate, file);
    format!("{name} does not hold, so that {which} not judged. Mend that file first.")
}

/// All are tables but the one whose name has its ending already.
fn file_name(gate: &Gate, file: usize) -> String {
    match gate.file_names[file] {
        name if name.contains('.') => name.to_string(),
        name => format!("{name}.json"),
    }
}

/// What a reason shows, in words.
struct Words {
    place: String,
    field: &'static str,
    value: String,
    companion: String,
}

impl Words {
    fn new(gate: &Gate, bundle: &[u8], shown: Shown) -> Words {
        let value = std::str::from_utf8(shown.value(bundle)).expect("a readable file is UTF-8");
        Words {
            place: format!("{} record {}", gate.file_names[shown.file], shown.record),
            field: (gate.fields)(shown.file)[shown.field].name,
            value: cut(value),
            companion: match shown.companion {
                0 => "none".to_string(),
                record => format!("record {record}"),
            },
        }
    }

    fn field_with_value(&self) -> String {
        format!("{}: {} {}", self.place, self.field, self.value)
    }
}

fn of_profile(mark: usize, words: &Words) -> String {
    let rest = match mark {
        81 => {
            let all = listed(&BASELINE_FIELDS, "and");
            return format!(
                "{}: {} is not given. A baseline gives each record all of {all}.",
                words.place, words.field
            );
        }
        82 => {
            "is given, but a baseline has no progress in it. Take ActualStartDate and \
            ActualFinishDate out."
        }
        83 => "is after BaselineFinishDate. Correct one of the two; they may be the same day.",
        84 => {
            "is given, but a baseline has no progress in it; 0 counts as given too. Take \
            Actual_ToDate_Dollars and Actual_ToDate_Hours out."
        }
        _ => panic!("mark {mark} isn't of the profile"),
    };
    format!("{} {rest}", words.field_with_value())
}

// ----------------------------------------------------------- contract side

fn of_own_mark(name: &str, contents: &[u8], own: Mark) -> String {
    let place = line_and_column(contents, own.place as usize);
    let fault = match own.kind {
        NOT_A_TABLE => "the value that starts here does not belong here. Each file of this set is \
                        an array of objects."
            .to_string(),
        kind => fault_at_place(kind),
    };
    match own.companion {
        0 => format!("{name} {place}: {fault}"),
        record => format!("{name} {place}, record {record}: {fault}"),
    }
}

fn of_missing(mark: usize, words: &Words, table: &str) -> String {
    let advice = match mark {
        8 => "Add that subcontractor, or name one that is there",
        9 | 10 => "Add that element, or name the parent that is there",
        _ => "Add that element, or name one that is there",
    };
    format!("{} is not the ID of any record in {table}. {advice}.", words.field_with_value())
}

fn of_broken(mark: usize, words: &Words) -> String {
    let Words { place, field, value, companion } = words;
    let things = ["subcontractor", "WBS element", "OBS element", "control account"];
    let names = crate::contract::CONTRACT.file_names;
    match mark {
        4..=7 => format!("{} {}", words.field_with_value(), same_id(companion, things[mark - 4])),
        13 | 14 => format!(
            "{place}: {field} {value} does not fit. The first record has {field} 1; each later one \
            has at least 2 and at most one more than the record before."
        ),
        15 | 16 => format!(
            "{place}: {field} is {value}, and the parent by Level is {companion}. The first record \
            has no {field}; any other has the ID of its parent, the nearest earlier record of \
            lower Level."
        ),
        17 | 18 => format!(
            "{} is the ID of an element in {} that has others below it. Name an element with none \
            below it.",
            words.field_with_value(),
            names[if mark == 17 { WBS } else { OBS }]
        ),
        _ => panic!("mark {mark} is broken by a missing target"),
    }
}
