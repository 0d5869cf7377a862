//! Values of a sentence around the length from which they are cut: for every
//! rule that shows one, and of characters of every width.

use super::Cases;
use crate::compare::draft::quoted;
use crate::compare::gate::cases::broken_sets;
use crate::compare::gate::set_draft::{FileDraft, SetDraft};
use crate::reason::{reason, Reason, Shown};
use crate::rules::{files_read, FIRST_RULE, LAST_RULE};

/// Both sides of the cut, and far beyond it.
const LENGTHS: [usize; 5] = [79, 80, 81, 82, 200];
const RANDOM_VALUES: usize = 50;

/// A character of each width.
const CHARACTERS: [char; 4] = ['x', '\u{e9}', '\u{4e16}', '\u{1f600}'];

pub(super) fn add(cases: &mut Cases) {
    for mark in FIRST_RULE..=LAST_RULE {
        let base = cases.only(&files_read(mark));
        if let Some((set, shown)) = shown_by(mark, &base) {
            add_lengths(cases, mark, &set, shown);
        }
    }
    for mark in STRING_MARKS {
        add_wide(cases, mark);
        for _ in 0..RANDOM_VALUES {
            add_random(cases, mark);
        }
    }
}

/// A set in which the rule is broken by a value, and what its reason shows.
fn shown_by(mark: usize, base: &SetDraft) -> Option<(SetDraft, Shown)> {
    let sets = match mark {
        // Its own outline stands there as bytes.
        80 => vec![base.with_value(9, 1, "TaskTypeID", Some(b"\"HAMMOCK\""))],
        _ => broken_sets(mark, base),
    };
    sets.into_iter().find_map(|set| {
        let is_draft = matches!(set.files[files_read(mark)[0]], FileDraft::Records(_));
        match reason(&set.bundle(), mark) {
            Reason::Broken(shown) | Reason::Missing { shown, .. }
                if is_draft && shown.length > 0 =>
            {
                Some((set, shown))
            }
            _ => None,
        }
    })
}

fn add_lengths(cases: &mut Cases, mark: usize, set: &SetDraft, shown: Shown) {
    for length in LENGTHS {
        cases.in_either(with_shown_value(mark, set, shown, &plain_value(mark, length)).bundle());
    }
    if !is_number(mark) && mark != 66 {
        for letters in [0, 3] {
            let value = quoted(&("x".repeat(letters) + &"\\u0041".repeat(20)));
            cases.in_either(with_shown_value(mark, set, shown, &value).bundle());
        }
    }
}

/// The value in the field shown. A key is in both of its records.
fn with_shown_value(mark: usize, set: &SetDraft, shown: Shown, value: &[u8]) -> SetDraft {
    let name = shown.field_name();
    let set = set.with_value(shown.file, shown.record - 1, name, Some(value));
    match mark {
        20..=35 => set.with_value(shown.file, shown.companion - 1, name, Some(value)),
        _ => set,
    }
}

fn is_number(mark: usize) -> bool {
    [68, 69, 70, 78].contains(&mark)
}

/// As many bytes, by which the rule stays broken.
fn plain_value(mark: usize, length: usize) -> Vec<u8> {
    let front = match mark {
        68 | 70 => "-1.",
        69 => "0.",
        78 => "9.",
        66 => return quoted("2020-01-01"),
        _ => return quoted(&"x".repeat(length - 2)),
    };
    format!("{front}{}", "0".repeat(length - front.len())).into_bytes()
}

// --------------------------------------------------------- wide characters

/// The rules that show a String: in an ID every character has one byte.
const STRING_MARKS: [usize; 3] = [65, 72, 76];

/// The rule broken by this value of its String, which stands alone.
fn broken_by(cases: &Cases, mark: usize, value: &str) -> Vec<u8> {
    let (file, contents) = match mark {
        65 => (
            1,
            format!(
                r#"{{"SecurityMarking":"U","ReportingPeriodEndDate":"2020-01-31","ContractorIDCode":"{value}"}}"#
            ),
        ),
        72 => (
            9,
            format!(
                r#"[{{"ID":"T","Name":"N","TaskTypeID":"HAMMOCK","OtherEarnedValueTechnique":"{value}"}}]"#
            ),
        ),
        _ => (
            13,
            format!(
                r#"[{{"TaskID":"T","ConstraintTypeID":"DEADLINE","OtherConstraintType":"{value}"}}]"#
            ),
        ),
    };
    cases.only(&[]).with_bytes(file, contents.as_bytes()).bundle()
}

/// Some letters, and then one character as often as it takes to get to the cut,
/// right before it and behind it.
fn add_wide(cases: &mut Cases, mark: usize) {
    for character in CHARACTERS {
        let width = character.len_utf8();
        for letters in 0..width {
            let most = (88 - letters) / width;
            for count in (76 - letters) / width..=most {
                let value = "x".repeat(letters) + &character.to_string().repeat(count);
                let bundle = broken_by(cases, mark, &value);
                cases.in_either(bundle);
            }
        }
    }
}

fn add_random(cases: &mut Cases, mark: usize) {
    let least = 60 + cases.random.below(40);
    let mut value = String::new();
    while value.len() < least {
        match cases.random.below(8) {
            0 => value += "\\u00e9",
            1 => value += "\\\"",
            _ => value.push(cases.random.pick(&CHARACTERS)),
        }
    }
    let bundle = broken_by(cases, mark, &value);
    cases.in_either(bundle);
}
