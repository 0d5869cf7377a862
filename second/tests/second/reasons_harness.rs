//! The comparison of reasons: programs that are wrong in one respect are caught.

use std::collections::BTreeMap;
use std::sync::OnceLock;

use crate::gate_harness::{compare, last_line, small_cases, text};
use second::board::HOLDS;
use second::bundle::file_part;
use second::compare::gate::answer::{
    Answer, Nine, BROKEN, HOLDING, MISSING, NOT_JUDGED, OWN_MARK, REFUSED,
};
use second::compare::gate::case::Call;
use second::fields::{fields_of, FIELDS};
use second::gate::judge;
use second::reason::{reason, Reason};
use second::rules::files_read;
use second::table::{read_file, Record};

/// A question for a reason, and the right answer to it.
struct Asked {
    bundle: &'static [u8],
    mark: usize,
    right: Nine,
}

/// Of the small cases, which are most of them.
fn asked() -> &'static [Asked] {
    static ASKED: OnceLock<Vec<Asked>> = OnceLock::new();
    ASKED.get_or_init(|| {
        let told = small_cases().iter().filter_map(|(case, answer)| match (&case.call, answer) {
            (Call::Reason(mark), Answer::Told(right)) => {
                let bundle = case.bundle.as_slice();
                Some(Asked { bundle, mark: *mark as usize, right: *right })
            }
            _ => None,
        });
        told.collect()
    })
}

/// How many questions for each mark such a program answers wrongly.
fn caught(program: impl Fn(&Asked) -> Nine) -> BTreeMap<usize, usize> {
    let mut wrong = BTreeMap::new();
    for asked in asked().iter().filter(|asked| program(asked) != asked.right) {
        *wrong.entry(asked.mark).or_default() += 1;
    }
    wrong
}

/// The program is caught by at least so many questions for each of these marks,
/// and by none for any other.
#[track_caller]
fn is_caught(
    marks: impl IntoIterator<Item = usize>,
    least: usize,
    program: impl Fn(&Asked) -> Nine,
) {
    let wrong = caught(program);
    let marks: Vec<usize> = marks.into_iter().collect();
    for mark in &marks {
        let count = wrong.get(mark).copied().unwrap_or(0);
        assert!(count >= least, "mark {mark}: {count}");
    }
    let others: Vec<&usize> = wrong.keys().filter(|mark| !marks.contains(mark)).collect();
    assert!(others.is_empty(), "{others:?}");
}

fn is_shown(right: &Nine) -> bool {
    [BROKEN, MISSING].contains(&right[0])
}

/// The right answer with one number of a broken rule changed.
fn with_number(asked: &Asked, at: usize, number: impl Fn(&Asked) -> u32) -> Nine {
    let mut wrong = asked.right;
    if is_shown(&asked.right) {
        wrong[at] = number(asked);
    }
    wrong
}

const FILE: usize = 1;
const RECORD: usize = 2;
const COMPANION: usize = 3;
const FIELD: usize = 4;
const START: usize = 5;
const LENGTH: usize = 6;
const SEARCHED: usize = 7;

/// The marks that are broken by a value, some of them also by null.
fn by_value() -> impl Iterator<Item = usize> {
    (20..=80).filter(|mark| ![71, 75, 77].contains(mark))
}

fn records(bundle: &[u8], file: usize) -> Vec<Record> {
    read_file(file, Some(file_part(bundle, file))).unwrap()
}

/// The answer with this record and field in place of the right ones: its number
/// and the part where its value stands.
fn showing(asked: &Asked, record: usize, field: usize) -> Nine {
    let file = asked.right[FILE] as usize;
    let records = records(asked.bundle, file);
    let name = fields_of(file).nth(field).unwrap().name;
    let place = records[record - 1].place(name);
    let offset = u32::from_le_bytes(asked.bundle[4 + 8 * file..8 + 8 * file].try_into().unwrap());
    let mut wrong = asked.right;
    wrong[RECORD] = record as u32;
    wrong[FIELD] = field as u32;
    (wrong[START], wrong[LENGTH]) = match place.end {
        0 => (0, 0),
        end => (offset + place.start, end - place.start),
    };
    wrong
}

#[test]
fn the_right_answers_pass() {
    assert!(asked().len() > 30_000, "{}", asked().len());
    is_caught([], 1, |asked| asked.right);
    // What a wrong program is made of is right where nothing is made wrong.
    is_caught([], 1, |asked| match is_shown(&asked.right) {
        true => showing(asked, asked.right[RECORD] as usize, asked.right[FIELD] as usize),
        false => asked.right,
    });
}

// ----------------------------------------------------------------- places

#[test]
fn a_place_in_the_file_is_caught() {
    is_caught(by_value(), 20, |asked| {
        with_number(asked, START, |asked| {
            let file = asked.right[FILE] as usize;
            let offset = &asked.bundle[4 + 8 * file..8 + 8 * file];
            asked.right[START].saturating_sub(u32::from_le_bytes(offset.try_into().unwrap()))
        })
    });
    // Behind the header, but not behind the other files.
    is_caught(by_value(), 5, |asked| {
        with_number(asked, START, |asked| {
            let earlier: usize = (0..asked.right[FILE])
                .map(|file| file_part(asked.bundle, file as usize).len())
                .sum();
            asked.right[START].saturating_sub(earlier as u32)
        })
    });
}

#[test]
fn values_without_their_quotes_are_caught() {
    let strings = by_value().filter(|mark| ![68, 69, 70, 78].contains(mark));
    is_caught(strings, 20, |asked| {
        let mut wrong = asked.right;
        let start = asked.right[START] as usize;
        if is_shown(&asked.right) && start > 0 && asked.bundle[start] == b'"' {
            wrong[START] += 1;
            wrong[LENGTH] -= 2;
        }
        wrong
    });
}

/// The length after escapes are decoded.
#[test]
fn decoded_lengths_are_caught() {
    let strings = by_value().filter(|mark| ![68, 69, 70, 78].contains(mark));
    is_caught(strings, 2, |asked| {
        with_number(asked, LENGTH, |asked| {
            let start = asked.right[START] as usize;
            let value = &asked.bundle[start..start + asked.right[LENGTH] as usize];
            match value.first() {
                Some(b'"') => second::json::decoded_codes(value, 0).len() as u32 + 2,
                _ => value.len() as u32,
            }
        })
    });
}

#[test]
fn a_null_that_is_shown_is_caught() {
    // The four bytes, or the two quotes, where they stand.
    is_caught([69, 71, 75, 77, 79, 80], 5, |asked| {
        let mut wrong = asked.right;
        if is_shown(&asked.right) && asked.right[LENGTH] == 0 {
            let file = asked.right[FILE] as usize;
            let name = fields_of(file).nth(asked.right[FIELD] as usize).unwrap().name;
            let record = &records(asked.bundle, file)[asked.right[RECORD] as usize - 1];
            let start = record.place(name).start;
            if start > 0 {
                let contents = file_part(asked.bundle, file);
                let is_quote = contents[start as usize] == b'"';
                wrong[START] = start + (asked.bundle.len() - contents.len()) as u32;
                wrong[LENGTH] = if is_quote { 2 } else { 4 };
            }
        }
        wrong
    });
    // An empty part that stands where its file does.
    is_caught([69, 71, 75, 77, 79, 80], 5, |asked| {
        let is_null = asked.right[LENGTH] == 0;
        with_number(asked, START, |asked| if is_null { 164 } else { asked.right[START] })
    });
}

// ----------------------------------------------------------------- fields

#[test]
fn other_fields_are_caught() {
    // By the number alone: counted from 1, and among all 136.
    is_caught(20..=80, 20, |asked| with_number(asked, FIELD, |asked| asked.right[FIELD] + 1));
    let behind_others = (20..=80).filter(|mark| files_read(*mark)[0] != 1);
    is_caught(behind_others, 20, |asked| {
        with_number(asked, FIELD, |asked| {
            let file = asked.right[FILE] as usize;
            let earlier = FIELDS.iter().filter(|field| field.table < file).count();
            asked.right[FIELD] + earlier as u32
        })
    });
    // With the value of that other field: the next one, and the one before.
    is_caught(20..=80, 20, |asked| with_field(asked, |field, count| (field + 1) % count));
    is_caught(20..=80, 20, |asked| with_field(asked, |field, count| (field + count - 1) % count));
}

fn with_field(asked: &Asked, other: impl Fn(usize, usize) -> usize) -> Nine {
    if !is_shown(&asked.right) {
        return asked.right;
    }
    let count = fields_of(asked.right[FILE] as usize).count();
    let field = other(asked.right[FIELD] as usize, count);
    showing(asked, asked.right[RECORD] as usize, field)
}

/// Another field that could be taken for the deciding one.
#[test]
fn fields_beside_the_deciding_one_are_caught() {
    for (mark, name) in [
        (23, "Ordinal"),
        (24, "ExceptionDate"),
        (28, "CustomFieldID"),
        (29, "ConstraintTypeID"),
        (30, "SuccessorTaskID"),
        (30, "RelationshipTypeID"),
        (31, "Level"),
        (34, "CustomFieldID"),
        (35, "TaskID"),
        (65, "ContractorIDCodeTypeID"),
        (66, "EVMSAccepted"),
        (67, "Name"),
        (69, "MondayWorkHours"),
        (71, "TaskTypeID"),
        (72, "EarnedValueTechniqueID"),
        (74, "TaskTypeID"),
        (75, "OnDrivingPath"),
        (75, "BaselineDuration"),
        (76, "ConstraintTypeID"),
        (77, "ConstraintTypeID"),
        (78, "TaskID"),
        (79, "Level"),
        (79, "TaskID"),
        (80, "Level"),
        (80, "TaskID"),
    ] {
        is_caught([mark], 20, |asked| {
            if asked.mark != mark || !is_shown(&asked.right) {
                return asked.right;
            }
            let named = |field: &&second::fields::Field| field.name == name;
            let field = fields_of(asked.right[FILE] as usize).position(|field| named(&field));
            showing(asked, asked.right[RECORD] as usize, field.unwrap())
        });
    }
}

/// The last field of several, and the first as written in the record.
#[test]
fn fields_in_another_order_are_caught() {
    let breaks = |asked: &Asked, record: &Record, name: &str| match asked.mark {
        68 => record.decimal(name).is_some_and(|number| number.sign().is_lt()),
        _ => record.is_null(name) && (name.contains("Variance") || name.starts_with("Baseline")),
    };
    let breaking = |asked: &Asked| -> Vec<usize> {
        let file = asked.right[FILE] as usize;
        let record = &records(asked.bundle, file)[asked.right[RECORD] as usize - 1];
        let fields = fields_of(file).enumerate();
        let breaking = fields.filter(|(_, field)| breaks(asked, record, field.name));
        breaking.map(|(index, _)| index).collect()
    };
    let is_of_several = |asked: &Asked| [68, 75].contains(&asked.mark) && is_shown(&asked.right);
    is_caught([68, 75], 100, |asked| match is_of_several(asked) {
        true => showing(asked, asked.right[RECORD] as usize, *breaking(asked).last().unwrap()),
        false => asked.right,
    });
    is_caught([68, 75], 20, |asked| {
        if !is_of_several(asked) {
            return asked.right;
        }
        let file = asked.right[FILE] as usize;
        let record = &records(asked.bundle, file)[asked.right[RECORD] as usize - 1];
        let start = |field: &usize| record.place(fields_of(file).nth(*field).unwrap().name).start;
        let first = breaking(asked).into_iter().min_by_key(start).unwrap();
        showing(asked, asked.right[RECORD] as usize, first)
    });
}

// ---------------------------------------------------------------- records

#[test]
fn later_and_earlier_records_are_caught() {
    let plus_one = |asked: &Asked| asked.right[RECORD] + 1;
    is_caught(20..=80, 20, |asked| with_number(asked, RECORD, plus_one));
    let minus_one = |asked: &Asked| asked.right[RECORD] - 1;
    is_caught(20..=80, 20, |asked| with_number(asked, RECORD, minus_one));
    let tables = || (20..=80).filter(|mark| ![36, 37, 65, 66].contains(mark));
    // The last record of the table, with its own value.
    is_caught(tables(), 20, |asked| match is_shown(&asked.right) {
        true => {
            let count = records(asked.bundle, asked.right[FILE] as usize).len();
            showing(asked, count, asked.right[FIELD] as usize)
        }
        false => asked.right,
    });
    // The right record with the value of the one before it.
    is_caught(tables(), 5, |asked| {
        let record = asked.right[RECORD] as usize;
        match is_shown(&asked.right) && record > 1 {
            true => {
                let mut wrong = showing(asked, record - 1, asked.right[FIELD] as usize);
                wrong[RECORD] = asked.right[RECORD];
                wrong
            }
            false => asked.right,
        }
    });
}

/// A later record that breaks the rule as well, being the same in all its fields.
#[test]
fn a_later_breaking_record_is_caught() {
    let tables = (20..=80).filter(|mark| ![36, 37, 65, 66].contains(mark));
    is_caught(tables, 5, |asked| {
        if !is_shown(&asked.right) {
            return asked.right;
        }
        let file = asked.right[FILE] as usize;
        let all = records(asked.bundle, file);
        let shown = &all[asked.right[RECORD] as usize - 1];
        let is_copy = |record: &Record| {
            fields_of(file).all(|field| record.value(field.name) == shown.value(field.name))
        };
        let last = all.iter().rposition(is_copy).unwrap();
        showing(asked, last + 1, asked.right[FIELD] as usize)
    });
}

#[test]
fn wrong_companions_are_caught() {
    let named = || (20..=35).chain([79, 80]);
    is_caught(named(), 20, |asked| with_number(asked, COMPANION, |_| 0));
    let above = |asked: &Asked| match asked.right[COMPANION] {
        0 => 0,
        _ => asked.right[RECORD] - 1,
    };
    // Of many children of one parent that is no SUMMARY the first is shown.
    is_caught(named(), 1, |asked| with_number(asked, COMPANION, above));
    // The companion's value for the record's.
    is_caught(named(), 10, |asked| match asked.right[COMPANION] {
        0 => asked.right,
        _ if !is_shown(&asked.right) => asked.right,
        companion => {
            let mut wrong = showing(asked, companion as usize, asked.right[FIELD] as usize);
            wrong[RECORD] = asked.right[RECORD];
            wrong
        }
    });
    // Record and companion the other way round.
    is_caught(20..=80, 20, |asked| {
        let mut wrong = asked.right;
        if is_shown(&asked.right) {
            wrong.swap(RECORD, COMPANION);
        }
        wrong
    });
}

#[test]
fn the_wrong_file_is_caught() {
    let pairs = || (20..=80).filter(|mark| files_read(*mark).len() > 1);
    let other = |asked: &Asked| files_read(asked.mark)[1] as u32;
    is_caught(pairs(), 20, |asked| match asked.mark {
        mark if mark <= 80 && pairs().any(|other| other == mark) => with_number(asked, FILE, other),
        _ => asked.right,
    });
}

#[test]
fn the_searched_table_is_compared() {
    is_caught(48..=64, 20, |asked| with_number(asked, SEARCHED, |_| 0));
    // A missing target told as any broken rule, and the other way round.
    is_caught(48..=64, 20, |asked| match asked.right {
        [MISSING, rest @ .., _, _] => {
            let mut wrong = [0; 9];
            wrong[0] = BROKEN;
            wrong[1..7].copy_from_slice(&rest);
            wrong
        }
        right => right,
    });
    for mark in [36, 39, 47, 67, 73, 74, 80] {
        is_caught([mark], 20, |asked| {
            let mut wrong = asked.right;
            if asked.mark == mark && asked.right[0] == BROKEN {
                wrong[0] = MISSING;
                wrong[SEARCHED] = *files_read(mark).last().unwrap() as u32;
            }
            wrong
        });
    }
    // The searched table is the table itself.
    is_caught(48..=64, 20, |asked| match asked.right[0] {
        MISSING => with_number(asked, SEARCHED, |asked| asked.right[FILE]),
        _ => asked.right,
    });
}

// ------------------------------------------------------- holding, unread

#[test]
fn answers_of_another_kind_are_caught() {
    let all = [HOLDING, 0, 0, 0, 0, 0, 0, 0, 0];
    // Everything holds; nothing does.
    is_caught(0..=80, 10, |asked| if asked.right[0] == REFUSED { asked.right } else { all });
    is_caught(0..=80, 3, |asked| match asked.right[0] {
        HOLDING if asked.mark < 20 => [OWN_MARK, 0, 0, 0, 0, 0, 0, 0, 0],
        HOLDING => [BROKEN, files_read(asked.mark)[0] as u32, 1, 0, 0, 0, 0, 0, 0],
        _ => asked.right,
    });
    // A rule over an unreadable table passed as having no records.
    is_caught(20..=80, 10, |asked| if asked.right[0] == NOT_JUDGED { all } else { asked.right });
    // Numbers behind those that an answer has.
    for at in 1..9 {
        let wrong = caught(|asked| {
            let mut wrong = asked.right;
            if asked.right[at] == 0 {
                wrong[at] = 1;
            }
            wrong
        });
        assert!((0..=80).all(|mark| wrong.contains_key(&mark)), "{at}");
    }
}

#[test]
fn another_unreadable_file_is_caught() {
    let unread = |asked: &Asked| -> Vec<usize> {
        let board = judge(asked.bundle).board;
        (0..20).filter(|file| board.marks[*file] != HOLDS).collect()
    };
    let pairs = || (20..=80).filter(|mark| files_read(*mark).len() > 1);
    let with_file = |asked: &Asked, file: usize| {
        let mut wrong = asked.right;
        wrong[FILE] = file as u32;
        wrong
    };
    // The lowest of the whole bundle.
    is_caught(20..=80, 5, |asked| match asked.right[0] {
        NOT_JUDGED => with_file(asked, unread(asked)[0]),
        _ => asked.right,
    });
    // The highest that the rule reads.
    is_caught(pairs(), 5, |asked| match asked.right[0] {
        NOT_JUDGED => {
            let read = files_read(asked.mark);
            let highest = unread(asked).into_iter().filter(|file| read.contains(file)).max();
            with_file(asked, highest.unwrap())
        }
        _ => asked.right,
    });
    // The first unreadable one of the rule's line, and the table named first
    // whether it is or not.
    let late = pairs().filter(|mark| files_read(*mark)[0] > files_read(*mark)[1]);
    is_caught(late, 5, |asked| match asked.right[0] {
        NOT_JUDGED => {
            let unread = unread(asked);
            let first = files_read(asked.mark).into_iter().find(|file| unread.contains(file));
            with_file(asked, first.unwrap())
        }
        _ => asked.right,
    });
    is_caught(pairs(), 5, |asked| match asked.right[0] {
        NOT_JUDGED => with_file(asked, files_read(asked.mark)[0]),
        _ => asked.right,
    });
}

#[test]
fn own_marks_are_compared_by_all_three_numbers() {
    for at in 1..=3 {
        is_caught(0..20, 2, |asked| {
            let mut wrong = asked.right;
            if asked.right[0] == OWN_MARK {
                wrong[at] += 1;
            }
            wrong
        });
    }
    is_caught(1..20, 2, |asked| match asked.right {
        [OWN_MARK, kind, place, ..] => [OWN_MARK, kind, place, 0, 0, 0, 0, 0, 0],
        right => right,
    });
    // The place in the bundle: a mark keeps its numbers.
    is_caught(0..20, 2, |asked| {
        let mut wrong = asked.right;
        if asked.right[0] == OWN_MARK {
            let number = 4 + 8 * asked.mark;
            let offset = &asked.bundle[number..number + 4];
            wrong[2] += u32::from_le_bytes(offset.try_into().unwrap());
        }
        wrong
    });
}

// --------------------------------------------------------------- refusals

#[test]
fn refusals_in_another_order_are_caught() {
    let refused = |refusal| [REFUSED, refusal, 0, 0, 0, 0, 0, 0, 0];
    let over: Vec<usize> =
        asked().iter().map(|asked| asked.mark).filter(|mark| *mark > 80).collect();
    // 7 first; never 7, but 4; 7 from 80 on; only over 100.
    is_caught(over.clone(), 5, |asked| if asked.mark > 80 { refused(7) } else { asked.right });
    is_caught(over.clone(), 1, |asked| match asked.right {
        [REFUSED, 7, ..] => refused(4),
        right => right,
    });
    is_caught([80], 100, |asked| match asked.mark {
        80 if asked.right[0] != REFUSED => refused(7),
        _ => asked.right,
    });
    // The number's lowest eight and sixteen bits alone.
    for bits in [8, 16, 31] {
        let wrong = caught(|asked| {
            let low = asked.mark & ((1 << bits) - 1);
            if low == asked.mark {
                return asked.right;
            }
            match reason(asked.bundle, low) {
                Reason::Refused(refusal) => refused(refusal),
                _ => [HOLDING, 0, 0, 0, 0, 0, 0, 0, 0],
            }
        });
        assert!(!wrong.is_empty(), "{bits} bits");
    }
    for (one, other) in [(1, 2), (2, 3), (3, 1), (7, 0)] {
        let wrong = caught(|asked| match asked.right {
            [REFUSED, refusal, ..] if refusal == one => refused(other),
            right => right,
        });
        assert!(wrong.len() >= 20, "{one} {other}");
    }
}

/// As the program itself tells it: one number of a reason is wrong.
#[test]
fn one_wrong_byte_of_a_reason_is_shown() {
    let number = asked_number().to_string();
    let serve = format!("'{}' --serve", env!("CARGO_BIN_EXE_compare_gate"));
    let script = format!("{serve} | head -c -1; printf '\\377'");
    let output = compare(&["--seed", "9", "--only", &number, "sh", "-c", &script]);
    assert_eq!(output.status.code(), Some(1));
    assert_eq!(last_line(&output), "0 passed, 1 failed");
    let shown = format!("case {number} (--seed 9 --only {number}): reason of mark ");
    assert!(text(&output).starts_with(&shown), "{}", text(&output));
    assert!(text(&output).contains("\n  answered broken ["));
}

/// The number of a small case whose answer is a broken rule.
fn asked_number() -> usize {
    let cases = crate::gate_harness::cases();
    let is_broken = |answer| matches!(answer, Answer::Told([BROKEN, ..]));
    let (case, _) = small_cases().iter().find(|(_, answer)| is_broken(answer.clone())).unwrap();
    cases.iter().position(|other| std::ptr::eq(other, *case)).unwrap()
}
