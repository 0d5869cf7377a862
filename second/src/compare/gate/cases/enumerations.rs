//! Enumerations (36 to 47): every value of all ten in every field that takes
//! one, words near the right ones, values that repeat or come in turns, and
//! values right behind others.

use super::long::short_record;
use super::Cases;
use crate::compare::cases::{written, Style};
use crate::compare::draft::{quoted, Draft};
use crate::compare::gate::set_draft::{places, SetDraft};
use crate::compare::gate::styles::{escaped, recased};
use crate::fields::{fields_of, Enumeration, ENUMERATION_VALUES};
use crate::rules::{rule, Rule};
use crate::table::is_singleton;

/// So many records have values that repeat or come in turns.
const RUN: usize = 9;

pub(super) fn add(cases: &mut Cases) {
    for (file, field, values) in enumerated() {
        for (_, value) in ENUMERATION_VALUES {
            add_in_each_style(cases, file, field, value);
        }
        for value in values_of(values) {
            add_near(cases, file, field, value);
        }
        add_others(cases, file, field);
    }
}

/// Values that repeat or come in turns, in each table's field of an enumeration.
pub(super) fn add_all_runs(cases: &mut Cases) {
    for (file, field, values) in enumerated().filter(|(file, ..)| !is_singleton(*file)) {
        add_runs(cases, file, field, values);
    }
}

/// The file, the field and the values of each mark from 36 to 47.
fn enumerated() -> impl Iterator<Item = (usize, &'static str, Enumeration)> {
    (36..=47).map(|mark| {
        let Rule::OneOf { file, field, values } = rule(mark) else {
            unreachable!("marks 36 to 47 are enumerations");
        };
        (file, field, values)
    })
}

fn values_of(enumeration: Enumeration) -> impl Iterator<Item = &'static str> {
    ENUMERATION_VALUES.iter().filter(move |(of, _)| *of == enumeration).map(|(_, value)| *value)
}

/// The value in some record of a set of that table alone.
fn add_value(cases: &mut Cases, table: usize, name: &str, value: &[u8]) {
    let base = cases.base.only(&[table]);
    let at = cases.random.below(base.records(table).len());
    cases.judge_set(&base.with_value(table, at, name, Some(value)));
}

fn add_in_each_style(cases: &mut Cases, table: usize, name: &str, value: &str) {
    let plain = quoted(value);
    let lower = plain.to_ascii_lowercase();
    let cased = recased(&plain, &mut cases.random);
    let other = escaped(&cased, &mut cases.random);
    for value in [plain, lower, other] {
        add_value(cases, table, name, &value);
    }
}

/// One letter changed, left out or added, at every place.
fn add_near(cases: &mut Cases, table: usize, name: &str, value: &str) {
    for at in 0..value.len() {
        let (front, back) = value.split_at(at);
        let letter = cases.random.pick(&["A", "x", "_", "-", "0", "1", "~"]);
        let changed = format!("{front}{letter}{}", &back[1..]);
        let shorter = format!("{front}{}", &back[1..]);
        let near = cases.random.pick(&[&changed[..], &shorter]);
        let near = recased(&quoted(near), &mut cases.random);
        add_value(cases, table, name, &near);
    }
    for near in [format!("{value}_"), format!("{value}1"), format!("_{value}")] {
        add_value(cases, table, name, &quoted(&near));
    }
}

fn add_others(cases: &mut Cases, table: usize, name: &str) {
    let others: [&[u8]; 6] =
        [b"null", b"\"\"", b"\"FIELD_00\"", b"\"FIELD_11\"", b"\"FIELD_1\"", b"\"A\""];
    for value in others {
        add_value(cases, table, name, value);
    }
}

/// One right value in all records, and two in turns, each in some style; then
/// another in the first, a middle or the last record: a right one, one from
/// either side of the enumeration, one that is longer, and a null.
fn add_runs(cases: &mut Cases, table: usize, name: &str, enumeration: Enumeration) {
    let right: Vec<&str> = values_of(enumeration).collect();
    let (first, last) = (right[0], right[right.len() - 1]);
    let longer = format!("{last}_");
    let others = [&[first, last, &longer][..], &beside(enumeration)].concat();
    let is_nullable = fields_of(table).any(|field| field.name == name && field.nullable);
    for turns in [[first, first], [last, last], [first, last], [last, first]] {
        let records: Vec<Draft> = (0..RUN)
            .map(|number| {
                let value = in_some_style(cases, turns[number % 2]);
                short_record(table, number).with_value(name, &value)
            })
            .collect();
        let set = SetDraft::empty().with_records(table, &records);
        cases.judge_set(&set);
        for at in places(RUN) {
            for other in &others {
                let value = in_some_style(cases, other);
                cases.judge_set(&set.with_value(table, at, name, Some(&value)));
            }
            if is_nullable {
                cases.judge_set(&set.with_value(table, at, name, Some(b"null")));
            }
        }
    }
}

/// The values right before and right behind the enumeration's own, of another.
fn beside(enumeration: Enumeration) -> Vec<&'static str> {
    let is_own = |(of, _): &(Enumeration, &str)| *of == enumeration;
    let first = ENUMERATION_VALUES.iter().position(is_own);
    let last = ENUMERATION_VALUES.iter().rposition(is_own);
    let before = first.and_then(|at| at.checked_sub(1));
    let behind = last.map(|at| at + 1);
    let numbers = [before, behind].into_iter().flatten();
    numbers.filter_map(|at| ENUMERATION_VALUES.get(at)).map(|(_, value)| *value).collect()
}

/// As it is, in some case, or in some case and with escapes.
fn in_some_style(cases: &mut Cases, value: &str) -> Vec<u8> {
    let plain = quoted(value);
    let cased = recased(&plain, &mut cases.random);
    match cases.random.below(3) {
        0 => plain,
        1 => cased,
        _ => escaped(&cased, &mut cases.random),
    }
}

// ------------------------------------------------------------ by their bytes

/// A value may be found by its bytes, beside the one found last before all others.
pub(super) fn add_all_neighbours(cases: &mut Cases) {
    for (file, field, enumeration) in enumerated() {
        let values: Vec<&str> = values_of(enumeration).collect();
        for at in 0..values.len() {
            if is_singleton(file) {
                add_spellings(cases, file, field, &values, at);
            } else {
                add_right_neighbours(cases, file, field, &values, at);
                add_wrong_neighbours(cases, file, field, &values, at);
            }
        }
    }
}

/// As it is, in lower case, and with one letter as an escape: the first, a middle
/// or the last one, by turns.
fn right_spellings(value: &str, turn: usize) -> [Vec<u8>; 3] {
    let at = [0, value.len() / 2, value.len() - 1][turn % 3];
    let style = [Style::LowerHex, Style::UpperHex][turn % 2];
    let letter = written(value.as_bytes()[at].into(), style);
    let parts = [b"\"", &value.as_bytes()[..at], &letter, &value.as_bytes()[at + 1..], b"\""];
    [quoted(value), quoted(&value.to_ascii_lowercase()), parts.concat()]
}

/// Without its last letter, and with one more.
fn near_spellings(value: &str) -> [Vec<u8>; 2] {
    [quoted(&value[..value.len() - 1]), quoted(&format!("{value}S"))]
}

/// Each spelling of the value as the only one.
fn add_spellings(cases: &mut Cases, table: usize, name: &str, values: &[&str], at: usize) {
    let base = cases.base.only(&[table]);
    let right = right_spellings(values[at], at);
    let spaced = quoted(&format!("{} ", values[at]));
    for value in right.into_iter().chain(near_spellings(values[at])).chain([spaced]) {
        cases.judge_set(&base.with_value(table, 0, name, Some(&value)));
    }
}

/// The value in each right spelling before another one, before itself and before
/// the first of all; behind a null, where the field may have one.
fn add_right_neighbours(cases: &mut Cases, table: usize, name: &str, values: &[&str], at: usize) {
    let is_nullable = fields_of(table).any(|field| field.name == name && field.nullable);
    let behind = [values[(at + 1) % values.len()], values[at], values[0]].map(quoted);
    for spelled in right_spellings(values[at], at) {
        let mut run: Vec<Option<&[u8]>> =
            behind.iter().flat_map(|next| [Some(&spelled[..]), Some(next)]).collect();
        if is_nullable {
            run.insert(1, None);
            run.insert(2, Some(&spelled));
        }
        judge_run(cases, table, name, at, &run);
    }
}

/// A wrong spelling of the value behind itself, another one and the first of all,
/// and before itself; and one with a space behind it, which makes the file
/// unreadable.
fn add_wrong_neighbours(cases: &mut Cases, table: usize, name: &str, values: &[&str], at: usize) {
    let own = quoted(values[at]);
    let another = quoted(values[(at + 1) % values.len()]);
    let first = quoted(values[0]);
    for wrong in near_spellings(values[at]) {
        for before in [&own, &another, &first] {
            judge_run(cases, table, name, at, &[Some(before), Some(&wrong)]);
        }
        judge_run(cases, table, name, at, &[Some(&wrong), Some(&own)]);
    }
    let spaced = quoted(&format!("{} ", values[at]));
    judge_run(cases, table, name, at, &[Some(&own), Some(&spaced), Some(&own)]);
}

/// Records with these values of the field, which by turns is the last one in each
/// of them, so that the value stands near the bundle's end.
fn judge_run(cases: &mut Cases, table: usize, name: &str, turn: usize, run: &[Option<&[u8]>]) {
    let record = |(number, value): (usize, &Option<&[u8]>)| {
        let record = short_record(table, number);
        let record = if turn % 2 == 0 { record } else { record.without(name) };
        record.with_choice(name, *value)
    };
    let records: Vec<Draft> = run.iter().enumerate().map(record).collect();
    cases.judge_set(&SetDraft::empty().with_records(table, &records));
}

#[cfg(test)]
mod tests {
    use super::*;
    use crate::board::{broken_at, Mark, HOLDS, NOT_JUDGED};
    use crate::compare::gate::case::GateCase;
    use crate::compare::random::Random;
    use crate::gate::judge;

    #[test]
    fn values_beside_an_enumeration_are_others() {
        assert_eq!(beside(Enumeration::ContractorIDCodeType), ["DAYS"]);
        assert_eq!(beside(Enumeration::DurationUnits), ["CAGE", "ACTIVITY"]);
    }

    #[test]
    fn one_letter_is_an_escape() {
        let escaped = |turn| String::from_utf8(right_spellings("HOURS", turn)[2].clone()).unwrap();
        assert_eq!(escaped(0), r#""\u0048OURS""#);
        assert_eq!(escaped(1), r#""HO\u0055RS""#);
        assert_eq!(escaped(2), r#""HOUR\u0053""#);
    }

    /// The marks of each field in its own cases: holding, broken at the second
    /// record and at the first, and not judged.
    #[test]
    fn neighbours_hold_and_are_broken() {
        let random = Random::new(1);
        let mut cases = Cases { list: Vec::new(), random, base: SetDraft::accepted() };
        for (number, (file, field, enumeration)) in enumerated().enumerate() {
            let values: Vec<&str> = values_of(enumeration).collect();
            for at in 0..values.len() {
                let mut marks = |add: fn(&mut Cases, usize, &str, &[&str], usize)| {
                    add(&mut cases, file, field, &values, at);
                    let judged = |case: GateCase| judge(&case.bundle).board.marks[36 + number];
                    cases.list.drain(..).map(judged).collect::<Vec<Mark>>()
                };
                if is_singleton(file) {
                    let broken = broken_at(1, 0);
                    let expected = [HOLDS, HOLDS, HOLDS, broken, broken, NOT_JUDGED];
                    assert_eq!(marks(add_spellings), expected);
                    continue;
                }
                assert_eq!(marks(add_right_neighbours), [HOLDS; 3]);
                let [first, second] = [1, 2].map(|place| broken_at(place, 0));
                let four = [second, second, second, first];
                assert_eq!(marks(add_wrong_neighbours), [&four[..], &four, &[NOT_JUDGED]].concat());
            }
        }
    }
}
