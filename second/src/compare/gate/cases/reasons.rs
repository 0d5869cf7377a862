//! The reason of a mark (order 6): each rule broken in every way that another
//! field, record, place or file could be told of; marks that hold, are not
//! judged, or are none; refused bundles; and reasons for what the other cases
//! judge.

use std::sync::Arc;

use super::breaking::broken_sets;
use super::long::short_record;
use super::lookups::refused_bundles;
use super::Cases;
use crate::board::MARKS;
use crate::bundle::{FILES, LARGEST_BUNDLE};
use crate::compare::cases::{written, Style};
use crate::compare::draft::{quoted, Draft};
use crate::compare::faulty::faulty_files;
use crate::compare::gate::case::{Bytes, Call, GateCase, LONGEST};
use crate::compare::gate::readings::{printed, readings};
use crate::compare::gate::reason_sights::asked_marks;
use crate::compare::gate::sample::Set;
use crate::compare::gate::set_draft::{places, FileDraft, SetDraft};
use crate::compare::gate::styles::{restyled, shuffle};
use crate::compare::random::Random;
use crate::fields::{fields_of, Type};
use crate::gate::judge;
use crate::json::decoded_codes;
use crate::rules::{files_read, BASELINE_FIELDS, FIRST_RULE, LAST_RULE};
use crate::table::{is_singleton, MOST_RECORDS};

/// Of the bundles judged by other cases, so many and no longer.
const JUDGED_ELSEWHERE: usize = 4_000;
const LONGEST_ELSEWHERE: usize = 9_000;

pub(super) fn add(cases: &mut Cases) {
    add_for_judged(cases);
    add_readings(cases);
    let base = cases.base.clone();
    for mark in FIRST_RULE..=LAST_RULE {
        for set in broken_sets(mark, &base) {
            add_broken(cases, mark, &set);
        }
        add_unread(cases, mark, &base);
    }
    add_nulls(cases, &base);
    add_hours(cases, &base);
    add_baselines(cases, &base);
    add_parents(cases);
    add_own_marks(cases, &base);
    add_numbers(cases, &base);
    add_refused(cases, &base);
    add_long(cases);
}

fn ask(cases: &mut Cases, bundle: &Bytes, mark: usize) {
    cases.push(bundle, Call::Reason(mark as u32));
}

fn ask_of_set(cases: &mut Cases, set: &SetDraft, mark: usize) {
    ask(cases, &Arc::new(set.bundle()), mark);
}

/// Each reading, and every mark of its bundle.
fn add_readings(cases: &mut Cases) {
    for reading in readings() {
        ask(cases, &Arc::new(reading.bundle), reading.mark);
    }
    let bundles = readings().into_iter().map(|reading| reading.bundle);
    for bundle in bundles.chain(printed().into_iter().map(|printed| printed.bundle)) {
        add_all_marks(cases, &Arc::new(bundle));
    }
}

fn add_all_marks(cases: &mut Cases, bundle: &Bytes) {
    for mark in 0..MARKS {
        ask(cases, bundle, mark);
    }
}

// ---------------------------------------------------------- broken rules

/// The set whole and in other styles, its files behind others of every sort, its
/// fields in every order, and its strings as escapes.
fn add_broken(cases: &mut Cases, mark: usize, set: &SetDraft) {
    ask_of_set(cases, set, mark);
    for _ in 0..2 {
        let styled = restyled(set, &mut cases.random);
        ask_of_set(cases, &styled, mark);
    }
    for front in FRONTS {
        let behind = behind_others(set, mark, front, &mut cases.random);
        ask_of_set(cases, &behind, mark);
        let styled = restyled(&behind, &mut cases.random);
        ask_of_set(cases, &styled, mark);
        // The other file that it reads has nothing: of some rules it stands in
        // front.
        for other in &files_read(mark)[1..] {
            ask_of_set(cases, &behind.without(*other), mark);
        }
    }
    let read = set.only(&files_read(mark));
    add_turned(cases, mark, &read);
    add_again(cases, mark, &read);
}

/// What the files are that the rule doesn't read.
#[derive(Clone, Copy)]
pub(in crate::compare) enum Front {
    Omitted,
    Empty,
    Bytes,
    Mixed,
}

const FRONTS: [Front; 4] = [Front::Omitted, Front::Empty, Front::Bytes, Front::Mixed];

/// The files of the set that the rule reads, behind and between such others.
pub(in crate::compare) fn behind_others(
    set: &SetDraft,
    mark: usize,
    front: Front,
    random: &mut Random,
) -> SetDraft {
    let read = files_read(mark);
    let mut behind = set.only(&read);
    for number in (0..FILES).filter(|number| !read.contains(number)) {
        let front = match front {
            Front::Mixed => random.pick(&FRONTS[..3]),
            other => other,
        };
        behind.files[number] = match front {
            Front::Empty => FileDraft::Bytes(Vec::new()),
            Front::Bytes => {
                let length = 1 + random.below(40);
                let byte = |_| random.next_number() as u8;
                FileDraft::Bytes((0..length).map(byte).collect())
            }
            _ => FileDraft::Omitted,
        };
    }
    behind
}

/// Each field in the first and in the last place of its record, and between.
fn add_turned(cases: &mut Cases, mark: usize, set: &SetDraft) {
    let table = files_read(mark)[0];
    if !matches!(set.files[table], FileDraft::Records(_)) {
        return;
    }
    let most = set.records(table).iter().map(|record| record.members.len()).max().unwrap_or(0);
    for by in 0..most {
        let mut turned = set.clone();
        for record in turned.records_mut(table) {
            let count = record.members.len().max(1);
            record.members.rotate_left(by % count);
        }
        ask_of_set(cases, &turned, mark);
        if by % 3 == 0 || most < 6 {
            ask_of_set(cases, &all_escaped(&turned, table), mark);
        }
    }
    let mut mixed = set.clone();
    for record in mixed.records_mut(table) {
        shuffle(&mut record.members, &mut cases.random);
    }
    ask_of_set(cases, &mixed, mark);
}

/// The breaking record once more right behind itself, at the end, and both: a
/// later record breaks the rule as well.
fn add_again(cases: &mut Cases, mark: usize, set: &SetDraft) {
    let table = files_read(mark)[0];
    let judged = judge(&set.bundle()).board.marks[mark];
    let has_records = matches!(set.files[table], FileDraft::Records(_));
    if judged.kind != 1 || is_singleton(table) || !has_records {
        return;
    }
    let at = judged.place as usize;
    let count = set.records(table).len();
    for places in [&[at][..], &[count], &[count, at]] {
        let mut again = set.clone();
        let records = again.records_mut(table);
        let breaking = records[at - 1].clone();
        for place in places {
            records.insert(*place, breaking.clone());
        }
        ask_of_set(cases, &again, mark);
    }
}

/// Every name and string of the table in escapes of four digits.
fn all_escaped(set: &SetDraft, table: usize) -> SetDraft {
    let mut escaped = set.clone();
    for record in escaped.records_mut(table) {
        for member in &mut record.members {
            member.name = in_escapes(&member.name);
            member.value = in_escapes(&member.value);
        }
    }
    escaped
}

fn in_escapes(token: &[u8]) -> Vec<u8> {
    if !token.starts_with(b"\"") {
        return token.to_vec();
    }
    let inner = decoded_codes(token, 0).into_iter().flat_map(|code| written(code, Style::UpperHex));
    let mut string = vec![b'"'];
    string.extend(inner);
    string.push(b'"');
    string
}

// ----------------------------------------------------------------- nulls

/// A field and its value, nothing where it is absent.
type FieldValue = (&'static str, Option<&'static [u8]>);

fn with_values(base: &SetDraft, table: usize, at: usize, values: &[FieldValue]) -> SetDraft {
    let with = |set: SetDraft, (name, value): &FieldValue| set.with_value(table, at, name, *value);
    values.iter().fold(base.clone(), with)
}

const NULLS: [Option<&[u8]>; 3] = [None, Some(b"null"), Some(b"\"\"")];

/// 71 and 77 broken by null in each form that it has in their fields.
fn add_nulls(cases: &mut Cases, base: &SetDraft) {
    for null in NULLS {
        for at in places(base.records(9).len()) {
            let values =
                [("TaskTypeID", Some(&b"\"activity\""[..])), ("TaskPlanningLevelID", null)];
            add_broken(cases, 71, &with_values(base, 9, at, &values));
        }
        for at in places(base.records(13).len()) {
            // An empty Date is none: file 13 is unreadable then.
            let values =
                [("ConstraintTypeID", Some(&b"\"DEADLINE\""[..])), ("ConstraintDate", null)];
            add_broken(cases, 77, &with_values(base, 13, at, &values));
        }
    }
}

// ------------------------------------------------------------ some fields

/// 68: each day below zero alone, each two of them, and all; 69: Sunday null in
/// each form, zero and below; 70: some hours below zero.
fn add_hours(cases: &mut Cases, base: &SetDraft) {
    let days: Vec<&'static str> = hours_of(7);
    let shifts = base.only(&[7]);
    for at in places(shifts.records(7).len()) {
        for (first, day) in days.iter().enumerate() {
            for other in &days[first..] {
                let values = [(*day, Some(&b"-1"[..])), (*other, Some(b"-0.50"))];
                add_ordered(cases, 68, &with_values(&shifts, 7, at, &values));
            }
        }
        let all: Vec<FieldValue> = days.iter().map(|day| (*day, Some(&b"-8"[..]))).collect();
        add_ordered(cases, 68, &with_values(&shifts, 7, at, &all));
        let none: Vec<FieldValue> = days.iter().map(|day| (*day, None)).collect();
        let none = with_values(&shifts, 7, at, &none);
        for sunday in [None, Some(&b"null"[..]), Some(b"0"), Some(b"-0.0"), Some(b"-3e-1")] {
            let set = none.with_value(7, at, "SundayWorkHours", sunday);
            add_ordered(cases, 69, &set);
            let set = set.with_value(7, at, "SaturdayWorkHours", Some(b"-1"));
            add_ordered(cases, 69, &set);
            add_ordered(cases, 68, &set);
        }
    }
    let exceptions = base.only(&[8]);
    for at in places(exceptions.records(8).len()) {
        for hours in [&b"-1"[..], b"-1e-15", b"-999999999999999e15", b"-8.0000000000000000"] {
            add_ordered(cases, 70, &exceptions.with_value(8, at, "WorkHours", Some(hours)));
        }
    }
}

fn hours_of(table: usize) -> Vec<&'static str> {
    let hours = fields_of(table).filter(|field| field.kind == Type::Decimal);
    hours.map(|field| field.name).collect()
}

/// The members as they are, from the last to the first, and in any order.
fn add_ordered(cases: &mut Cases, mark: usize, set: &SetDraft) {
    let table = files_read(mark)[0];
    ask_of_set(cases, set, mark);
    let mut turned = set.clone();
    for record in turned.records_mut(table) {
        record.members.reverse();
    }
    ask_of_set(cases, &turned, mark);
    for record in turned.records_mut(table) {
        shuffle(&mut record.members, &mut cases.random);
    }
    ask_of_set(cases, &turned, mark);
}

/// 75: each part of the five fields given, the others null in either form.
fn add_baselines(cases: &mut Cases, base: &SetDraft) {
    let schedules = base.only(&[10]);
    for at in places(schedules.records(10).len()) {
        for given in 0..1_usize << BASELINE_FIELDS.len() {
            for null in [None, Some(&b"null"[..])] {
                let mut set = schedules.clone();
                for (bit, name) in BASELINE_FIELDS.iter().enumerate() {
                    let value: &[u8] =
                        if name.ends_with("Date") { b"\"2020-02-29\"" } else { b"-1.5" };
                    let value = if given >> bit & 1 == 1 { Some(value) } else { null };
                    set = set.with_value(10, at, name, value);
                }
                add_ordered(cases, 75, &set);
            }
        }
    }
}

// --------------------------------------------------------------- outlines

/// 79 and 80 at every record of an outline, the child's ParentTaskID right,
/// wrong, and null in each form.
fn add_parents(cases: &mut Cases) {
    let levels = [1, 2, 3, 2, 1, 2];
    let parents = [None, Some(0), Some(1), Some(0), None, Some(4)];
    for at in 0..levels.len() {
        for wrong in
            [None, Some(&b"null"[..]), Some(b"\"\""), Some(b"\"x\""), Some(b"\"t\\u0030\"")]
        {
            let outline = outline(&levels, &parents);
            let mut outline = SetDraft::empty().with_records(15, &outline);
            outline = outline.with_value(15, at, "ParentTaskID", wrong);
            add_broken(cases, 79, &outline);
            // All earlier parents are SUMMARY, this child's is none.
            let summaries = (0..levels.len()).filter(|task| Some(*task) != parents[at]);
            let tasks: Vec<Draft> = summaries.map(summary).collect();
            let set = outline.with_records(9, &tasks);
            add_broken(cases, 79, &set);
            add_broken(cases, 80, &set);
        }
    }
    // At the first record without a parent there is none to name.
    for level in [&b"2"[..], b"0", b"-1"] {
        for parent in [None, Some(&b"null"[..]), Some(b"\"\""), Some(b"\"T1\"")] {
            let set = SetDraft::empty().with_records(15, &outline(&levels, &parents));
            let set = set.with_value(15, 0, "Level", Some(level));
            let set = set.with_value(15, 0, "ParentTaskID", parent);
            add_broken(cases, 79, &set);
            add_broken(cases, 78, &set);
            ask_of_set(cases, &set, 80);
        }
    }
}

fn outline(levels: &[i64], parents: &[Option<usize>]) -> Vec<Draft> {
    let row = |at: usize| {
        let mut row = Draft::default();
        row.push(&quoted("Level"), levels[at].to_string().as_bytes());
        row.push(&quoted("TaskID"), &quoted(&format!("T{at}")));
        match parents[at] {
            Some(parent) => row.with_value("ParentTaskID", &quoted(&format!("t{parent}"))),
            None => row,
        }
    };
    (0..levels.len()).map(row).collect()
}

fn summary(number: usize) -> Draft {
    let mut task = Draft::default();
    task.push(&quoted("ID"), &quoted(&format!("T{number}")));
    task.push(&quoted("Name"), b"\"N\"");
    task.push(&quoted("TaskTypeID"), b"\"Summary\"");
    task
}

// ------------------------------------------------------- files with faults

/// Each file that the rule reads unreadable, both, those and all others, and
/// only the others.
fn add_unread(cases: &mut Cases, mark: usize, base: &SetDraft) {
    let read = files_read(mark);
    let others: Vec<usize> = (0..FILES).filter(|number| !read.contains(number)).collect();
    let spoil = |set: &SetDraft, numbers: &[usize], contents: &[u8]| -> SetDraft {
        numbers.iter().fold(set.clone(), |set, number| set.with_bytes(*number, contents))
    };
    for contents in [&b""[..], b"[", b"[{}]", b"{\"x\":1}", b"\xFF"] {
        for number in &read {
            ask_of_set(cases, &spoil(base, &[*number], contents), mark);
            let all_others = spoil(base, &others, contents);
            ask_of_set(cases, &spoil(&all_others, &[*number], contents), mark);
        }
        let both = spoil(base, &read, contents);
        ask_of_set(cases, &both, mark);
        ask_of_set(cases, &spoil(&both, &others, contents), mark);
        ask_of_set(cases, &spoil(base, &others, contents), mark);
    }
    for number in 0..FILES {
        ask_of_set(cases, &base.without(number), mark);
    }
}

/// Every kind that each file can have, as its own mark and as a rule's reason.
fn add_own_marks(cases: &mut Cases, base: &SetDraft) {
    for number in 0..FILES {
        for contents in WHOLE_FILES {
            add_own(cases, base, number, contents);
        }
        ask_of_set(cases, &base.without(number), number);
        ask_of_set(cases, &SetDraft::empty(), number);
    }
    for number in 1..FILES {
        for file in faulty_files(number, 2) {
            add_own(cases, base, number, &file.contents);
        }
        if !is_singleton(number) && number != 10 {
            let records = vec![short_record(number, 1); MOST_RECORDS + 1];
            ask_of_set(cases, &SetDraft::empty().with_records(number, &records), number);
        }
    }
}

const WHOLE_FILES: [&[u8]; 9] =
    [b"", b"[]", b"{}", b"[{}]", b" ", b" null", b"[1]", b"\xEF\xBB\xBF[]", b" [ {\"x\":1} ]"];

fn add_own(cases: &mut Cases, base: &SetDraft, number: usize, contents: &[u8]) {
    let bundle = Arc::new(base.only(&[0, 1]).with_bytes(number, contents).bundle());
    ask(cases, &bundle, number);
    let reading: Vec<usize> =
        (FIRST_RULE..=LAST_RULE).filter(|mark| files_read(*mark).contains(&number)).collect();
    if !reading.is_empty() {
        let mark = cases.random.pick(&reading);
        ask(cases, &bundle, mark);
    }
}

// ---------------------------------------------------------------- numbers

/// Marks that hold, and all sorts of numbers that are no mark's.
fn add_numbers(cases: &mut Cases, base: &SetDraft) {
    let mut all_empty = SetDraft::empty();
    for number in 0..FILES {
        all_empty.files[number] = FileDraft::Bytes(Vec::new());
    }
    let styled = restyled(base, &mut cases.random);
    for set in [base.clone(), styled, SetDraft::empty(), all_empty] {
        let bundle = Arc::new(set.bundle());
        for mark in asked_marks() {
            ask(cases, &bundle, mark as usize);
        }
    }
}

fn add_refused(cases: &mut Cases, base: &SetDraft) {
    let sample = base.bundle();
    let short = SetDraft::empty().with_bytes(6, b"[]").bundle();
    for bundle in refused_bundles(&sample).into_iter().chain(refused_bundles(&short)) {
        let bundle = Arc::new(bundle);
        for mark in asked_marks() {
            ask(cases, &bundle, mark as usize);
        }
    }
}

// ----------------------------------------------------------- long bundles

/// Values far into a bundle, up to its last bytes, and one byte too many.
fn add_long(cases: &mut Cases) {
    for count in [300, MOST_RECORDS] {
        let mut calendars: Vec<Draft> = (0..count).map(|number| short_record(6, number)).collect();
        calendars[count - 1] = short_record(6, count - 2);
        let set = SetDraft::empty().with_records(6, &calendars);
        ask_of_set(cases, &set, 22);
        ask_of_set(cases, &set, 67);
        let exceptions: Vec<Draft> = (0..count).map(|number| short_record(8, number)).collect();
        let set = SetDraft::empty().with_records(8, &exceptions);
        ask_of_set(cases, &set.with_value(8, count - 1, "WorkHours", Some(b"-1")), 70);
        ask_of_set(cases, &set, 24);
        ask_of_set(cases, &set, 50);
        let levels: Vec<i64> = (0..count).map(|at| 1 + i64::from(at > 0)).collect();
        let parents: Vec<Option<usize>> = (0..count).map(|at| (at > 0).then_some(0)).collect();
        let set = SetDraft::empty().with_records(15, &outline(&levels, &parents));
        let at = count - 1;
        ask_of_set(cases, &set.with_value(15, at, "ParentTaskID", Some(b"\"x\"")), 79);
        ask_of_set(cases, &set.with_value(15, at, "Level", Some(b"9")), 78);
    }
    for length in [LARGEST_BUNDLE - 1, LARGEST_BUNDLE, LONGEST] {
        let calendar = br#"[{"Name":"n","ID":"A"}]"#;
        let front = length - 164 - calendar.len();
        let set = Set::empty().with_bytes(5, &vec![b' '; front]).with_bytes(6, calendar);
        let bundle = Arc::new(set.bundle());
        assert_eq!(bundle.len(), length);
        for mark in [5, 67, 81] {
            ask(cases, &bundle, mark);
        }
    }
}

// ------------------------------------------------------- the other cases

/// Of what the other cases judge, some of it from each of them: reasons for two
/// marks that don't hold, one of any mark, and now and then of them all.
fn add_for_judged(cases: &mut Cases) {
    let is_judged = |case: &&GateCase| case.call == Call::Judge;
    let is_short = |case: &&GateCase| case.bundle.len() < LONGEST_ELSEWHERE;
    let judged: Vec<Bytes> = cases
        .list
        .iter()
        .filter(is_judged)
        .filter(is_short)
        .map(|case| case.bundle.clone())
        .collect();
    let step = judged.len() / JUDGED_ELSEWHERE + 1;
    for bundle in judged.iter().skip(cases.random.below(step)).step_by(step) {
        let faults: Vec<usize> = judge(bundle).board.faults().map(|(mark, _)| mark).collect();
        for _ in 0..2 {
            let broken: Vec<usize> =
                faults.iter().copied().filter(|mark| *mark >= FIRST_RULE).collect();
            if !broken.is_empty() {
                let mark = cases.random.pick(&broken);
                ask(cases, bundle, mark);
            }
        }
        let any = cases.random.below(MARKS);
        ask(cases, bundle, any);
        if cases.random.below(100) == 0 {
            add_all_marks(cases, bundle);
        }
    }
}

#[cfg(test)]
mod tests {
    use super::*;
    use crate::reason::{reason, Reason};

    fn shown_value(set: &SetDraft, mark: usize) -> Vec<u8> {
        let bundle = set.bundle();
        match reason(&bundle, mark) {
            Reason::Broken(shown) | Reason::Missing { shown, .. } => shown.value(&bundle).to_vec(),
            other => panic!("mark {mark}: {other:?}"),
        }
    }

    /// What stands before a file and how its fields are written changes where
    /// the value is, not which.
    #[test]
    fn another_form_shows_the_same_value() {
        let base = SetDraft::accepted();
        for mark in FIRST_RULE..=LAST_RULE {
            let table = files_read(mark)[0];
            for set in broken_sets(mark, &base) {
                if matches!(reason(&set.bundle(), mark), Reason::Holds) {
                    continue;
                }
                let value = shown_value(&set, mark);
                assert_eq!(shown_value(&set.only(&files_read(mark)), mark), value);
                if let FileDraft::Records(_) = set.files[table] {
                    let escaped = shown_value(&all_escaped(&set, table), mark);
                    assert_eq!(escaped, in_escapes(&value));
                }
            }
        }
    }

    #[test]
    fn strings_are_written_in_escapes() {
        assert_eq!(in_escapes(br#""Kj""#), br#""\u004B\u006A""#);
        assert_eq!(in_escapes(b"-1.5"), b"-1.5");
        assert_eq!(in_escapes(b"\"\""), b"\"\"");
    }

    #[test]
    fn the_rows_have_the_parents_that_are_meant() {
        let rows = outline(&[1, 2], &[None, Some(0)]);
        assert_eq!(rows[0].text(), br#"{"Level":1,"TaskID":"T0"}"#);
        assert_eq!(rows[1].text(), br#"{"Level":2,"TaskID":"T1","ParentTaskID":"t0"}"#);
    }
}
