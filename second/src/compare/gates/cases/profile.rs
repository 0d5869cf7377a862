//! The baseline profile: sets that are accepted with it, and marks 81 to 84
//! broken and nearly so at the first, a middle and the last record.

use super::super::files::Files;
use super::super::Which;
use super::Cases;
use crate::compare::draft::text;
use crate::compare::gate::set_draft::{places, SetDraft};
use crate::compare::gate::styles::restyled;
use crate::rules::BASELINE_FIELDS;

const SCHEDULES: usize = 10;
const ASSIGNMENTS: usize = 19;

/// The files that the profile's own marks read, each with its marks.
const SPOILT: [(usize, &[usize]); 2] = [(SCHEDULES, &[81, 82, 83]), (ASSIGNMENTS, &[84])];

/// The sample with a baseline for each task and no progress.
pub(super) fn baseline_set() -> SetDraft {
    let mut set = SetDraft::accepted();
    for schedule in set.records_mut(SCHEDULES) {
        let values: [&[u8]; 5] = [b"5", b"\"2020-01-01\"", b"\"2020-01-06\"", b"0", b"-0"];
        for (field, value) in BASELINE_FIELDS.iter().zip(values) {
            *schedule = schedule.with_value(field, value);
        }
        *schedule = schedule.without("ActualStartDate");
    }
    for assignment in set.records_mut(ASSIGNMENTS) {
        *assignment = assignment.without("Actual_ToDate_Dollars");
    }
    set
}

pub(super) fn files_of(set: &SetDraft) -> Files {
    let files = (0..20).map(|number| set.bytes(number)).collect();
    Files { which: Which::Baseline, files }
}

/// A field and its value, nothing where it is absent.
type FieldValue = (&'static str, Option<&'static [u8]>);

/// What is done to a record of either file, broken or nearly so.
fn spoilings(file: usize) -> Vec<Vec<FieldValue>> {
    match file {
        SCHEDULES => {
            let mut all = without_baseline();
            all.extend(with_dates());
            let dates: [&[u8]; 2] = [b"\"2020-01-01\"", b"\"2020\\u002d01-31\""];
            all.extend(given_values("ActualStartDate", "ActualFinishDate", &dates));
            all
        }
        _ => {
            let values: [&[u8]; 6] = [b"0", b"-0", b"0.0", b"12.5", b"-1e3", b"1e-15"];
            given_values("Actual_ToDate_Dollars", "Actual_ToDate_Hours", &values)
        }
    }
}

/// Each of the five null in each form, each two, each left alone, and all.
fn without_baseline() -> Vec<Vec<FieldValue>> {
    let null: Option<&[u8]> = Some(b"null");
    let mut all: Vec<Vec<FieldValue>> = Vec::new();
    for chosen in 1..32 {
        let fields = (0..5).filter(|bit| chosen >> bit & 1 == 1).map(|bit| BASELINE_FIELDS[bit]);
        let fields: Vec<&'static str> = fields.collect();
        all.push(fields.iter().map(|field| (*field, null)).collect());
        if fields.len() == 1 || fields.len() == 5 {
            all.push(fields.iter().map(|field| (*field, None)).collect());
        }
    }
    all
}

/// Start and finish: equal, apart by a day, a month, a year, and one of them null.
fn with_dates() -> Vec<Vec<FieldValue>> {
    let dates: [&'static [u8]; 8] = [
        b"\"2020-05-10\"",
        b"\"2020-05-11\"",
        b"\"2020-06-01\"",
        b"\"2021-01-01\"",
        b"\"2019-12-31\"",
        b"\"0001-01-01\"",
        b"\"9999-12-31\"",
        b"\"2020\\u002d05-\\u0031\\u0030\"",
    ];
    let pair = |start: Option<&'static [u8]>, finish: Option<&'static [u8]>| {
        vec![("BaselineStartDate", start), ("BaselineFinishDate", finish)]
    };
    let mut all = Vec::new();
    for start in dates {
        all.extend(dates.map(|finish| pair(Some(start), Some(finish))));
    }
    all.push(pair(Some(b"\"2021-01-01\""), Some(b"null")));
    all.push(pair(None, Some(b"\"0001-01-01\"")));
    all
}

/// One given, the other, both; and neither, in both forms of null.
fn given_values(
    first: &'static str,
    second: &'static str,
    values: &[&'static [u8]],
) -> Vec<Vec<FieldValue>> {
    let null: Option<&'static [u8]> = Some(b"null");
    let mut all = vec![vec![(first, null), (second, null)], vec![(first, None), (second, null)]];
    for value in values {
        let value = Some(*value);
        all.push(vec![(first, value)]);
        all.push(vec![(second, value)]);
        all.push(vec![(first, null), (second, value)]);
        all.push(vec![(second, value), (first, value)]);
    }
    all
}

fn spoilt(base: &SetDraft, file: usize, at: usize, values: &[FieldValue]) -> SetDraft {
    let mut set = base.clone();
    for (name, value) in values {
        set = set.with_value(file, at, name, *value);
    }
    set
}

/// The files of all that, each spoilt at one place.
pub(super) fn profile_files(file: usize) -> Vec<Vec<u8>> {
    let base = baseline_set();
    let count = base.records(file).len();
    let all = spoilings(file).into_iter().enumerate();
    let at = |round: usize| places(count)[round % 3];
    all.map(|(round, values)| {
        let set = spoilt(&base, file, at(round), &values);
        text(file, set.records(file))
    })
    .collect()
}

pub(super) fn add(cases: &mut Cases) {
    let base = baseline_set();
    let bundle = cases.judge_files(&files_of(&base));
    cases.all_reasons(Which::Baseline, &bundle);
    // The project's own dates are not asked about.
    let actual = base.with_value(3, 0, "ActualStartDate", Some(b"\"2020-01-01\""));
    let dated = actual.with_value(3, 0, "BaselineStartDate", Some(b"\"2021-01-01\""));
    cases.judge_files(&files_of(&dated.with_value(
        3,
        0,
        "BaselineFinishDate",
        Some(b"\"2020-01-01\""),
    )));
    for (file, marks) in SPOILT {
        for values in spoilings(file) {
            for at in places(base.records(file).len()) {
                let set = spoilt(&base, file, at, &values);
                let files = files_of(&set);
                let bundle = cases.judge_files(&files);
                for mark in marks {
                    cases.reason(Which::Baseline, &bundle, *mark);
                }
                cases.add_as_changes(&files_of(&base), &files);
                add_apart(cases, &set, file, marks);
            }
            for last in [false, true] {
                add_turned(cases, &base, file, &values, last, marks);
            }
        }
    }
}

/// The file by itself, behind files without bytes, and in another style.
fn add_apart(cases: &mut Cases, set: &SetDraft, file: usize, marks: &[usize]) {
    let mark = cases.random.pick(marks);
    let alone = files_of(&set.only(&[file]));
    let styled = files_of(&restyled(set, &mut cases.random));
    match cases.random.below(3) {
        0 => cases.judge_and_ask(&alone, mark),
        1 => cases.judge_and_ask(&alone.with(2, b"").with(4, b""), mark),
        _ => cases.judge_and_ask(&styled, mark),
    }
}

/// Each of these files by itself and behind files without bytes, whatever the seed.
pub(super) fn add_fronts(cases: &mut Cases) {
    let base = baseline_set();
    for (file, marks) in SPOILT {
        for values in spoilings(file) {
            let alone = files_of(&spoilt(&base, file, 0, &values).only(&[file]));
            let behind_empty = alone.with(2, b"").with(4, b"");
            for files in [alone, behind_empty] {
                let bundle = cases.judge_files(&files);
                for mark in marks {
                    cases.reason(Which::Baseline, &bundle, *mark);
                }
            }
        }
    }
}

/// The field that is spoilt is the first or the last one written in its record.
fn add_turned(
    cases: &mut Cases,
    base: &SetDraft,
    file: usize,
    values: &[FieldValue],
    last: bool,
    marks: &[usize],
) {
    let mut turned = spoilt(base, file, 1, values).only(&[file]);
    let record = &mut turned.records_mut(file)[1];
    if let Some(place) = record.position(values[0].0) {
        let member = record.members.remove(place);
        let end = if last { record.members.len() } else { 0 };
        record.members.insert(end, member);
        let bundle = cases.judge_files(&files_of(&turned));
        for mark in marks {
            cases.reason(Which::Baseline, &bundle, *mark);
        }
    }
}
