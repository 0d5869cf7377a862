//! The outline (78 to 80): every short run of Levels with parents right and
//! wrong, and longer ones at random.

use super::random_tables::random_outline;
use super::Cases;
use crate::compare::draft::Draft;
use crate::compare::gate::set_draft::SetDraft;
use crate::compare::gate::styles::{recased, renumbered, SHORT_INTEGERS};
use crate::compare::random::Random;

/// Levels on both sides of 1.
const SHORT_LEVELS: [i64; 5] = [-1, 0, 1, 2, 3];
const LONGEST_SHORT_RUN: usize = 4;
const LONGER_RUNS: usize = 1500;

pub(super) fn add(cases: &mut Cases) {
    for length in 0..=LONGEST_SHORT_RUN {
        for run in 0..SHORT_LEVELS.len().pow(length as u32) {
            add_run(cases, &short_run(run, length));
        }
    }
    for levels in ODD_RUNS {
        add_run(cases, levels);
    }
    for _ in 0..LONGER_RUNS {
        add_longer(cases);
    }
}

/// The run of that number among all of its length.
fn short_run(number: usize, length: usize) -> Vec<i64> {
    let base = SHORT_LEVELS.len();
    (0..length).map(|at| SHORT_LEVELS[number / base.pow(at as u32) % base]).collect()
}

/// Large steps, and values at the limits of an Integer.
const ODD_RUNS: &[&[i64]] = &[
    &[1, 2, 3, 3, 2],
    &[1, 3],
    &[1, 1],
    &[1, 2, 3, 4, 5, 4, 3, 2, 1],
    &[1, 2, 3, 5, 4, 5, 6],
    &[1, 2, 4, 3, 4, 2, 3],
    &[1, 5, 4, 3, 2, 1, 2],
    &[1, 2, 3, 1, 3, 2],
    &[1, 999_999_999_999_999, 2, 3],
    &[1, 2, 999_999_999_999_999, 999_999_999_999_998, 3],
    &[-999_999_999_999_999, 1, 2],
    &[-999_999_999_999_999, -999_999_999_999_998, -999_999_999_999_999],
    &[999_999_999_999_999, 1],
    &[1, -5, 0, 1, 2],
    &[1, 2, 0, 2, 3, 1, 2],
    &[0, 1, 2, 1],
    &[2, 3, 1, 2],
    &[2_147_483_647, 1],
    &[1, 2, 2_147_483_648],
    &[1, 4_294_967_297],
    &[4_294_967_297, 4_294_967_298],
    &[1, 256, 257],
    &[257, 2],
    &[1, 65_537, 2],
];

// -------------------------------------------------------------- one run

/// How the parents of a run are given.
#[derive(Clone, Copy)]
enum Parents {
    Right,
    /// The row above: a mistake, except where it is the parent.
    Above,
    /// The nearest row exactly one level up: a mistake in a broken run.
    OneUp,
    /// Right ones, but for one record.
    OneWrong,
    /// Right ones, but for the record at this place, which is given another's.
    WrongAt(usize),
}

fn add_run(cases: &mut Cases, levels: &[i64]) {
    for parents in [Parents::Right, Parents::Above, Parents::OneUp, Parents::OneWrong] {
        let tasks = tasks_for(levels.len(), &mut cases.random);
        add_outline(cases, levels, parents, &tasks);
    }
    for at in 0..levels.len() {
        let tasks = tasks_with_one_other(levels.len(), levels.len());
        add_outline(cases, levels, Parents::WrongAt(at), &tasks);
        let tasks = tasks_with_one_other(levels.len(), at);
        add_outline(cases, levels, Parents::Right, &tasks);
    }
}

fn add_outline(cases: &mut Cases, levels: &[i64], parents: Parents, tasks: &[Draft]) {
    let given = given_parents(levels, parents, &mut cases.random);
    let outline = outline_of(levels, &given, &mut cases.random);
    cases.judge_set(&SetDraft::empty().with_records(15, &outline).with_records(9, tasks));
}

/// For each record the number of the one that is given as its parent.
fn given_parents(levels: &[i64], parents: Parents, random: &mut Random) -> Vec<Option<usize>> {
    let mut given: Vec<Option<usize>> = (0..levels.len())
        .map(|at| match parents {
            Parents::WrongAt(wrong) if wrong == at => Some(NO_ROW),
            Parents::Right | Parents::OneWrong | Parents::WrongAt(_) => right_parent(levels, at),
            Parents::Above => at.checked_sub(1),
            Parents::OneUp => levels[..at].iter().rposition(|level| *level == levels[at] - 1),
        })
        .collect();
    if matches!(parents, Parents::OneWrong) && !levels.is_empty() {
        let at = random.below(levels.len());
        given[at] = random.pick(&[None, Some(0), Some(at), Some(levels.len() - 1), Some(NO_ROW)]);
    }
    given
}

/// The number of no record: the longest run has fewer.
const NO_ROW: usize = 9;

fn right_parent(levels: &[i64], at: usize) -> Option<usize> {
    if levels[at] == 1 {
        return None;
    }
    levels[..at].iter().rposition(|level| *level < levels[at])
}

/// The TaskID of the record of that number, quotes included.
fn task_id(number: usize) -> Vec<u8> {
    format!("\"N{number}\"").into_bytes()
}

fn outline_of(levels: &[i64], parents: &[Option<usize>], random: &mut Random) -> Vec<Draft> {
    let rows = levels.iter().zip(parents).enumerate();
    rows.map(|(at, (level, parent))| {
        let level = renumbered(level.to_string().as_bytes(), random);
        let row = Draft::default().with_value("Level", &level);
        let row = row.with_value("TaskID", &recased(&task_id(at), random));
        match parent {
            Some(parent) => row.with_value("ParentTaskID", &recased(&task_id(*parent), random)),
            None => row.with_choice("ParentTaskID", random.pick(&NULLS)),
        }
    })
    .collect()
}

const NULLS: [Option<&[u8]>; 3] = [None, Some(b"null"), Some(b"\"\"")];

/// A task for each record; mostly all are SUMMARY, so that the parents are.
fn tasks_for(count: usize, random: &mut Random) -> Vec<Draft> {
    let often = random.pick(&[4, 1000]);
    (0..count)
        .map(|number| {
            let kind: &[u8] = match random.below(often) {
                0 => random.pick(&[&b"\"ACTIVITY\""[..], b"\"SUMMARY1\"", b"\"HAMMOCK\""]),
                _ => random.pick(&[&b"\"SUMMARY\""[..], b"\"summary\"", b"\"Summar\\u0079\""]),
            };
            let task = Draft::default().with_value("ID", &task_id(number));
            task.with_value("Name", b"\"N\"").with_value("TaskTypeID", kind)
        })
        .collect()
}

/// All are SUMMARY but for the one of that number, if there is one: where it is
/// a parent, its first child breaks 80.
fn tasks_with_one_other(count: usize, other: usize) -> Vec<Draft> {
    (0..count)
        .map(|number| {
            let kind: &[u8] = if number == other { b"\"HAMMOCK\"" } else { b"\"SUMMARY\"" };
            let task = Draft::default().with_value("ID", &task_id(number));
            task.with_value("Name", b"\"N\"").with_value("TaskTypeID", kind)
        })
        .collect()
}

// ----------------------------------------------- one Level in each form

/// How many records, each one Level down, stand before the one that is written:
/// behind 8 a 9 with the row above as its parent holds, and behind 9 a 10, where
/// a 1 read for it breaks 79.
const STAIRS: [usize; 4] = [0, 1, 8, 9];

/// A Level in each form behind so many records.
pub(super) fn add_all_written_levels(cases: &mut Cases) {
    for count in STAIRS {
        add_written_levels(cases, count);
    }
}

/// The Level in each form, before a comma and before the record's end, with no
/// parent and with the row above, or itself if there is none.
fn add_written_levels(cases: &mut Cases, count: usize) {
    let row = |at: usize, level: &[u8], parent: Option<usize>| {
        let row = Draft::default().with_value("Level", level).with_value("TaskID", &task_id(at));
        row.with_choice("ParentTaskID", parent.map(task_id).as_deref())
    };
    let stair: Vec<Draft> =
        (0..count).map(|at| row(at, (at + 1).to_string().as_bytes(), at.checked_sub(1))).collect();
    let tasks = tasks_with_one_other(count + 1, count + 1);
    for level in SHORT_INTEGERS {
        for parent in [None, Some(count.saturating_sub(1))] {
            let first = row(count, level, parent);
            let mut last = first.clone();
            last.members.rotate_left(1);
            for written in [first, last] {
                let outline = [&stair[..], &[written]].concat();
                let set = SetDraft::empty().with_records(15, &outline).with_records(9, &tasks);
                cases.judge_set(&set);
            }
        }
    }
}

// --------------------------------------------------------- at random

/// IDs that come more than once, tasks of one ID and other types, and tasks
/// that are missing.
fn add_longer(cases: &mut Cases) {
    let count = 3 + cases.random.below(10);
    let outline = random_outline(count, &mut cases.random);
    let mut set = cases.base.only(&[9]).with_records(15, &outline);
    for at in 0..set.records(9).len() {
        let kind = cases.random.pick(&[&b"\"SUMMARY\""[..], b"\"Summary\"", b"\"ACTIVITY\""]);
        set = set.with_value(9, at, "TaskTypeID", Some(kind));
    }
    if cases.random.below(4) == 0 {
        let at = cases.random.below(set.records(9).len());
        let again = set.records(9)[at].with_value("TaskTypeID", b"\"SUMMARY\"");
        set.records_mut(9).push(again);
    }
    cases.judge_set(&set);
}
