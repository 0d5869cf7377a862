//! The baseline profile (order 8): the schedule gate with four marks more.

use crate::fields::{fields_of, FILE_NAMES};
use crate::gates::{Broken, Gate};
use crate::rules::{self, BASELINE_FIELDS};
use crate::table::{read_file, Record};

pub static BASELINE: Gate = Gate {
    files: 20,
    marks: 85,
    file_names: &FILE_NAMES,
    fields: |file| fields_of(file).collect(),
    read: read_file,
    reads,
    breaks,
    deciding,
    searched: |mark| rules_of_schedule(mark).and_then(rules::searched),
};

/// 81 and 82 and 83 read file 10, 84 reads file 19.
pub const BASELINE_GIVEN: usize = 81;
pub const NO_ACTUAL_DATES: usize = 82;
pub const BASELINE_IN_ORDER: usize = 83;
pub const NO_ACTUAL_AMOUNTS: usize = 84;

const ACTUAL_DATES: [&str; 2] = ["ActualStartDate", "ActualFinishDate"];
const ACTUAL_AMOUNTS: [&str; 2] = ["Actual_ToDate_Dollars", "Actual_ToDate_Hours"];

/// The mark where it is one of document 01's.
fn rules_of_schedule(mark: usize) -> Option<usize> {
    Some(mark).filter(|mark| *mark <= rules::LAST_RULE)
}

fn reads(mark: usize) -> Vec<usize> {
    match mark {
        BASELINE_GIVEN | NO_ACTUAL_DATES | BASELINE_IN_ORDER => vec![10],
        NO_ACTUAL_AMOUNTS => vec![19],
        _ => rules::files_read(mark),
    }
}

fn breaks(mark: usize, tables: &[&[Record]]) -> Option<Broken> {
    match mark {
        BASELINE_GIVEN | NO_ACTUAL_DATES | NO_ACTUAL_AMOUNTS => {
            Broken::first(tables[0], |record| first_in_the_way(mark, record).is_some())
        }
        BASELINE_IN_ORDER => Broken::first(tables[0], starts_after_its_finish),
        _ => rules::breaking(mark, tables),
    }
}

/// The first field in table order that 81 misses, or 82 or 84 finds given.
fn first_in_the_way(mark: usize, record: &Record) -> Option<&'static str> {
    match mark {
        BASELINE_GIVEN => BASELINE_FIELDS.into_iter().find(|field| record.is_null(field)),
        NO_ACTUAL_DATES => ACTUAL_DATES.into_iter().find(|field| !record.is_null(field)),
        _ => ACTUAL_AMOUNTS.into_iter().find(|field| !record.is_null(field)),
    }
}

/// Where both dates are given.
fn starts_after_its_finish(record: &Record) -> bool {
    match (record.date("BaselineStartDate"), record.date("BaselineFinishDate")) {
        (Some(start), Some(finish)) => start > finish,
        _ => false,
    }
}

fn deciding(mark: usize, record: &Record) -> &'static str {
    match mark {
        BASELINE_GIVEN | NO_ACTUAL_DATES | NO_ACTUAL_AMOUNTS => {
            first_in_the_way(mark, record).expect("the record breaks the rule")
        }
        BASELINE_IN_ORDER => "BaselineStartDate",
        _ => crate::reason::deciding_field(mark, record),
    }
}
