//! Each rule broken at the first, a middle and the last record, in the whole set
//! and behind files of every sort; parents and hours that are null.

use super::Cases;
use crate::compare::gate::cases::{behind_others, broken_sets, Front};
use crate::compare::gate::set_draft::{places, SetDraft};
use crate::compare::gate::styles::restyled;
use crate::rules::{FIRST_RULE, LAST_RULE};

pub(super) fn add(cases: &mut Cases) {
    let base = cases.base.clone();
    for mark in FIRST_RULE..=LAST_RULE {
        for (round, set) in broken_sets(mark, &base).into_iter().enumerate() {
            cases.in_both(set.bundle());
            let styled = restyled(&set, &mut cases.random);
            cases.in_either(styled.bundle());
            // Files of any bytes keep most marks from being judged: once will do.
            let front = if round == 0 { Front::Mixed } else { Front::Omitted };
            let behind = behind_others(&set, mark, front, &mut cases.random);
            cases.in_either(behind.bundle());
        }
    }
    add_nulls(cases, &base);
}

/// What null is written as.
const NULLS: [Option<&[u8]>; 3] = [None, Some(b"null"), Some(b"\"\"")];

/// The three rules that are broken by a value as well as by null: 69 of hours,
/// 79 of a parent, and 80, of which the parent is no SUMMARY.
fn add_nulls(cases: &mut Cases, base: &SetDraft) {
    for sunday in [None, Some(&b"null"[..]), Some(b"0"), Some(b"-0.0e5")] {
        for at in places(base.records(7).len()) {
            let mut set = base.with_value(7, at, "SundayWorkHours", sunday);
            for day in ["Monday", "Tuesday", "Wednesday", "Thursday", "Friday", "Saturday"] {
                set = set.with_value(7, at, &format!("{day}WorkHours"), None);
            }
            cases.in_either(set.bundle());
        }
    }
    let without_summary = base.with_value(9, 1, "TaskTypeID", Some(b"\"HAMMOCK\""));
    for parent in NULLS.into_iter().chain([Some(&b"\"x\""[..]), Some(b"\"s\\u0032\"")]) {
        for at in places(base.records(15).len()) {
            for set in [base, &without_summary] {
                cases.in_either(set.with_value(15, at, "ParentTaskID", parent).bundle());
            }
        }
        // A first record without a parent by Level.
        let set = base.with_value(15, 0, "Level", Some(b"2"));
        cases.in_either(set.with_value(15, 0, "ParentTaskID", parent).bundle());
    }
}
