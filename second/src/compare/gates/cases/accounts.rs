//! Accounts on elements of which several have one ID: leaves and others, before
//! and behind each other, in either case.

use super::super::contract_draft::{account, element, table_text};
use super::super::files::Files;
use super::super::Which;
use super::outlines::all_runs;
use super::Cases;
use crate::compare::draft::Draft;

pub(super) fn add(cases: &mut Cases) {
    for levels in all_runs(&[1, 2, 3], 3).iter().filter(|levels| levels.len() >= 2) {
        for pattern in all_runs(&[0, 1, 2], levels.len()) {
            if pattern.len() == levels.len() {
                add_pattern(cases, levels, &pattern);
            }
        }
    }
    add_long_lists(cases);
}

/// The elements have the IDs of the pattern; an account on each of them and on
/// one that isn't there.
fn add_pattern(cases: &mut Cases, levels: &[i64], pattern: &[i64]) {
    let id = |at: usize| ["e", "E", "f"][pattern[at] as usize];
    let rows: Vec<Draft> = (0..levels.len()).map(|at| element(levels[at], id(at), None)).collect();
    let rows = table_text(&rows);
    let set = Files::empty(Which::Contract).with(1, &rows).with(2, &rows);
    for (wbs, obs) in [("E", "f"), ("F", "e"), ("g", "G")] {
        let set = set.with(3, &table_text(&[account("k", wbs, obs)]));
        let mark = cases.random.pick(&[5, 6, 11, 12, 17, 18]);
        match cases.random.below(4) {
            0 => cases.judge_and_ask(&set, mark),
            _ => drop(cases.judge_files(&set)),
        }
    }
}

/// Some accounts of which the first, a middle one or the last is wrong, on each
/// element of a tree.
fn add_long_lists(cases: &mut Cases) {
    let levels = [1, 2, 3, 3, 2, 3, 4, 2];
    let id = |at: usize| format!("w{at}");
    let rows: Vec<Draft> = (0..levels.len()).map(|at| element(levels[at], &id(at), None)).collect();
    let rows = table_text(&rows);
    let set = Files::empty(Which::Contract).with(1, &rows).with(2, &rows);
    for wrong in 0..5 {
        for target in 0..levels.len() {
            let accounts: Vec<Draft> = (0..5)
                .map(|at| {
                    let on = if at == wrong { id(target) } else { id(7) };
                    account(&at.to_string(), &on.to_uppercase(), "W3")
                })
                .collect();
            cases.judge_and_ask(&set.with(3, &table_text(&accounts)), 17);
        }
    }
}
