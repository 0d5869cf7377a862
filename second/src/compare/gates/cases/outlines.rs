//! All short outlines of WBS and OBS, right and with each parent wrong, and with
//! an account on each of their elements.

use super::super::contract_draft::{account, element, table_text};
use super::super::files::Files;
use super::super::Which;
use super::Cases;
use crate::compare::draft::Draft;

const IDS: [&str; 4] = ["a", "B", "c", "D"];
const OTHER_CASE: [&str; 4] = ["A", "b", "C", "d"];

/// Every run of up to so many of these levels.
pub(super) fn all_runs(levels: &[i64], most: usize) -> Vec<Vec<i64>> {
    let mut runs: Vec<Vec<i64>> = vec![Vec::new()];
    let mut from = 0;
    for _ in 0..most {
        let to = runs.len();
        for at in from..to {
            for level in levels {
                let mut longer = runs[at].clone();
                longer.push(*level);
                runs.push(longer);
            }
        }
        from = to;
    }
    runs
}

/// Each element's parent: looked for from the element upwards.
fn parent_of(levels: &[i64], at: usize) -> Option<usize> {
    (0..at).rev().find(|earlier| levels[*earlier] < levels[at])
}

/// The outline with the parents that the levels give, in other letters.
pub(super) fn right_outline(levels: &[i64]) -> Vec<Draft> {
    let parent = |at: usize| parent_of(levels, at).map(|parent| OTHER_CASE[parent]);
    (0..levels.len()).map(|at| element(levels[at], IDS[at], parent(at))).collect()
}

/// The outline with one parent another element, none that there is, null, or one
/// where there is none.
fn with_wrong_parent(outline: &[Draft], at: usize, manner: usize) -> Vec<Draft> {
    let mut wrong = outline.to_vec();
    let value: Option<&[u8]> = match manner {
        0 => Some(b"\"x\""),
        1 => [Some(&b"\"a\""[..]), Some(b"\"b\""), Some(b"\"c\"")][(at + 1) % 3],
        2 => Some(b"\"\""),
        3 => None,
        _ => Some(b"null"),
    };
    wrong[at] = wrong[at].with_choice("ParentID", value);
    wrong
}

pub(super) fn add(cases: &mut Cases) {
    let runs = all_runs(&[0, 1, 2, 3], 4);
    let mut tables: Vec<Vec<Draft>> = Vec::new();
    for levels in &runs {
        let right = right_outline(levels);
        for at in 0..levels.len() {
            for manner in 0..3 {
                tables.push(with_wrong_parent(&right, at, manner + 2 * (at % 2)));
            }
        }
        tables.push(right);
    }
    // Two different outlines in one set, each in both tables.
    let half = tables.len() / 2;
    for (at, table) in tables.iter().enumerate() {
        let other = &tables[(at + half) % tables.len()];
        let set = Files::empty(Which::Contract).with(1, &table_text(table));
        let set = set.with(2, &table_text(other));
        let bundle = cases.judge_files(&set);
        if at % 4 == 0 {
            let mark = cases.random.pick(&[9, 10, 13, 14, 15, 16]);
            cases.reason(Which::Contract, &bundle, mark);
        }
    }
    for levels in &runs {
        add_accounts(cases, levels);
    }
}

/// An account on each element, in the case of the other side.
fn add_accounts(cases: &mut Cases, levels: &[i64]) {
    let outline = table_text(&right_outline(levels));
    let set = Files::empty(Which::Contract).with(1, &outline).with(2, &outline);
    for at in 0..levels.len() {
        let other = (at + 1) % levels.len();
        let one = account("k", OTHER_CASE[at], IDS[other]);
        let set = set.with(3, &table_text(&[one]));
        match at % 3 {
            0 => cases.judge_and_ask(&set, 17),
            1 => cases.judge_and_ask(&set, 18),
            _ => drop(cases.judge_files(&set)),
        }
    }
}
