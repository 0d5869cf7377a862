//! Each rule broken at the first, a middle and the last record of the accepted
//! set: judged, asked for its reason, and as a change of each file that breaks
//! it, written plainly and in another style.

use super::super::contract_draft::{account, ContractDraft};
use super::super::files::Files;
use super::super::Which;
use super::profile::{baseline_set, files_of};
use super::Cases;
use crate::compare::draft::Draft;
use crate::compare::gate::cases::broken_sets;
use crate::compare::gate::set_draft::{places, places_from};
use crate::compare::gate::styles::restyled;
use crate::compare::random::Random;
use crate::rules::{FIRST_RULE, LAST_RULE};

const STYLES: usize = 40;

pub(super) fn add(cases: &mut Cases) {
    let base = baseline_set();
    let files = files_of(&base);
    for mark in FIRST_RULE..=LAST_RULE {
        for set in broken_sets(mark, &base) {
            let broken = files_of(&set);
            cases.judge_and_ask(&broken, mark);
            cases.add_as_changes(&files, &broken);
            if cases.random.below(3) == 0 {
                let styled = files_of(&restyled(&set, &mut cases.random));
                cases.judge_and_ask(&styled, mark);
            }
        }
    }
    add_contract(cases);
}

fn add_contract(cases: &mut Cases) {
    let base = ContractDraft::accepted();
    let files = base.files();
    let bundle = cases.judge_files(&files);
    cases.all_reasons(Which::Contract, &bundle);
    for _ in 0..STYLES {
        let styled = base.restyled(&mut cases.random);
        let bundle = cases.judge_files(&styled);
        let mark = cases.random.below(19);
        cases.reason(Which::Contract, &bundle, mark);
    }
    for mark in 4..=18 {
        for set in broken_drafts(mark, &base) {
            let broken = set.files();
            cases.judge_and_ask(&broken, mark);
            cases.add_as_changes(&files, &broken);
            for _ in 0..2 {
                let styled = set.restyled(&mut cases.random);
                cases.judge_and_ask(&styled, mark);
            }
            for apart in alone(&broken, mark) {
                cases.judge_and_ask(&apart, mark);
            }
            let turned = turned(&set, mark, &mut cases.random);
            cases.judge_and_ask(&turned, mark);
        }
    }
}

/// Only the files that the mark reads, and these behind others without bytes.
fn alone(files: &Files, mark: usize) -> [Files; 2] {
    let read = Which::Contract.gate().files_of_mark(mark);
    let mut only = files.clone();
    let mut behind_empty = files.clone();
    for number in (0..4).filter(|number| !read.contains(number)) {
        only.files[number] = None;
        behind_empty.files[number] = Some(Vec::new());
    }
    // The table that is shown comes first, so that no bytes stand before it.
    if read.len() == 2 && read[1] < read[0] {
        only.files[read[1]] = None;
        behind_empty.files[read[1]] = None;
    }
    [only, behind_empty]
}

/// The members of each record in the opposite order, one of its strings escaped.
fn turned(set: &ContractDraft, mark: usize, random: &mut Random) -> Files {
    let mut turned = set.clone();
    let table = Which::Contract.gate().files_of_mark(mark)[0];
    for record in &mut turned.tables[table] {
        record.members.reverse();
        for member in &mut record.members {
            if member.value.starts_with(b"\"") && member.value.len() > 2 {
                member.value = crate::compare::gate::styles::escaped(&member.value, random);
            }
        }
    }
    turned.files()
}

/// Sets in which the rule is broken at the first, a middle and the last record,
/// and some that are nearly so.
pub(in crate::compare) fn broken_drafts(mark: usize, base: &ContractDraft) -> Vec<ContractDraft> {
    let nowhere: &[&[u8]] = &[b"\"No-1\"", b"\"n\"", b"\"W.\"", b"\"O \\u0061\""];
    match mark {
        4..=7 => repeated_ids(base, mark - 4),
        8 => with_values(base, 2, "SubcontractorID", nowhere),
        9 => with_values(base, 1, "ParentID", nowhere),
        10 => with_values(base, 2, "ParentID", nowhere),
        11 => with_values(base, 3, "WBSElementID", nowhere),
        12 => with_values(base, 3, "OBSElementID", nowhere),
        13 | 14 => {
            let levels: &[&[u8]] = &[b"0", b"-1", b"1", b"10e-1", b"5", b"999999999999999"];
            with_values(base, mark - 12, "Level", levels)
        }
        15 | 16 => {
            let file = mark - 14;
            let name: &[&[u8]] = &[b"\"W.b\"", b"\"O.b\"", b"\"x\"", b"\"\"", b"null"];
            let mut sets = with_values(base, file, "ParentID", name);
            let count = base.tables[file].len();
            sets.extend(
                places(count).iter().map(|at| base.with_value(file, *at, "ParentID", None)),
            );
            sets
        }
        17 => with_values(base, 3, "WBSElementID", &[b"\"w\"", b"\"W.A\"", b"\"W.c\""]),
        _ => with_values(base, 3, "OBSElementID", &[b"\"o\"", b"\"O.A\"", b"\"O.b\""]),
    }
}

fn with_values(
    base: &ContractDraft,
    file: usize,
    name: &str,
    values: &[&[u8]],
) -> Vec<ContractDraft> {
    let mut sets = Vec::new();
    for at in places(base.tables[file].len()) {
        sets.extend(values.iter().map(|value| base.with_value(file, at, name, Some(value))));
    }
    sets
}

/// The ID of the first record, of the one before and of one between once more,
/// in other letters.
fn repeated_ids(base: &ContractDraft, file: usize) -> Vec<ContractDraft> {
    let mut longer = base.clone();
    if file == 3 {
        longer.tables[3].push(account("a5", "W.b", "O.b"));
    }
    let records: &[Draft] = &longer.tables[file];
    let mut sets = Vec::new();
    for at in places_from(1, records.len()) {
        for from in [0, 1, at - 1] {
            if from < at {
                let id = records[from].value("ID").expect("each record has one").to_vec();
                sets.push(longer.with_value(file, at, "ID", Some(&id)));
                let upper = id.to_ascii_uppercase();
                let lower = id.to_ascii_lowercase();
                for id in [upper, lower] {
                    if !id.contains(&b'\\') {
                        sets.push(longer.with_value(file, at, "ID", Some(&id)));
                    }
                }
            }
        }
    }
    sets
}
