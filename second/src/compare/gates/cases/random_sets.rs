//! Sets whose tables are changed at random in few places or many.

use super::super::contract_draft::ContractDraft;
use super::super::contract_draft::{account, element, restyled, subcontractor, table_text};
use super::super::files::Files;
use super::super::Which;
use super::profile::{baseline_set, files_of};
use super::Cases;
use crate::compare::draft::Draft;
use crate::compare::gate::cases::{damaged, random_set};
use crate::compare::gate::styles::shuffle;
use crate::compare::random::Random;
use crate::gates::calls::judge;

const SCHEDULE_SETS: usize = 1_500;
const CONTRACT_SETS: usize = 5_000;

pub(super) fn add(cases: &mut Cases) {
    let base = baseline_set();
    for round in 0..SCHEDULE_SETS {
        let set = files_of(&random_set(&base, round, &mut cases.random));
        add_set(cases, &set);
    }
    for _ in 0..CONTRACT_SETS {
        let set = random_contract_set(&mut cases.random);
        add_set(cases, &set);
    }
}

/// Judged, and asked for the reason of some mark, mostly one that doesn't hold.
fn add_set(cases: &mut Cases, set: &Files) {
    let bundle = cases.judge_files(set);
    let gate = set.which.gate();
    let marks = judge(gate, &bundle).marks;
    let faults: Vec<usize> = (0..marks.len()).filter(|mark| marks[*mark].kind != 0).collect();
    let mark = match cases.random.below(8) {
        0 => cases.random.below(gate.marks + 2),
        _ if faults.is_empty() => cases.random.below(gate.marks),
        _ => cases.random.pick(&faults),
    };
    cases.reason(set.which, &bundle, mark);
}

fn random_contract_set(random: &mut Random) -> Files {
    let base = ContractDraft::accepted();
    let mut files = Files::empty(Which::Contract);
    for (file, records) in base.tables.iter().enumerate() {
        let table = match random.below(3) {
            0 => records.clone(),
            _ => random_table(file, records, random),
        };
        files.files[file] = match random.below(12) {
            0 => None,
            1 => Some(damaged(&table_text(&table), random)),
            2..=5 => Some(restyled(&table, random)),
            _ => Some(table_text(&table)),
        };
    }
    files
}

const WBS_IDS: [&str; 9] = ["W", "W.a", "W.a.1", "w.a.2", "W.b", "W.c", "W.A", "W", "x"];
const OBS_IDS: [&str; 8] = ["O", "O.a", "O.a.1", "O.b", "o.c", "o.A", "O", "x"];
const SUBCONTRACTOR_IDS: [&str; 6] = ["S1", "s2", "S4", "s1", "S/3 \\\"x\\\"", "S"];

/// A table near the accepted one, or of random records.
pub(super) fn random_table(file: usize, records: &[Draft], random: &mut Random) -> Vec<Draft> {
    let mut table = records.to_vec();
    if random.below(3) == 0 {
        table = random_records(file, random);
    }
    for _ in 0..random.below(3) {
        if table.is_empty() {
            break;
        }
        let at = random.below(table.len());
        match random.below(5) {
            0 => drop(table.remove(at)),
            1 => table.insert(random.below(at + 1), table[at].clone()),
            2 => shuffle(&mut table, random),
            _ => table[at] = with_other_value(file, &table[at], random),
        }
    }
    table
}

fn quoted(id: &str) -> Vec<u8> {
    format!("\"{id}\"").into_bytes()
}

fn with_other_value(file: usize, record: &Draft, random: &mut Random) -> Draft {
    let null: &[u8] = random.pick(&[&b"null"[..], b"\"\""]);
    match (file, random.below(4)) {
        (0, _) => record.with_value("ID", &quoted(random.pick(&SUBCONTRACTOR_IDS))),
        (1, 0) => record.with_value("ID", &quoted(random.pick(&WBS_IDS))),
        (2, 0) => record.with_value("ID", &quoted(random.pick(&OBS_IDS))),
        (1, 1) => record.with_value("ParentID", &quoted(random.pick(&WBS_IDS))),
        (2, 1) => record.with_value("ParentID", &quoted(random.pick(&OBS_IDS))),
        (2, 2) => record.with_value("SubcontractorID", &quoted(random.pick(&SUBCONTRACTOR_IDS))),
        (1 | 2, _) if random.below(3) == 0 => record.with_value("ParentID", null),
        (1 | 2, _) => record.with_value("Level", random.pick(&[&b"0"[..], b"1", b"2", b"3", b"4"])),
        (_, 0) => record.with_value("ID", &quoted(random.pick(&["A1", "a2", "A 3", "A4"]))),
        (_, 1) => record.with_value("WBSElementID", &quoted(random.pick(&WBS_IDS))),
        _ => record.with_value("OBSElementID", &quoted(random.pick(&OBS_IDS))),
    }
}

/// Levels that mostly run as they should, with parents mostly right.
fn random_records(file: usize, random: &mut Random) -> Vec<Draft> {
    let count = random.below(7);
    match file {
        0 => (0..count).map(|_| subcontractor(random.pick(&SUBCONTRACTOR_IDS))).collect(),
        3 => (0..count)
            .map(|at| {
                let (wbs, obs) = (random.pick(&WBS_IDS), random.pick(&OBS_IDS));
                account(&format!("A{at}"), wbs, obs)
            })
            .collect(),
        _ => random_outline(file, count, random),
    }
}

fn random_outline(file: usize, count: usize, random: &mut Random) -> Vec<Draft> {
    let ids: &[&str] = if file == 1 { &WBS_IDS } else { &OBS_IDS };
    let mut rows: Vec<(i64, &str)> = Vec::new();
    let mut drafts = Vec::new();
    for at in 0..count {
        let before = rows.last().map_or(0, |row| row.0);
        let level = match random.below(8) {
            0 => random.pick(&[-1, 0, 1, 2, 5, before + 2]),
            _ if at == 0 => 1,
            _ => 2 + random.below(before.clamp(1, 4) as usize) as i64,
        };
        let id = if random.below(4) == 0 { random.pick(ids) } else { ids[at % ids.len()] };
        let parent = rows.iter().rposition(|row| row.0 < level).map(|at| rows[at].1);
        let parent = match random.below(10) {
            0 => Some(random.pick(ids)),
            1 => None,
            _ => parent,
        };
        drafts.push(element(level, id, parent));
        rows.push((level, id));
    }
    drafts
}
