//! Tables of 4,095 to 4,097 records: keys, links, parents and leaves found late.

use super::super::contract_draft::{account, element, subcontractor, table_text};
use super::super::files::Files;
use super::super::Which;
use super::Cases;
use crate::compare::draft::Draft;
use crate::table::MOST_RECORDS;

pub(super) fn add(cases: &mut Cases) {
    add_limits(cases);
    add_keys(cases);
    add_outlines(cases);
    add_leaves(cases);
    for length in [1, 40, 100_000] {
        add_long_ids(cases, length);
    }
}

fn id(at: usize) -> String {
    format!("{at:x}")
}

fn many(count: usize, record: impl Fn(usize) -> Draft) -> Vec<Draft> {
    (0..count).map(record).collect()
}

/// Elements of which all but the first are below it.
fn flat(count: usize) -> Vec<Draft> {
    many(count, |at| match at {
        0 => element(1, &id(0), None),
        _ => element(2, &id(at), Some("0")),
    })
}

fn empty() -> Files {
    Files::empty(Which::Contract)
}

/// For each file a table of so many records.
pub(in crate::compare) fn long_tables(count: usize) -> [Vec<Draft>; 4] {
    let subcontractors = many(count, |at| subcontractor(&id(at)));
    let accounts = many(count, |at| account(&id(at), "a", "b"));
    [subcontractors, flat(count), flat(count), accounts]
}

fn add_limits(cases: &mut Cases) {
    for count in MOST_RECORDS - 1..=MOST_RECORDS + 1 {
        for (file, table) in long_tables(count).iter().enumerate() {
            cases.judge_and_ask(&empty().with(file, &table_text(table)), file);
        }
    }
    // One element too many that is no record.
    let mut over = table_text(&flat(MOST_RECORDS));
    over.pop();
    over.extend(b",1]");
    cases.judge_and_ask(&empty().with(1, &over), 1);
}

/// The last of all copies the first, in other letters; the link that is missing
/// or found is the last.
fn add_keys(cases: &mut Cases) {
    let last = MOST_RECORDS - 1;
    let mut subcontractors = many(MOST_RECORDS, |at| subcontractor(&format!("s{at:x}")));
    let mut obs = flat(MOST_RECORDS);
    obs[last] = obs[last].with_value("SubcontractorID", b"\"SFFF\"");
    let set = empty().with(0, &table_text(&subcontractors)).with(2, &table_text(&obs));
    cases.judge_and_ask(&set, 8);
    obs[last] = obs[last].with_value("SubcontractorID", b"\"S1000\"");
    cases.judge_and_ask(&set.with(2, &table_text(&obs)), 8);
    subcontractors[last] = subcontractor("S0");
    cases.judge_and_ask(&empty().with(0, &table_text(&subcontractors)), 4);
}

/// Each below the one before; all below the first; a wrong parent at the last.
fn add_outlines(cases: &mut Cases) {
    let last = MOST_RECORDS - 1;
    let deep = many(MOST_RECORDS, |at| match at {
        0 => element(1, &id(0), None),
        _ => element(at as i64 + 1, &id(at), Some(&id(at - 1))),
    });
    for (file, table) in [(1, &deep), (2, &flat(MOST_RECORDS))] {
        cases.judge_and_ask(&empty().with(file, &table_text(table)), 14 + file);
        let mut wrong = table.to_vec();
        wrong[last] = wrong[last].with_value("ParentID", b"\"1\"");
        cases.judge_and_ask(&empty().with(file, &table_text(&wrong)), 14 + file);
        wrong[last] = wrong[last].with_value("Level", b"1").with_value("ParentID", b"\"0\"");
        cases.judge_and_ask(&empty().with(file, &table_text(&wrong)), 12 + file);
        cases.judge_and_ask(&empty().with(file, &table_text(&wrong)), 14 + file);
    }
}

/// The last account is on the last leaf, on the root, and on the one before.
fn add_leaves(cases: &mut Cases) {
    let last = MOST_RECORDS - 1;
    let mut wbs = flat(MOST_RECORDS);
    wbs[last] = wbs[last].with_value("Level", b"3").with_value("ParentID", b"\"ffe\"");
    let set = empty().with(1, &table_text(&wbs)).with(2, &table_text(&flat(2)));
    let mut accounts = many(400, |at| account(&id(at), "FFF", "1"));
    for target in ["\"fff\"", "\"FFE\"", "\"0\"", "\"1000\""] {
        accounts[399] = accounts[399].with_value("WBSElementID", target.as_bytes());
        cases.judge_and_ask(&set.with(3, &table_text(&accounts)), 17);
    }
}

/// IDs that are one or differ in their last character alone.
fn add_long_ids(cases: &mut Cases, length: usize) {
    let id = |end: char| "w".repeat(length - 1) + &end.to_string();
    let root = element(1, &id('a'), None);
    for (other, parent) in [('A', 'a'), ('b', 'A'), ('b', '@'), ('`', '`'), ('[', 'a')] {
        let wbs = [root.clone(), element(2, &id(other).to_uppercase(), Some(&id(parent)))];
        let one = account("k", &id(other), &id(parent).to_uppercase());
        let set = empty().with(1, &table_text(&wbs)).with(3, &table_text(&[one]));
        let mark = cases.random.pick(&[5, 9, 11, 15, 17]);
        cases.judge_and_ask(&set, mark);
    }
}
