//! Keys that all have one sum (order 7). A lookup by sums alone would take
//! them for one key, or would compare each with all others.

use super::keys::restyled_ids;
use super::long::short_record;
use super::Cases;
use crate::compare::draft::{quoted, Draft};
use crate::compare::gate::set_draft::{places_from, SetDraft};
use crate::rules::key_of;
use crate::table::MOST_RECORDS;

pub(super) fn add(cases: &mut Cases) {
    for count in [2, 300, MOST_RECORDS] {
        add_keys(cases, 6, "ID", count);
        add_keys(cases, 16, "ID", count);
        // One task has all links.
        add_keys(cases, 14, "SuccessorTaskID", count);
        add_targets(cases, count);
    }
}

/// Keys that start with two IDs and have one sum over both.
pub(super) fn add_all_pairs(cases: &mut Cases) {
    for table in [12, 13, 14, 18, 19] {
        add_pairs(cases, table, TAILS.len());
        add_pairs(cases, table, 300);
    }
}

/// `b[` and `az` have one sum, and so have all texts made of as many of them.
fn id(number: usize) -> String {
    let pair = |bit: usize| if number >> bit & 1 == 1 { "az" } else { "b[" };
    (0..12).map(pair).collect()
}

fn keyed(table: usize, name: &str, id: &str) -> Draft {
    short_record(table, 0).with_value(name, &quoted(id))
}

/// All differ; the last is a copy of the first, of the one before it, and of
/// the first in capitals; one has another sum.
fn add_keys(cases: &mut Cases, table: usize, name: &str, count: usize) {
    let mut records: Vec<Draft> =
        (0..count).map(|number| keyed(table, name, &id(number))).collect();
    cases.judge_set(&SetDraft::empty().with_records(table, &records));
    let last = [id(0), id(count - 2), id(0).to_uppercase(), "c[".to_string()];
    for text in last {
        records[count - 1] = keyed(table, name, &text);
        cases.judge_set(&SetDraft::empty().with_records(table, &records));
    }
}

/// How the two IDs of a key end: 31 times the sum of the first and that of the
/// second are always as much, also where the first has another sum.
const TAILS: [[&str; 2]; 6] =
    [["b[", "b["], ["az", "b["], ["b[", "az"], ["ay", "c["], ["az", "az"], ["ay", "bz"]];

/// The two IDs that a key starts with. All have one sum over both.
fn pair(number: usize) -> [String; 2] {
    let [first, second] = TAILS[number % TAILS.len()];
    let pairs = number / TAILS.len();
    [id(pairs / 8) + first, id(pairs % 8) + second]
}

fn paired(table: usize, number: usize) -> Draft {
    let ids = pair(number);
    let with_id = |draft: Draft, (name, id): (&&str, &String)| draft.with_value(name, &quoted(id));
    key_of(table).iter().zip(&ids).fold(short_record(table, 0), with_id)
}

/// All differ; then one repeats the first or the one before it, as it is, in
/// some case, and with escapes.
fn add_pairs(cases: &mut Cases, table: usize, count: usize) {
    let records: Vec<Draft> = (0..count).map(|number| paired(table, number)).collect();
    cases.judge_set(&SetDraft::empty().with_records(table, &records));
    for at in places_from(1, count) {
        let mut sources = vec![0, at - 1];
        sources.dedup();
        for from in sources {
            for style in 0..3 {
                let mut repeated = records.clone();
                repeated[at] = restyled_ids(cases, table, &records[from], style);
                cases.judge_set(&SetDraft::empty().with_records(table, &repeated));
            }
        }
    }
}

/// Workshifts of such calendars: all are there, and then not the first, not
/// the last.
fn add_targets(cases: &mut Cases, count: usize) {
    let asking: Vec<Draft> = (0..count).map(|number| keyed(7, "CalendarID", &id(number))).collect();
    let calendars: Vec<Draft> =
        (0..count).rev().map(|number| keyed(6, "ID", &id(number))).collect();
    let set = SetDraft::empty().with_records(7, &asking);
    for found in [&calendars[..], &calendars[1..], &calendars[..count - 1]] {
        cases.judge_set(&set.with_records(6, found));
    }
}

#[cfg(test)]
mod tests {
    use std::collections::HashSet;

    use super::{id, pair};
    use crate::table::MOST_RECORDS;

    fn sum(text: &str) -> u32 {
        text.bytes().fold(0, |sum: u32, byte| sum.wrapping_mul(31).wrapping_add(u32::from(byte)))
    }

    #[test]
    fn ids_differ_and_have_one_sum() {
        let ids: HashSet<String> = (0..MOST_RECORDS).map(id).collect();
        assert_eq!(ids.len(), MOST_RECORDS);
        let sums: HashSet<u32> = ids.iter().map(|id| sum(id)).collect();
        assert_eq!(sums.len(), 1);
    }

    #[test]
    fn pairs_differ_and_have_one_sum() {
        let pairs: HashSet<[String; 2]> = (0..300).map(pair).collect();
        assert_eq!(pairs.len(), 300);
        let over_both =
            |[first, second]: &[String; 2]| sum(first).wrapping_mul(31).wrapping_add(sum(second));
        let sums: HashSet<u32> = pairs.iter().map(over_both).collect();
        assert_eq!(sums.len(), 1);
        let firsts: HashSet<u32> = pairs.iter().map(|[first, _]| sum(first)).collect();
        assert_eq!(firsts.len(), 2);
    }
}
