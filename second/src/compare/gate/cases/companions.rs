//! The record that a mark names beside its place (order 5): every pattern of
//! equal keys in a short table, a fault of each kind in the first, a middle and
//! the last record of each file, and boards with companions of any size.

use std::sync::Arc;

use super::long::short_record;
use super::{change, random_board, Cases};
use crate::bundle::FILES;
use crate::compare::draft::Draft;
use crate::compare::faulty::faulty_files;
use crate::compare::gate::set_draft::SetDraft;
use crate::compare::gate::styles::restyled_file;

const LONGEST_PATTERN: usize = 5;

pub(super) fn add(cases: &mut Cases) {
    for table in 4..FILES {
        for pattern in patterns(LONGEST_PATTERN) {
            add_keys(cases, table, &pattern);
        }
    }
    for table in 1..FILES {
        for file in faulty_files(table, 1) {
            add_file(cases, table, file.contents);
        }
    }
}

// ------------------------------------------------------------------ keys

/// All ways in which the keys of up to so many records can be equal or not:
/// each record has the number of an earlier one's key, or the next free number.
fn patterns(longest: usize) -> Vec<Vec<usize>> {
    let mut all: Vec<Vec<usize>> = vec![vec![0]];
    let mut shorter = 0;
    while shorter < all.len() {
        let pattern = all[shorter].clone();
        shorter += 1;
        if pattern.len() < longest {
            let free = pattern.iter().max().map_or(0, |most| most + 1);
            all.extend((0..=free).map(|next| [&pattern[..], &[next]].concat()));
        }
    }
    all
}

/// As plain records, and in other spellings as the new bytes of a change.
fn add_keys(cases: &mut Cases, table: usize, pattern: &[usize]) {
    let records: Vec<Draft> = pattern.iter().map(|key| short_record(table, *key)).collect();
    cases.judge_set(&SetDraft::empty().with_records(table, &records));
    let restyled = restyled_file(table, &records, &mut cases.random);
    add_as_change(cases, table, restyled);
}

// ----------------------------------------------------------------- files

fn add_file(cases: &mut Cases, table: usize, contents: Vec<u8>) {
    cases.judge_set(&SetDraft::empty().with_bytes(table, &contents));
    add_as_change(cases, table, contents);
}

/// Against any board: only the marks that read the file lose their companions.
fn add_as_change(cases: &mut Cases, table: usize, contents: Vec<u8>) {
    let before = Arc::new(SetDraft::empty().bundle());
    let board = random_board(&mut cases.random);
    cases.try_change(&before, change(board, table, Some(contents)));
}

#[cfg(test)]
mod tests {
    use super::*;
    use crate::board::{broken_at, HOLDS};
    use crate::gate::judge;

    #[test]
    fn every_pattern_is_there_once() {
        let all = patterns(4);
        assert_eq!(all.len(), 1 + 2 + 5 + 15);
        assert_eq!(all[..4], [vec![0], vec![0, 0], vec![0, 1], vec![0, 0, 0]]);
        assert_eq!(all[all.len() - 1], [0, 1, 2, 3]);
    }

    /// The first record whose number came before, with the first of that number.
    #[test]
    fn a_repeated_key_names_the_first_of_its_number() {
        for table in 4..FILES {
            for pattern in patterns(LONGEST_PATTERN) {
                let first_of = |key| pattern.iter().position(|other| *other == key).unwrap();
                let is_copy = |at: &usize| first_of(pattern[*at]) < *at;
                let expected = match (0..pattern.len()).find(is_copy) {
                    Some(at) => broken_at(at + 1, first_of(pattern[at]) + 1),
                    None => HOLDS,
                };
                let records: Vec<Draft> =
                    pattern.iter().map(|key| short_record(table, *key)).collect();
                let set = SetDraft::empty().with_records(table, &records);
                let judged = judge(&set.bundle()).board.marks[table + 16];
                assert_eq!(judged, expected, "file {table} {pattern:?}");
            }
        }
    }
}
