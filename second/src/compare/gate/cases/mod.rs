//! The cases of the whole gate: rules, layouts, changes, lookups, reasons.

mod breaking;
mod changes;
mod companions;
mod enumerations;
mod files;
mod ids;
mod keys;
mod layout;
mod long;
mod lookups;
mod mutated;
mod one_sum;
mod outline;
mod pool;
mod random_tables;
mod reasons;
mod records;
mod runs;
mod sizes;
mod targets;
mod unread;
mod white_space;
mod wrong_characters;

use std::sync::Arc;

use super::case::{Bytes, Call, Change, GateCase, Output, LONGEST};
use super::set_draft::SetDraft;
use crate::board::{Board, Mark};
use crate::compare::random::Random;

pub(in crate::compare) use breaking::broken_sets;
pub(in crate::compare) use long::short_record;
pub(in crate::compare) use lookups::refused_bundles;
pub(in crate::compare) use mutated::{damaged, random_set};
pub(in crate::compare) use pool::Pool;
pub(in crate::compare) use reasons::{behind_others, Front};

/// The same seed always gives the same cases in the same order.
pub fn all_cases(seed: u64) -> Vec<GateCase> {
    let base = SetDraft::accepted();
    let mut cases = Cases { list: Vec::new(), random: Random::new(seed), base };
    breaking::add(&mut cases);
    keys::add(&mut cases);
    enumerations::add(&mut cases);
    targets::add(&mut cases);
    records::add(&mut cases);
    outline::add(&mut cases);
    unread::add(&mut cases);
    white_space::add(&mut cases);
    wrong_characters::add(&mut cases);
    companions::add(&mut cases);
    mutated::add(&mut cases);
    files::add(&mut cases);
    long::add(&mut cases);
    one_sum::add(&mut cases);
    ids::add(&mut cases);
    layout::add(&mut cases);
    sizes::add(&mut cases);
    changes::add(&mut cases);
    runs::add(&mut cases);
    lookups::add(&mut cases);
    reasons::add(&mut cases);
    // These came later and stand behind the others, which so keep their places and random numbers.
    keys::add_written_ordinals(&mut cases);
    outline::add_all_written_levels(&mut cases);
    enumerations::add_all_runs(&mut cases);
    long::add_all_mixed_targets(&mut cases);
    one_sum::add_all_pairs(&mut cases);
    long::add_all_copies(&mut cases);
    keys::add_all_groups(&mut cases);
    enumerations::add_all_neighbours(&mut cases);
    targets::add_all_lengths(&mut cases);
    cases.list
}

/// Cases for calls that answer the same questions with a list beside them: keys,
/// targets, IDs of every sort, files that can't be read, layouts, changes and
/// runs of them.
pub(in crate::compare) fn cases_with_keys(seed: u64) -> Vec<GateCase> {
    let base = SetDraft::accepted();
    let mut cases = Cases { list: Vec::new(), random: Random::new(seed), base };
    keys::add(&mut cases);
    targets::add(&mut cases);
    unread::add(&mut cases);
    ids::add(&mut cases);
    layout::add(&mut cases);
    changes::add(&mut cases);
    runs::add(&mut cases);
    cases.list
}

/// The cases gathered so far, the numbers to vary them with, and the accepted
/// set that most of them are made of.
struct Cases {
    list: Vec<GateCase>,
    random: Random,
    base: SetDraft,
}

impl Cases {
    fn push(&mut self, bundle: &Bytes, call: Call) {
        assert!(bundle.len() <= LONGEST);
        let case = if self.is_lent() { GateCase::lent } else { GateCase::new };
        self.list.push(case(bundle.clone(), call));
    }

    /// Every second case or so, in no step with what the cases are of.
    fn is_lent(&self) -> bool {
        (self.list.len() as u64).wrapping_mul(0x9E37_79B9_7F4A_7C15) >> 63 == 1
    }

    fn push_judge(&mut self, bundle: &Bytes) {
        self.push(bundle, Call::Judge);
    }

    fn judge(&mut self, bundle: Vec<u8>) {
        self.push_judge(&Arc::new(bundle));
    }

    fn judge_set(&mut self, set: &SetDraft) {
        self.judge(set.bundle());
    }

    fn try_change(&mut self, bundle: &Bytes, change: Change) {
        self.push(bundle, Call::Try(change));
    }

    /// The change into an output of that length, filled in some way.
    fn make_change(&mut self, bundle: &Bytes, change: Change, length: usize) {
        assert!(length <= LONGEST);
        let seed = self.random.next_number() as u32;
        self.push(bundle, Call::Make(change, Output { length: length as u32, seed }));
    }

    fn look_up(&mut self, bundle: &Bytes, number: u32) {
        self.push(bundle, Call::LookUp(number));
    }
}

/// File numbers on both sides of the last one, and such as would be a file's if
/// some of their bits were lost.
pub(in crate::compare) const FILE_NUMBERS: [u32; 14] = [
    0,
    5,
    19,
    20,
    21,
    255,
    256,
    256 + 5,
    1 << 16,
    (1 << 16) + 19,
    (1 << 31) - 1,
    1 << 31,
    (1 << 31) + 19,
    u32::MAX,
];

/// A change of any file or of none that there is, against any board.
fn any_change(cases: &mut Cases) -> Change {
    let random = &mut cases.random;
    let board = random_board(random);
    let number = match random.below(3) {
        0 => random.pick(&FILE_NUMBERS),
        _ => random.below(20) as u32,
    };
    let new = random.pick(&[None, Some(&b""[..]), Some(b"[]"), Some(b"{}"), Some(b"[{}]")]);
    Change { board, number, new: new.map(|bytes| Arc::new(bytes.to_vec())) }
}

/// The file replaced by these bytes or withdrawn.
pub(in crate::compare) fn change(board: Board, number: usize, new: Option<Vec<u8>>) -> Change {
    Change { board, number: number as u32, new: new.map(Arc::new) }
}

/// Marks that need not be those of any set: kinds, places and companions of any
/// size.
pub(in crate::compare) fn random_board(random: &mut Random) -> Board {
    let mut board = Board::fresh();
    for mark in &mut board.marks {
        *mark = random_mark(random);
    }
    board
}

pub(in crate::compare) fn random_mark(random: &mut Random) -> Mark {
    let kind = match random.below(8) {
        0 => random.next_number() as u32,
        1 => u32::MAX,
        _ => random.below(36) as u32,
    };
    Mark { kind, place: random_number(random), companion: random_number(random) }
}

fn random_number(random: &mut Random) -> u32 {
    match random.below(4) {
        0 => random.next_number() as u32,
        1 => random.pick(&[0, u32::MAX, 1 << 31]),
        _ => random.below(5000) as u32,
    }
}
