//! The cases of both gates: what only one of them has, and what both have over
//! their own files.

mod accounts;
mod breaking;
mod changes;
mod faults;
mod ground;
mod layout;
mod long;
mod outlines;
mod profile;
mod random_sets;
mod runs;
mod unread;

use std::sync::Arc;

use super::case::{Call, Change, GatesCase};
use super::files::Files;
use super::readings::readings;
use super::told::asked_marks;
use super::{Which, BOTH};
use crate::board::Mark;
use crate::compare::gate::case::{Bytes, Output, LONGEST};
use crate::compare::gate::cases::random_mark;
use crate::compare::random::Random;
use ground::Ground;

pub(in crate::compare) use breaking::broken_drafts as broken_contract;
pub(in crate::compare) use faults::spoilt_records;
pub(in crate::compare) use long::long_tables;

/// A set that this gate accepts.
pub(in crate::compare) fn accepted_files(which: Which) -> Files {
    match which {
        Which::Baseline => profile::files_of(&profile::baseline_set()),
        Which::Contract => super::contract_draft::ContractDraft::accepted().files(),
    }
}

/// The same seed always gives the same cases in the same order.
pub fn all_cases(seed: u64) -> Vec<GatesCase> {
    let mut cases = Cases { list: Vec::new(), random: Random::new(seed) };
    for reading in readings() {
        let bundle = Arc::new(reading.bundle);
        cases.judge(reading.which, &bundle);
        cases.all_reasons(reading.which, &bundle);
    }
    breaking::add(&mut cases);
    profile::add(&mut cases);
    outlines::add(&mut cases);
    accounts::add(&mut cases);
    faults::add(&mut cases);
    long::add(&mut cases);
    random_sets::add(&mut cases);
    for which in BOTH {
        let ground = Ground::new(which, &mut cases.random);
        unread::add(&mut cases, &ground);
        layout::add(&mut cases, &ground);
        changes::add(&mut cases, &ground);
        runs::add(&mut cases, &ground);
    }
    profile::add_fronts(&mut cases);
    cases.list
}

/// The cases gathered so far, and the numbers to vary them with.
struct Cases {
    list: Vec<GatesCase>,
    random: Random,
}

impl Cases {
    fn push(&mut self, which: Which, bundle: &Bytes, call: Call) {
        assert!(bundle.len() <= LONGEST);
        self.list.push(GatesCase { which, bundle: bundle.clone(), call });
    }

    fn judge(&mut self, which: Which, bundle: &Bytes) {
        self.push(which, bundle, Call::Judge);
    }

    fn judge_files(&mut self, files: &Files) -> Bytes {
        let bundle = Arc::new(files.bundle());
        self.judge(files.which, &bundle);
        bundle
    }

    fn reason(&mut self, which: Which, bundle: &Bytes, mark: usize) {
        self.push(which, bundle, Call::Reason(mark as u32));
    }

    /// Judged, and the mark's reason asked for.
    fn judge_and_ask(&mut self, files: &Files, mark: usize) {
        let bundle = self.judge_files(files);
        self.reason(files.which, &bundle, mark);
    }

    fn all_reasons(&mut self, which: Which, bundle: &Bytes) {
        for mark in asked_marks(which) {
            self.push(which, bundle, Call::Reason(mark));
        }
    }

    fn try_change(&mut self, which: Which, bundle: &Bytes, change: Change) {
        self.push(which, bundle, Call::Try(change));
    }

    /// The change into an output of that length, filled in some way.
    fn make_change(&mut self, which: Which, bundle: &Bytes, change: Change, length: usize) {
        assert!(length <= LONGEST);
        let seed = self.random.next_number() as u32;
        let output = Output { length: length as u32, seed };
        self.push(which, bundle, Call::Make(change, output));
    }

    fn look_up(&mut self, which: Which, bundle: &Bytes, file: u32) {
        self.push(which, bundle, Call::LookUp(file));
    }

    /// Each file that differs is put into the set that has all the others, in
    /// a try or a change that is made.
    fn add_as_changes(&mut self, base: &Files, files: &Files) {
        for number in (0..base.files.len()).filter(|at| base.files[*at] != files.files[*at]) {
            let mut before = files.clone();
            before.files[number] = base.files[number].clone();
            let board = self.random_board(files.which);
            let new = files.files[number].clone().map(Arc::new);
            let change = Change { board, file: number as u32, new };
            let (bundle, length) = (Arc::new(before.bundle()), files.bundle().len());
            match self.random.below(3) {
                0 => self.make_change(files.which, &bundle, change, length),
                _ => self.try_change(files.which, &bundle, change),
            }
        }
    }

    /// Marks that need not be those of any set.
    fn random_board(&mut self, which: Which) -> Vec<Mark> {
        (0..which.gate().marks).map(|_| random_mark(&mut self.random)).collect()
    }
}

/// File numbers on both sides of the last one, and such as would be a file's if
/// some of their bits were lost.
fn file_numbers(which: Which) -> Vec<u32> {
    let count = which.gate().files as u32;
    let mut numbers: Vec<u32> = (0..count + 3).collect();
    numbers.extend([20, 255, 256, 257, 1 << 16, (1 << 16) + 2, (1 << 31) - 1]);
    numbers.extend([1 << 31, (1 << 31) + 3, u32::MAX]);
    numbers
}
