//! The cases of the calls with a lent list: those of the gate about keys and
//! targets, each with a list of some length around the one that is needed, and
//! keys that are written in every way and share their sums.

use std::sync::Arc;

use super::case::{Call, ListedCase, LONGEST_BUNDLE, LONGEST_LIST, LONGEST_OUTPUT};
use crate::board::Board;
use crate::bundle::{files, FILES};
use crate::compare::draft::{quoted, Draft};
use crate::compare::gate::case::{Bytes, Call as GateCall, Change, GateCase};
use crate::compare::gate::cases::{
    broken_sets, cases_with_keys, random_mark, random_set, short_record,
};
use crate::compare::gate::set_draft::{FileDraft, SetDraft};
use crate::compare::gate::styles::{escaped, recased, restyled};
use crate::compare::random::Random;
use crate::gate::changed_files;
use crate::listed::{entries_of, files_of_change};
use crate::rules::key_of;
use crate::table::MOST_RECORDS;

/// One of so many of the gate's cases is asked with a list.
const STEP: usize = 9;
const RANDOM_SETS: usize = 500;

/// The same seed always gives the same cases in the same order.
pub fn all_cases(seed: u64) -> Vec<ListedCase> {
    let mut cases = Cases { list: Vec::new(), random: Random::new(seed) };
    let base = SetDraft::accepted();
    add_lengths(&mut cases, &base);
    for mark in (20..=35).chain(48..=64) {
        for set in broken_sets(mark, &base) {
            cases.judge(set.bundle());
            cases.changes_between(&base, &set);
        }
    }
    for round in 0..RANDOM_SETS {
        let set = random_set(&base, round, &mut cases.random);
        cases.judge(set.bundle());
    }
    for file in 4..FILES {
        add_sums(&mut cases, file);
        add_unreadable(&mut cases, &base, file);
    }
    add_long(&mut cases);
    for case in cases_with_keys(seed).into_iter().step_by(STEP) {
        cases.with_list(&case);
    }
    cases.list
}

struct Cases {
    list: Vec<ListedCase>,
    random: Random,
}

impl Cases {
    fn push(&mut self, bundle: &Bytes, call: Call, list: usize) {
        let list = list.min(LONGEST_LIST as usize) as u32;
        self.list.push(ListedCase { bundle: bundle.clone(), call, list });
    }

    /// In a list of some length around the needed one.
    fn around(&mut self, bundle: &Bytes, call: Call) {
        let needed = needed(bundle, &call);
        let list = match self.random.below(20) {
            0..=9 => needed,
            10..=12 => needed.saturating_sub(1),
            13..=15 => needed + 1,
            16 => 0,
            17 | 18 => needed + 2 + self.random.below(60),
            _ if bundle.len() < 400 && self.random.below(8) == 0 => needed + 2_000,
            _ => self.random.below(needed + 1),
        };
        self.push(bundle, call, list);
    }

    fn judge(&mut self, bundle: Vec<u8>) {
        let bundle = Arc::new(bundle);
        self.around(&bundle, Call::Judge);
        if self.random.below(5) == 0 {
            self.push(&bundle, Call::Plain, 0);
        }
    }

    fn board(&mut self) -> Board {
        let mut board = Board::fresh();
        for mark in &mut board.marks {
            *mark = random_mark(&mut self.random);
        }
        board
    }

    /// Each file that differs, put into the set that has all the others.
    fn changes_between(&mut self, base: &SetDraft, set: &SetDraft) {
        for number in (0..FILES).filter(|number| base.bytes(*number) != set.bytes(*number)) {
            let before = Arc::new(set.with_file(number, base.files[number].clone()).bundle());
            let board = self.board();
            let new = set.bytes(number).map(Arc::new);
            let change = Change { board, number: number as u32, new };
            let length = set.bundle().len() as u32;
            self.around(&before, Call::Try(change.clone()));
            self.around(&before, Call::Make(change, length));
        }
    }

    /// A case of the gate, asked with a list, unless something in it is too long.
    fn with_list(&mut self, case: &GateCase) {
        if case.bundle.len() > LONGEST_BUNDLE {
            return;
        }
        match &case.call {
            GateCall::Judge => self.around(&case.bundle, Call::Judge),
            GateCall::Try(change) => self.around(&case.bundle, Call::Try(change.clone())),
            GateCall::Make(_, output) if output.length > LONGEST_OUTPUT => {}
            GateCall::Make(change, output) => {
                self.around(&case.bundle, Call::Make(change.clone(), output.length));
            }
            GateCall::LookUp(_) | GateCall::Reason(_) => {
                self.push(&case.bundle, Call::Plain, 0);
            }
        }
    }
}

/// How many entries the call leaves in a list that is long enough; 5 where it is
/// refused whatever the list.
fn needed(bundle: &[u8], call: &Call) -> usize {
    let listed = match call {
        Call::Judge => files(bundle).map(|files| entries_of(&files, 4..FILES).len()),
        Call::Try(change) | Call::Make(change, _) => {
            let new = change.new.as_deref().map(Vec::as_slice);
            let number = change.number as usize;
            changed_files(bundle, number, new)
                .map(|files| entries_of(&files, files_of_change(number)).len())
        }
        Call::Plain => Ok(0),
    };
    listed.unwrap_or(5)
}

/// Every length up to some over the needed one, and far more, in each call.
fn add_lengths(cases: &mut Cases, base: &SetDraft) {
    let sample = Arc::new(base.bundle());
    let small = Arc::new(base.only(&[6, 7, 9]).bundle());
    let none = Arc::new(SetDraft::empty().bundle());
    for bundle in [&sample, &small, &none] {
        let mut calls = vec![Call::Judge];
        for number in 0..FILES as u32 + 1 {
            let board = cases.board();
            let file = (number as usize).min(FILES - 1);
            let new = base.bytes(file).map(Arc::new);
            let put = Change { board, number, new };
            let withdrawn = Change { new: None, ..put.clone() };
            calls.push(Call::Try(put.clone()));
            calls.push(Call::Make(put.clone(), 20_000));
            calls.push(Call::Make(withdrawn, bundle.len() as u32 - 1));
        }
        for call in calls {
            let needed = needed(bundle, &call);
            for list in [0, needed.saturating_sub(1), needed, needed + 1, needed + 30] {
                cases.push(bundle, call.clone(), list);
            }
        }
    }
    for bundle in [&small, &none] {
        cases.push(bundle, Call::Judge, LONGEST_LIST as usize);
        cases.push(bundle, Call::Plain, 0);
        let board = cases.board();
        let change = Change { board, number: 7, new: None };
        cases.push(bundle, Call::Try(change.clone()), LONGEST_LIST as usize);
        cases.push(bundle, Call::Make(change, 5_000), LONGEST_LIST as usize);
    }
    for bundle in [none[1..].to_vec(), vec![0; 164], [&none[..], b" "].concat()] {
        let bundle = Arc::new(bundle);
        let board = cases.board();
        let change = Change { board, number: 6, new: None };
        for list in [0, 1, 9] {
            cases.push(&bundle, Call::Judge, list);
            cases.push(&bundle, Call::Try(change.clone()), list);
            cases.push(&bundle, Call::Make(change.clone(), 500), list);
        }
        cases.push(&bundle, Call::Plain, 0);
    }
    add_too_long(cases, &none);
}

/// A new bundle that is too long, with a list of any length.
fn add_too_long(cases: &mut Cases, none: &Bytes) {
    let board = cases.board();
    let new = Some(Arc::new(vec![b' '; 1_048_577 - 164]));
    let change = Change { board, number: 6, new };
    for list in [0, 4] {
        cases.push(none, Call::Try(change.clone()), list);
        cases.push(none, Call::Make(change.clone(), 500), list);
    }
}

// ------------------------------------------------------------------- keys

/// Keys that share a sum, differ in case, are written in escapes, and are so
/// long that their sums wrap; in any order.
fn add_sums(cases: &mut Cases, file: usize) {
    let families: [&[&str]; 7] = [
        &["b[", "az", "C", "c", "a"],
        &["zzzzzzz", "zzzzzzy", "ZZZZZZZ", "a"],
        &["b[az", "azb[", "b[b[", "azaz", "AZB[", "q"],
        &["a a", "A-A", "~", "!", "@", "`", "{", "["],
        &["a very long key of many words, whose sum wraps again and again", "x", "X x"],
        &["z", "y", "x", "w"],
        &["a", "a", "A", "b"],
    ];
    let name = key_of(file)[0];
    for keys in families {
        for round in 0..6 {
            let mut records: Vec<Draft> = Vec::new();
            for at in 0..keys.len() {
                let key = keys[(at + round) % keys.len()];
                let mut value = recased(&quoted(key), &mut cases.random);
                if cases.random.below(3) == 0 {
                    value = escaped(&value, &mut cases.random);
                }
                records.push(short_record(file, at).with_value(name, &value));
            }
            let set = SetDraft::empty().with_records(file, &records);
            match round {
                0 | 1 => cases.judge(set.bundle()),
                2 | 3 => {
                    let styled = restyled(&set, &mut cases.random);
                    cases.judge(styled.bundle());
                }
                _ => cases.changes_between(&SetDraft::empty(), &set),
            }
        }
    }
}

fn add_unreadable(cases: &mut Cases, base: &SetDraft, file: usize) {
    for contents in [&b"["[..], b"", b"[{}]", b"[]", b" [ ] "] {
        let set = base.with_bytes(file, contents);
        cases.judge(set.bundle());
        cases.changes_between(base, &set);
    }
    cases.judge(base.without(file).bundle());
    cases.changes_between(base, &base.without(file));
    cases.changes_between(&base.without(file), base);
    // All others can't be read.
    let mut alone = base.clone();
    for other in (4..FILES).filter(|other| *other != file) {
        alone.files[other] = FileDraft::Bytes(b"[".to_vec());
    }
    cases.judge(alone.bundle());
}

/// Tables as long as they may be, one record more, and a list for all of them.
fn add_long(cases: &mut Cases) {
    for count in [MOST_RECORDS - 1, MOST_RECORDS, MOST_RECORDS + 1] {
        let records: Vec<Draft> = (0..count)
            .map(|at| short_record(6, 0).with_value("ID", &quoted(&format!("{:x}", at * 7))))
            .collect();
        let bundle = Arc::new(SetDraft::empty().with_records(6, &records).bundle());
        for list in [count - 1, count, count + 1] {
            cases.push(&bundle, Call::Judge, list);
        }
    }
}
