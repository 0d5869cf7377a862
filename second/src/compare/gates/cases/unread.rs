//! Files that can't be read: each alone and each two, so that every rule is kept
//! from being judged by each file that it reads.

use std::sync::Arc;

use super::super::case::Change;
use super::ground::Ground;
use super::Cases;

pub(super) fn add(cases: &mut Cases, ground: &Ground) {
    let gate = ground.which.gate();
    for file in 0..gate.files {
        for contents in [&b"["[..], b"", b"1"] {
            let set = ground.base.with(file, contents);
            let bundle = cases.judge_files(&set);
            cases.add_as_changes(&ground.base, &set);
            cases.reason(ground.which, &bundle, file);
            if contents == b"[" {
                for mark in gate.touched_marks(file) {
                    cases.reason(ground.which, &bundle, mark);
                }
            }
        }
        let omitted = ground.base.without(file);
        let bundle = cases.judge_files(&omitted);
        for mark in gate.touched_marks(file) {
            cases.reason(ground.which, &bundle, mark);
        }
        add_as_mended(cases, ground, file);
    }
    add_pairs(cases, ground);
}

/// The file is put right again, or withdrawn, against any board.
fn add_as_mended(cases: &mut Cases, ground: &Ground, file: usize) {
    let which = ground.which;
    let bundle = Arc::new(ground.base.with(file, b"[").bundle());
    for new in [ground.base.files[file].clone(), None] {
        let board = cases.random_board(which);
        let change = Change { board, file: file as u32, new: new.map(Arc::new) };
        cases.try_change(which, &bundle, change);
    }
}

/// Both files of a rule that reads two, and all files.
fn add_pairs(cases: &mut Cases, ground: &Ground) {
    let gate = ground.which.gate();
    for mark in gate.files..gate.marks {
        let files = gate.files_of_mark(mark);
        if files.len() == 2 {
            let set = ground.base.with(files[0], b"{").with(files[1], b"[{");
            cases.judge_and_ask(&set, mark);
        }
    }
    let mut all = ground.base.clone();
    all.files.iter_mut().for_each(|file| *file = Some(b"[".to_vec()));
    let bundle = cases.judge_files(&all);
    cases.all_reasons(ground.which, &bundle);
}
