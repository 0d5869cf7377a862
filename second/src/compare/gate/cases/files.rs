//! The reading of single files, taken from the cases of that comparison: each
//! in a bundle by itself, or as the new bytes of a change.

use std::sync::Arc;

use super::{change, random_board, Cases};
use crate::compare::gate::set_draft::SetDraft;
use crate::compare::tables::cases::drawn_cases;

/// The comparison of readings has the long ones; here they only take time.
const LONGEST_FILE: usize = 1500;
const JUDGED: usize = 6_000;
const CHANGED: usize = 2_000;

pub(super) fn add(cases: &mut Cases) {
    let mut files = drawn_cases(cases.random.next_number());
    files.retain(|case| case.contents.as_ref().is_none_or(|bytes| bytes.len() <= LONGEST_FILE));
    for _ in 0..JUDGED {
        let file = &files[cases.random.below(files.len())];
        let mut set = SetDraft::empty();
        if let Some(contents) = &file.contents {
            set = set.with_bytes(file.number as usize, contents);
        }
        cases.judge_set(&set);
    }
    for _ in 0..CHANGED {
        let file = &files[cases.random.below(files.len())];
        add_as_change(cases, file.number as usize, file.contents.clone());
    }
}

/// The file is put beside one other, or in the place of a former one.
fn add_as_change(cases: &mut Cases, number: usize, contents: Option<Vec<u8>>) {
    let other = cases.random.below(20);
    let before = SetDraft::empty().with_bytes(other, b"[]");
    let before = Arc::new(before.bundle());
    let board = random_board(&mut cases.random);
    cases.try_change(&before, change(board, number, contents));
}
