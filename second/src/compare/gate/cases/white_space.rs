//! Names with white characters in them (order 2): a String field with one makes
//! its file unreadable, a Text field doesn't. Judged, and put in and taken out
//! again by a change.

use std::sync::Arc;

use super::{change, random_board, Cases};
use crate::compare::gate::set_draft::{places, SetDraft};
use crate::compare::white_space::{
    placed, white_in_low_bits, writings, BESIDE, UNLISTED, WHITE_SPACE,
};
use crate::compare::wrong_characters::has_string_rule;
use crate::fields::{Field, FIELDS};

pub(super) fn add(cases: &mut Cases) {
    for field in FIELDS.iter().filter(|field| has_string_rule(field.kind)) {
        for at in places(cases.base.records(field.table).len()) {
            add_at(cases, field, at);
        }
    }
    add_task_names(cases);
}

/// A white character in a field of one record, and one that isn't white.
fn add_at(cases: &mut Cases, field: &Field, at: usize) {
    let white = cases.random.pick(&WHITE_SPACE);
    let other = match cases.random.below(3) {
        0 => cases.random.pick(&white_in_low_bits()),
        1 => cases.random.pick(&UNLISTED),
        _ => cases.random.pick(&BESIDE),
    };
    for code in [white, other] {
        let value = somewhere(cases, code);
        let set = cases.base.with_value(field.table, at, field.name, Some(&value));
        cases.judge_set(&set.only(&[field.table]));
        add_as_change(cases, field.table, &set);
    }
}

/// A string with the character in some writing at some place.
fn somewhere(cases: &mut Cases, code: u32) -> Vec<u8> {
    let writings = writings(code);
    let written = &writings[cases.random.below(writings.len())];
    let strings = placed(written);
    let inner = &strings[cases.random.below(strings.len())];
    [b"\"", &inner[..], b"\""].concat()
}

/// The file comes into the accepted set, or the accepted one in its place.
pub(super) fn add_as_change(cases: &mut Cases, number: usize, set: &SetDraft) {
    let right = cases.base.clone();
    let (before, after) = cases.random.pick(&[(&right, set), (set, &right)]);
    let board = random_board(&mut cases.random);
    let change = change(board, number, after.bytes(number));
    cases.try_change(&Arc::new(before.bundle()), change);
}

/// Each code in the name of a task and in the comment on it, inside.
fn add_task_names(cases: &mut Cases) {
    for code in WHITE_SPACE.into_iter().chain(BESIDE).chain(UNLISTED) {
        for written in writings(code) {
            add_task_name(cases, &written);
        }
    }
    for code in white_in_low_bits() {
        let writings = writings(code);
        let at = cases.random.below(writings.len());
        add_task_name(cases, &writings[at]);
    }
}

fn add_task_name(cases: &mut Cases, written: &[u8]) {
    let tasks = cases.base.only(&[9]);
    let value = [b"\"A", written, b"B\""].concat();
    for name in ["Name", "Comments"] {
        let at = cases.random.below(tasks.records(9).len());
        cases.judge_set(&tasks.with_value(9, at, name, Some(&value)));
    }
}

#[cfg(test)]
mod tests {
    use super::*;
    use crate::compare::random::Random;
    use crate::gate::judge;

    fn cases() -> Cases {
        Cases { list: Vec::new(), random: Random::new(1), base: SetDraft::accepted() }
    }

    #[test]
    fn a_white_name_makes_its_file_unreadable_and_a_white_comment_does_not() {
        let base = cases().base;
        let with =
            |name| judge(&base.with_value(9, 2, name, Some(b"\"A\xC2\xA0B\"")).bundle()).board;
        assert_eq!(with("Name").marks[9].kind, 31);
        assert_eq!(with("Name").faults().count(), 19);
        assert!(with("Comments").is_accepted());
    }

    #[test]
    fn white_characters_break_strings_and_others_do_not() {
        let mut cases = cases();
        for white in WHITE_SPACE.into_iter().filter(|code| *code != 0x20) {
            let value = somewhere(&mut cases, white);
            let set = cases.base.with_value(6, 1, "Name", Some(&value));
            let kind = if [0x0B, 0x0C].contains(&white) { 30 } else { 31 };
            assert_eq!(judge(&set.bundle()).board.marks[6].kind, kind, "{white:x}");
        }
        for other in white_in_low_bits() {
            let value = [b"\"", &writings(other)[0][..], b"\""].concat();
            let set = cases.base.with_value(6, 1, "Name", Some(&value));
            assert!(judge(&set.bundle()).board.is_accepted(), "{other:x}");
        }
    }
}
