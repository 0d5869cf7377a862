//! The bundle's layout, the refusals and the changes.

use crate::sample::{accepted, Set};
use second::board::{Board, Mark, HOLDS};
use second::bundle::{file_part, file_state, files, FileState, LARGEST_BUNDLE};
use second::gate::{judge, make_change, touched_marks, try_change, Verdict};

const FILLER: u8 = 0xA5;

/// A board that no judgement gives, to see what comes back of it.
fn wrong_board() -> Board {
    let mut board = Board::fresh();
    for (number, mark) in board.marks.iter_mut().enumerate() {
        let number = number as u32;
        *mark = Mark { kind: 77, place: 1000 + number, companion: u32::MAX - number };
    }
    board
}

fn with_word(bundle: &[u8], at: usize, word: u32) -> Vec<u8> {
    let mut changed = bundle.to_vec();
    changed[at..at + 4].copy_from_slice(&word.to_le_bytes());
    changed
}

/// Makes the change and checks that trying it answers the same.
fn make(bundle: &[u8], board: &Board, number: usize, change: Option<&[u8]>) -> (Verdict, Vec<u8>) {
    let mut output = vec![FILLER; LARGEST_BUNDLE + 10];
    let made = make_change(bundle, board, number, change, &mut output);
    assert_eq!(try_change(bundle, board, number, change), made);
    (made, output)
}

#[test]
fn the_layout_is_the_only_one() {
    let bundle = accepted().bundle();
    assert_eq!(judge(&bundle).refusal, 0);
    assert_eq!(judge(&bundle[..163]).refusal, 1);
    assert_eq!(judge(&vec![0; LARGEST_BUNDLE + 1]).refusal, 1);
    assert_eq!(judge(&with_word(&bundle, 0, 19)).refusal, 2);
    assert_eq!(judge(&with_word(&bundle, 0, 20 + 256)).refusal, 2);
    assert_eq!(judge(&bundle[..bundle.len() - 1]).refusal, 3);
    for number in 0..20 {
        let offset = 4 + 8 * number;
        for word in [0, 1, 163, u32::MAX] {
            assert_eq!(judge(&with_word(&bundle, offset, word)).refusal, 3);
            assert_eq!(judge(&with_word(&bundle, offset + 4, word)).refusal, 3);
        }
    }
    assert_eq!(judge(&bundle[..163]).board, Board::fresh());
}

#[test]
fn empty_files_are_present() {
    let set = Set::empty().with(5, "").with(7, "[]");
    let bundle = set.bundle();
    assert_eq!(bundle.len(), 166);
    assert_eq!(file_state(&bundle, 5), FileState::Present);
    assert_eq!(set.mark(5), (11, 0, 0));
    // An offset of 0 with a length, or a length of 0 with another offset.
    assert_eq!(judge(&with_word(&bundle, 4, 1)).refusal, 3);
    assert_eq!(judge(&with_word(&bundle, 8, 1)).refusal, 3);
    // An empty file after the last byte.
    let last = with_word(&bundle, 4 + 8 * 19, 166);
    assert_eq!(file_state(&last, 19), FileState::Present);
    assert_eq!(files(&last).unwrap()[19], Some(&[][..]));
}

#[test]
fn a_file_is_a_part_of_the_bundle() {
    let set = accepted().without(8);
    let bundle = set.bundle();
    for number in 0..20 {
        let expected = set.files[number].as_deref();
        assert_eq!(file_part(&bundle, number), expected.unwrap_or(b""));
        let state = if expected.is_some() { FileState::Present } else { FileState::Omitted };
        assert_eq!(file_state(&bundle, number), state);
    }
    assert_eq!(file_state(&bundle, 20), FileState::Refused(4));
    assert_eq!(file_state(&bundle[..163], 20), FileState::Refused(1));
    assert_eq!(file_state(&with_word(&bundle, 0, 0), 20), FileState::Refused(2));
    assert_eq!(file_state(&bundle[..164], 20), FileState::Refused(3));
    assert_eq!(file_part(&bundle, 20), b"");
}

#[test]
fn a_change_judges_what_it_touches_and_keeps_the_rest() {
    let set = accepted();
    for number in 0..20 {
        let changes = [None, Some(&b"x"[..]), Some(&b"[]"[..]), set.files[number].as_deref()];
        for change in changes {
            let mut new_set = set.clone();
            new_set.files[number] = change.map(<[u8]>::to_vec);
            let (verdict, output) = make(&set.bundle(), &wrong_board(), number, change);
            assert_eq!(verdict.refusal, 0);
            let new_bundle = new_set.bundle();
            assert_eq!(output[..new_bundle.len()], new_bundle);
            assert!(output[new_bundle.len()..].iter().all(|byte| *byte == FILLER));
            let touched = touched_marks(number);
            let judged = new_set.board();
            for mark in 0..81 {
                let from = if touched.contains(&mark) { judged } else { wrong_board() };
                assert_eq!(verdict.board.marks[mark], from.marks[mark]);
            }
        }
    }
}

#[test]
fn file_2_touches_one_mark_and_file_0_too() {
    assert_eq!(touched_marks(0), [0]);
    assert_eq!(touched_marks(2), [2]);
    let total: usize = (0..20).map(|number| touched_marks(number).len()).sum();
    // 20 files, 61 rules, 21 of them with a second file.
    assert_eq!(total, 20 + 61 + 21);
}

#[test]
fn withdrawing_an_omitted_file_changes_no_file() {
    let set = accepted().without(8);
    let (verdict, output) = make(&set.bundle(), &wrong_board(), 8, None);
    assert_eq!(verdict.refusal, 0);
    assert_eq!(output[..set.bundle().len()], set.bundle());
    assert_eq!(verdict.board.marks[8], HOLDS);
    assert_eq!(verdict.board.marks[9], wrong_board().marks[9]);
}

fn refused(verdict: &Verdict, refusal: u32, output: &[u8]) {
    assert_eq!(verdict.refusal, refusal);
    assert_eq!(verdict.board, wrong_board());
    assert!(output.iter().all(|byte| *byte == FILLER));
}

#[test]
fn refusals_come_in_order() {
    let bundle = accepted().bundle();
    let too_long = vec![b' '; LARGEST_BUNDLE];
    let mut output = vec![FILLER; 10];
    let mut change = |bundle: &[u8], number: usize, new: Option<&[u8]>, refusal: u32| {
        let verdict = make_change(bundle, &wrong_board(), number, new, &mut output);
        refused(&verdict, refusal, &output);
        let tried = try_change(bundle, &wrong_board(), number, new);
        assert_eq!(tried.refusal, if refusal == 5 { 0 } else { refusal });
    };
    change(&with_word(&bundle, 0, 1)[..100], 20, Some(&too_long), 1);
    change(&with_word(&bundle, 0, 1)[..200], 20, Some(&too_long), 2);
    change(&bundle[..200], 20, Some(&too_long), 3);
    change(&bundle, 20, Some(&too_long), 4);
    change(&bundle, usize::MAX, None, 4);
    change(&bundle, 19, Some(&too_long), 6);
    change(&bundle, 19, Some(b""), 5);
}

#[test]
fn the_new_bundle_may_just_fit() {
    let bundle = Set::empty().with(4, "[]").bundle();
    let room = LARGEST_BUNDLE - 164;
    let spaces = vec![b' '; room + 1];
    let (verdict, output) = make(&bundle, &wrong_board(), 4, Some(&spaces[..room]));
    assert_eq!(verdict.refusal, 0);
    let early_end = Mark { kind: 11, place: room as u32, companion: 0 };
    assert_eq!(verdict.board.marks[4], early_end);
    assert_eq!(judge(&output[..LARGEST_BUNDLE]).refusal, 0);
    let (verdict, output) = make(&bundle, &wrong_board(), 4, Some(&spaces));
    refused(&verdict, 6, &output);
    // The file that is replaced makes room for the new one.
    let (verdict, _) = make(&bundle, &wrong_board(), 5, Some(&spaces[..room]));
    assert_eq!(verdict.refusal, 6);
}

#[test]
fn an_output_of_just_that_length_is_enough() {
    let bundle = Set::empty().bundle();
    let mut output = vec![FILLER; 166];
    let verdict = make_change(&bundle, &wrong_board(), 4, Some(b"[]"), &mut output);
    assert_eq!(verdict.refusal, 0);
    assert_eq!(output, Set::empty().with(4, "[]").bundle());
    let mut output = vec![FILLER; 165];
    let verdict = make_change(&bundle, &wrong_board(), 4, Some(b"[]"), &mut output);
    refused(&verdict, 5, &output);
}

#[test]
fn files_put_in_any_order_give_the_same_bytes() {
    let set = accepted().without(8).with(12, "");
    for step in [1, 3, 7, 9, 11, 13, 17, 19] {
        let mut bundle = Set::empty().bundle();
        let mut board = judge(&bundle).board;
        for turn in 0..20 {
            let number = (5 + turn * step) % 20;
            if let Some(contents) = &set.files[number] {
                let (verdict, output) = make(&bundle, &board, number, Some(contents));
                board = verdict.board;
                let length = bundle.len() + contents.len();
                bundle = output[..length].to_vec();
            }
        }
        assert_eq!(bundle, set.bundle());
        assert_eq!(board, set.board());
    }
}
