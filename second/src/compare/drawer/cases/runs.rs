//! Runs of many changes in one drawer: small ones of which every byte counts,
//! with room, nearly full and full.

use std::sync::Arc;

use super::{drawer_of, Cases};
use crate::board::Board;
use crate::bundle::{FILES, HEADER};
use crate::compare::drawer::case::Call;
use crate::compare::gate::case::{Bytes, Change};
use crate::compare::gate::cases::{random_board, FILE_NUMBERS};
use crate::drawer::{change_drawer, judge_drawer};

const STEPS: usize = 600;

pub(super) fn add(cases: &mut Cases) {
    for room in [0, 1, 3, 6, 10, 20, 40, 90] {
        for is_right in [true, false] {
            let drawer = drawer_of(&[], HEADER + room, || cases.random.next_number() as u8);
            let board = judge_drawer(&drawer).board;
            add_run(cases, State { drawer: Arc::new(drawer), board, is_right });
        }
    }
}

/// A drawer and the board beside it, which is its own or any other.
pub(super) struct State {
    pub drawer: Bytes,
    pub board: Board,
    pub is_right: bool,
}

fn add_run(cases: &mut Cases, mut state: State) {
    // Few files at first, so that changes meet again.
    for step in 0..STEPS {
        let files = if step < STEPS / 2 { 5 } else { FILES };
        let change = next_change(cases, &state, files);
        add_step(cases, &mut state, change);
    }
}

fn next_change(cases: &mut Cases, state: &State, files: usize) -> Change {
    let random = &mut cases.random;
    let number = match random.below(30) {
        0 => random.pick(&FILE_NUMBERS),
        _ => (random.below(files) * 7 % FILES) as u32,
    };
    let new = match random.below(8) {
        0 | 1 => None,
        2 => Some(Vec::new()),
        3 => Some(random.pick(&[&b"[]"[..], b"{}", b"[{}]", b" []"]).to_vec()),
        4 => Some(letters(random.below(state.drawer.len() - HEADER + 3), number)),
        _ => Some(letters(random.below(9), number)),
    };
    Change { board: state.board, number, new: new.map(Arc::new) }
}

fn letters(length: usize, number: u32) -> Vec<u8> {
    vec![b'A' + (number % 20) as u8; length]
}

/// The step is tried and made; the next one starts from what it left. From a
/// right board the judgement in full has to give the board that was kept.
pub(super) fn add_step(cases: &mut Cases, state: &mut State, change: Change) {
    cases.change(&state.drawer, change.clone());
    let mut drawer = state.drawer.to_vec();
    let verdict = change_drawer(&mut drawer, &change.board, change.number as usize, change.bytes());
    state.board = verdict.board;
    state.drawer = Arc::new(drawer);
    if cases.random.below(4) == 0 {
        cases.push(&state.drawer, Call::Judge);
        let number = cases.random.below(FILES) as u32;
        cases.push(&state.drawer, Call::LookUp(number));
        let length = state.drawer.len();
        cases.take(&state.drawer, length);
    }
    if state.is_right {
        assert_eq!(judge_drawer(&state.drawer).board, state.board, "the kept board is judged");
    } else if cases.random.below(10) == 0 {
        state.board = random_board(&mut cases.random);
    }
}
