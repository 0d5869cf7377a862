//! Runs of many changes, each made of what the one before left: the bundle and
//! the board. From a right board that has to be the board of a full judgement;
//! from any other the marks that no change touched stay as they were.

use std::sync::Arc;

use super::super::case::Change;
use super::super::files::Files;
use super::changes::exact_length;
use super::ground::Ground;
use super::{file_numbers, Cases};
use crate::board::Mark;
use crate::compare::gate::case::Bytes;
use crate::gates::calls::{judge, make_change};

const RUNS: usize = 4;
const STEPS: usize = 250;

/// A bundle and the board beside it, which is its own or any other.
struct State {
    bundle: Bytes,
    board: Vec<Mark>,
    is_right: bool,
}

pub(super) fn add(cases: &mut Cases, ground: &Ground) {
    for run in 0..RUNS {
        let start = match run % 2 {
            0 => ground.base.bundle(),
            _ => Files::empty(ground.which).bundle(),
        };
        let is_right = run < RUNS / 2;
        let board = match is_right {
            true => judge(ground.which.gate(), &start).marks,
            false => cases.random_board(ground.which),
        };
        add_run(cases, ground, State { bundle: Arc::new(start), board, is_right });
    }
}

fn add_run(cases: &mut Cases, ground: &Ground, mut state: State) {
    for _ in 0..STEPS {
        let change = next_change(cases, ground, &state);
        add_step(cases, ground, &mut state, change);
        // Without this every mark would be right after some steps.
        if !state.is_right && cases.random.below(10) == 0 {
            state.board = cases.random_board(ground.which);
        }
    }
}

fn next_change(cases: &mut Cases, ground: &Ground, state: &State) -> Change {
    let board = state.board.clone();
    let random = &mut cases.random;
    if random.below(25) == 0 {
        let file = random.pick(&file_numbers(ground.which));
        return Change { board, file, new: Some(ground.pick(0, random)) };
    }
    let file = random.below(ground.which.gate().files);
    let new = match random.below(6) {
        0 => None,
        _ => Some(ground.pick(file, random)),
    };
    Change { board, file: file as u32, new }
}

/// The step is tried, then made into an output of some length; if it is made,
/// the next step starts from what it left.
fn add_step(cases: &mut Cases, ground: &Ground, state: &mut State, change: Change) {
    let which = ground.which;
    let exact = exact_length(ground, &state.bundle, &change);
    let length = match cases.random.below(16) {
        0 => 0,
        1 => cases.random.below(exact),
        2 => exact - 1,
        3..=6 => exact + 1 + cases.random.below(50),
        _ => exact,
    };
    cases.try_change(which, &state.bundle, change.clone());
    cases.make_change(which, &state.bundle, change.clone(), length);
    let mut output = vec![0; length];
    let file = change.file as usize;
    let (gate, new) = (which.gate(), change.bytes());
    let made = make_change(gate, &state.bundle, &change.board, file, new, &mut output);
    if made.refusal != 0 {
        return;
    }
    output.truncate(made.length);
    state.bundle = Arc::new(output);
    state.board = made.marks;
    cases.judge(which, &state.bundle);
    if state.is_right {
        let judged = judge(gate, &state.bundle).marks;
        assert_eq!(judged, state.board, "the kept board is the judged one");
    }
}
