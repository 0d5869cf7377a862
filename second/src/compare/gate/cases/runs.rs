//! Runs of many changes, each made of what the one before left: the bundle and
//! the board. Every step is tried and made, and the new bundle is judged in
//! full as well; from a right board that has to give the board that was kept.

use std::sync::Arc;

use super::pool::Pool;
use super::{change, random_board, Cases, FILE_NUMBERS};
use crate::board::Board;
use crate::bundle::FILES;
use crate::compare::gate::case::{new_length, Bytes, Change};
use crate::compare::gate::sample::Set;
use crate::compare::gate::styles::shuffle;
use crate::gate::{judge, make_change};

const RIGHT_RUNS: usize = 6;
const WRONG_RUNS: usize = 4;
const STEPS: usize = 250;

pub(super) fn add(cases: &mut Cases) {
    let sample = cases.base.bundle();
    for run in 0..RIGHT_RUNS {
        let start = if run % 2 == 0 { sample.clone() } else { Set::empty().bundle() };
        let board = judge(&start).board;
        add_run(cases, State { bundle: Arc::new(start), board, is_right: true });
    }
    for _ in 0..WRONG_RUNS {
        let board = random_board(&mut cases.random);
        let start = Arc::new(sample.clone());
        add_run(cases, State { bundle: start, board, is_right: false });
    }
    for _ in 0..3 {
        add_any_order(cases);
    }
}

/// A bundle and the board beside it, which is its own or any other.
struct State {
    bundle: Bytes,
    board: Board,
    is_right: bool,
}

fn add_run(cases: &mut Cases, mut state: State) {
    let base = cases.base.clone();
    let pool = Pool::new(&base, &mut cases.random);
    for _ in 0..STEPS {
        let change = next_change(cases, &state, &pool);
        add_step(cases, &mut state, change);
        // Without this every mark would be right after some steps.
        if !state.is_right && cases.random.below(10) == 0 {
            state.board = random_board(&mut cases.random);
        }
    }
}

fn next_change(cases: &mut Cases, state: &State, pool: &Pool) -> Change {
    let random = &mut cases.random;
    if random.below(25) == 0 {
        let number = random.pick(&FILE_NUMBERS);
        return Change { board: state.board, number, new: Some(pool.pick(0, random)) };
    }
    let number = random.below(FILES);
    let withdrawn = change(state.board, number, None);
    match random.below(6) {
        0 => withdrawn,
        _ => Change { new: Some(pool.pick(number, random)), ..withdrawn },
    }
}

/// The step is tried, then made into an output of some length; if it is made,
/// the next step starts from what it left.
fn add_step(cases: &mut Cases, state: &mut State, change: Change) {
    let exact = exact_length(&state.bundle, &change);
    let length = match cases.random.below(16) {
        0 => 0,
        1 => cases.random.below(exact),
        2 => exact - 1,
        3..=6 => exact + 1 + cases.random.below(50),
        _ => exact,
    };
    cases.try_change(&state.bundle, change.clone());
    cases.make_change(&state.bundle, change.clone(), length);
    let Some((bundle, board)) = made(&state.bundle, &change, length) else {
        return;
    };
    state.bundle = Arc::new(bundle);
    state.board = board;
    cases.push_judge(&state.bundle);
    if state.is_right {
        assert_eq!(judge(&state.bundle).board, state.board, "the kept board is the judged one");
    }
}

/// A file that isn't there changes no length.
fn exact_length(bundle: &[u8], change: &Change) -> usize {
    match change.number as usize {
        0..FILES => new_length(bundle, change),
        _ => bundle.len(),
    }
}

/// The new bundle and board, or nothing if the change is refused.
fn made(bundle: &[u8], change: &Change, length: usize) -> Option<(Vec<u8>, Board)> {
    let mut output = vec![0; length];
    let number = change.number as usize;
    let new = change.new.as_deref().map(Vec::as_slice);
    let verdict = make_change(bundle, &change.board, number, new, &mut output);
    if verdict.refusal != 0 {
        return None;
    }
    output.truncate(new_length(bundle, change));
    Some((output, verdict.board))
}

/// The files of the accepted set put one at a time into the bundle with none,
/// in any order: in the end it is the same bundle.
fn add_any_order(cases: &mut Cases) {
    let start = Set::empty().bundle();
    let board = judge(&start).board;
    let mut state = State { bundle: Arc::new(start), board, is_right: true };
    let mut numbers: Vec<usize> = (0..FILES).collect();
    shuffle(&mut numbers, &mut cases.random);
    for number in numbers {
        let change = change(state.board, number, cases.base.bytes(number));
        let length = new_length(&state.bundle, &change);
        cases.make_change(&state.bundle, change.clone(), length);
        let (bundle, board) =
            made(&state.bundle, &change, length).expect("the accepted set fits into a bundle");
        state = State { bundle: Arc::new(bundle), board, is_right: true };
    }
    assert_eq!(*state.bundle, cases.base.bundle());
    cases.push_judge(&state.bundle);
}
