//! Runs of many changes to two desks and their calendars, from right boards and
//! from any. Now and then a desk's bundle is refused while the calendars are
//! changed: its board is then judged in full on the calendars as written.

use std::sync::Arc;

use super::{split, Cases};
use crate::board::Board;
use crate::bundle::FILES;
use crate::compare::desks::case::{Change, Three};
use crate::compare::gate::case::Bytes;
use crate::compare::gate::cases::{Pool, FILE_NUMBERS};
use crate::compare::gate::sample::Set;
use crate::compare::gate::set_draft::SetDraft;
use crate::desks::{is_calendar_file, judge_joined, Whose};

const RUNS: usize = 8;
const STEPS: usize = 300;

pub(super) fn add(cases: &mut Cases) {
    let base = SetDraft::accepted();
    for run in 0..RUNS {
        let pool = Pool::new(&base, &mut cases.random);
        add_run(cases, run, &pool);
    }
}

/// The three bundles and both boards, which are their own or any others.
struct State {
    three: Three,
    boards: Box<[Board; 2]>,
    is_right: bool,
}

fn add_run(cases: &mut Cases, run: usize, pool: &Pool) {
    let (desk, calendars) = split();
    let start = if run % 2 == 0 { desk.clone() } else { Set::empty() };
    let [a, b, shared] = [desk, start, calendars].map(|set| Arc::new(set.bundle()));
    let is_right = run % 4 < 2;
    let boards = match is_right {
        true => Box::new([judged(&a, &shared), judged(&b, &shared)]),
        false => cases.random_boards(),
    };
    let mut state = State { three: Three { desks: [a, b], shared }, boards, is_right };
    for _ in 0..STEPS {
        match cases.random.below(8) {
            0 => add_refused_step(cases, &mut state, pool),
            _ => add_step(cases, &mut state, pool),
        }
        if !is_right && cases.random.below(10) == 0 {
            state.boards = cases.random_boards();
        }
    }
}

fn judged(desk: &[u8], shared: &[u8]) -> Board {
    judge_joined(desk, shared).board
}

fn next_change(cases: &mut Cases, state: &State, pool: &Pool) -> Change {
    let random = &mut cases.random;
    let whose = random.pick(&[Whose::DeskA, Whose::DeskB, Whose::Calendars]);
    let any = random.below(FILES);
    let calendar = 6 + random.below(3);
    let number = match (whose, random.below(20)) {
        (_, 0) => random.pick(&FILE_NUMBERS) as usize,
        (_, 1) => any,
        (Whose::Calendars, _) => calendar,
        _ if is_calendar_file(any) => 14,
        _ => any,
    };
    let new = match random.below(5) {
        0 => None,
        _ => Some(pool.pick(number % FILES, random)),
    };
    Change { boards: state.boards.clone(), whose, number: number as u32, new }
}

/// Tried, then made into an output of some length; the next step starts from
/// what it left.
fn add_step(cases: &mut Cases, state: &mut State, pool: &Pool) {
    let change = next_change(cases, state, pool);
    let needed = state.three.tried(&change).size.max(164);
    let length = match cases.random.below(12) {
        0 => needed - 1,
        1 => cases.random.below(needed),
        2..=4 => needed + 1 + cases.random.below(60),
        _ => needed,
    };
    cases.try_change(&state.three, change.clone());
    cases.make_change(&state.three, change.clone(), length);
    let mut output = vec![0; length];
    let answers = state.three.made(&change, &mut output);
    for (board, verdict) in state.boards.iter_mut().zip(&answers.desks) {
        *board = verdict.board;
    }
    if answers.size > 0 {
        output.truncate(answers.size);
        *changed_bundle(&mut state.three, change.whose) = Arc::new(output);
    }
    check(cases, state);
}

fn changed_bundle(three: &mut Three, whose: Whose) -> &mut Bytes {
    match whose {
        Whose::DeskA => &mut three.desks[0],
        Whose::DeskB => &mut three.desks[1],
        Whose::Calendars => &mut three.shared,
    }
}

/// From right boards, the judgement on the join gives the boards that were kept.
fn check(cases: &mut Cases, state: &State) {
    if cases.random.below(4) == 0 {
        for desk in &state.three.desks {
            cases.judge(desk, &state.three.shared);
        }
    }
    if state.is_right {
        for (desk, board) in state.three.desks.iter().zip(state.boards.iter()) {
            assert_eq!(judged(desk, &state.three.shared), *board, "the kept board is judged");
        }
    }
}

/// The calendars are changed while one desk's bundle is in no order; then that
/// desk starts again.
fn add_refused_step(cases: &mut Cases, state: &mut State, pool: &Pool) {
    let desk = cases.random.below(2);
    let number = 6 + cases.random.below(3);
    let new = Some(pool.pick(number, &mut cases.random)).filter(|_| cases.random.below(4) > 0);
    let boards = state.boards.clone();
    let change = Change { boards, whose: Whose::Calendars, number: number as u32, new };
    let mut three = state.three.clone();
    three.desks[desk] = Arc::new(refused(&three.desks[desk], cases.random.below(4)));
    let needed = three.tried(&change).size;
    cases.try_change(&three, change.clone());
    cases.make_change(&three, change.clone(), needed - 1);
    cases.make_change(&three, change.clone(), needed + 5);
    let mut output = vec![0; needed];
    let answers = three.made(&change, &mut output);
    assert_ne!(answers.desks[desk].refusal, 0);
    state.three.shared = Arc::new(output);
    state.boards[1 - desk] = answers.desks[1 - desk].board;
    cases.judge(&state.three.desks[desk], &state.three.shared);
    state.boards[desk] = judged(&state.three.desks[desk], &state.three.shared);
    check(cases, state);
}

/// The bundle refused by 1, 2, 3 or 9.
fn refused(bundle: &[u8], how: usize) -> Vec<u8> {
    let mut wrong = bundle.to_vec();
    match how {
        0 => wrong.truncate(100),
        1 => wrong[0] = 4,
        2 => wrong.push(b' '),
        _ => {
            // File 6 stands without bytes where file 9 would.
            let mut files = crate::bundle::files(bundle).expect("the desk is in order");
            files[6] = Some(b"");
            wrong = crate::bundle::build(&files);
        }
    }
    wrong
}
