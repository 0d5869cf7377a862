//! Whole sets in drawers: files anywhere and in any order, judged, and changed
//! in runs with little room or none.

use std::sync::Arc;

use super::runs::{add_step, State};
use super::{drawer_of, Cases};
use crate::bundle::{FILES, HEADER};
use crate::compare::gate::case::Change;
use crate::compare::gate::cases::{change, random_board, random_set, Pool, FILE_NUMBERS};
use crate::compare::gate::set_draft::SetDraft;
use crate::compare::gate::styles::shuffle;
use crate::compare::random::Random;
use crate::drawer::{judge_drawer, Span};

const SETS: usize = 400;
const STEPS: usize = 250;

pub(super) fn add(cases: &mut Cases) {
    let base = SetDraft::accepted();
    for round in 0..SETS {
        let set = random_set(&base, round, &mut cases.random);
        let room = cases.random.pick(&[0, 1, 50, 2000]);
        let drawer = scattered(&files_of(&set), room, &mut cases.random);
        cases.judge(drawer);
    }
    add_every_change(cases, &base);
    for (at, room) in [0, 3, 40, 300, 2000, 20_000].into_iter().enumerate() {
        add_run(cases, &base, room, at % 3 > 0);
    }
}

fn files_of(set: &SetDraft) -> Vec<Option<Vec<u8>>> {
    (0..FILES).map(|number| set.bytes(number)).collect()
}

/// A drawer with these files in any order, with so many bytes of room among
/// them; an empty file stands anywhere.
pub(in crate::compare) fn scattered(
    files: &[Option<Vec<u8>>],
    room: usize,
    random: &mut Random,
) -> Vec<u8> {
    let length = HEADER + room + files.iter().flatten().map(Vec::len).sum::<usize>();
    let mut order: Vec<usize> = (0..FILES).filter(|number| files[*number].is_some()).collect();
    shuffle(&mut order, random);
    let mut at = HEADER;
    let mut left = room;
    let mut places = Vec::new();
    for number in order {
        let bytes = files[number].as_ref().expect("only present files are placed");
        let gap = if random.below(3) == 0 { random.below(left + 1) } else { 0 };
        left -= gap;
        let offset = match bytes.len() {
            0 => HEADER + random.below(length - HEADER + 1),
            _ => at + gap,
        };
        at += gap + bytes.len();
        places.push((number, Span { offset, length: bytes.len() }));
    }
    let mut drawer = drawer_of(&places, length, || random.next_number() as u8);
    for (number, span) in places {
        let bytes = files[number].as_ref().expect("only present files are placed");
        drawer[span.offset..span.end()].copy_from_slice(bytes);
    }
    drawer
}

/// Each file put in, replaced, withdrawn, and withdrawn though omitted.
fn add_every_change(cases: &mut Cases, base: &SetDraft) {
    for number in 0..FILES {
        for set in [base.clone(), base.without(number)] {
            let drawer = Arc::new(scattered(&files_of(&set), 700, &mut cases.random));
            for new in [None, base.bytes(number), Some(b"[{}]".to_vec()), Some(Vec::new())] {
                let board = random_board(&mut cases.random);
                cases.change(&drawer, change(board, number, new));
            }
        }
    }
}

fn add_run(cases: &mut Cases, base: &SetDraft, room: usize, is_right: bool) {
    let pool = Pool::new(base, &mut cases.random);
    let drawer = scattered(&files_of(base), room, &mut cases.random);
    let board = match is_right {
        true => judge_drawer(&drawer).board,
        false => random_board(&mut cases.random),
    };
    let mut state = State { drawer: Arc::new(drawer), board, is_right };
    for _ in 0..STEPS {
        let change = next_change(cases, &state, &pool);
        add_step(cases, &mut state, change);
    }
}

fn next_change(cases: &mut Cases, state: &State, pool: &Pool) -> Change {
    let random = &mut cases.random;
    if random.below(30) == 0 {
        let number = random.pick(&FILE_NUMBERS);
        return Change { board: state.board, number, new: Some(pool.pick(0, random)) };
    }
    let number = random.below(FILES);
    let withdrawn = change(state.board, number, None);
    match random.below(5) {
        0 => withdrawn,
        _ => Change { new: Some(pool.pick(number, random)), ..withdrawn },
    }
}
