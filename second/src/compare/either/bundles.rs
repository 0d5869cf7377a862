//! Two changes in both orders, and undone ones, in bundles.

use std::sync::Arc;

use super::case::{before, board_sights, wanted_of_all, wanted_pairs, EitherCase, Sight, Step};
use crate::board::Board;
use crate::bundle::{files, FILES, HEADER, LARGEST_BUNDLE};
use crate::compare::gate::case::{Bytes, Call, Change, GateCase, Output};
use crate::compare::gate::cases::{random_board, random_set, Pool};
use crate::compare::gate::sample::Set;
use crate::compare::gate::set_draft::SetDraft;
use crate::compare::random::Random;
use crate::gate::{judge, make_change};

impl Step for GateCase {
    fn wanted_either() -> Vec<Sight> {
        let mut wanted = wanted_of_all();
        wanted.extend(wanted_pairs());
        wanted.extend([5, 6].map(|refusal| Sight::Refused { refusal }));
        wanted.extend([Sight::OneOrder, Sight::UndoRefused { refusal: 5 }]);
        wanted.extend([false, true].map(|undone| Sight::Full { undone }));
        wanted
    }
}

pub fn all_cases(seed: u64) -> Vec<EitherCase<GateCase>> {
    let mut cases = Cases { list: Vec::new(), random: Random::new(seed) };
    let base = SetDraft::accepted();
    let pool = Pool::new(&base, &mut cases.random);
    for high in 0..FILES {
        for low in 0..high {
            for round in 0..3 {
                add_pair(&mut cases, &base, &pool, (low, high), round);
            }
        }
        for round in 0..24 {
            add_undone(&mut cases, &base, &pool, high, round);
        }
    }
    add_small(&mut cases);
    add_full(&mut cases);
    cases.list
}

/// A bundle and the board beside it.
#[derive(Clone, PartialEq)]
struct State {
    bundle: Bytes,
    board: Board,
}

/// A file and its new bytes, or nothing for a withdrawal; and how much longer
/// or shorter than needed the output is.
#[derive(Clone)]
struct Planned {
    number: usize,
    new: Option<Bytes>,
    spare: i64,
}

struct Cases {
    list: Vec<EitherCase<GateCase>>,
    random: Random,
}

impl Cases {
    /// Asks for the step; gives what it leaves or its refusal.
    fn step(&mut self, state: &State, planned: &Planned) -> Result<State, u32> {
        let new = planned.new.as_deref().map(Vec::as_slice);
        let parts = files(&state.bundle).expect("a state is a bundle");
        let old = parts[planned.number].map_or(0, <[u8]>::len);
        let exact = state.bundle.len() - old + new.map_or(0, <[u8]>::len);
        let length = (exact as i64 + planned.spare).clamp(0, LARGEST_BUNDLE as i64) as usize;
        let change =
            Change { board: state.board, number: planned.number as u32, new: planned.new.clone() };
        let seed = self.random.next_number() as u32;
        let call = Call::Make(change, Output { length: length as u32, seed });
        let step = GateCase::new(state.bundle.clone(), call);
        self.list.push(EitherCase { step, seen: Vec::new() });
        let mut output = vec![0; length];
        let verdict = make_change(&state.bundle, &state.board, planned.number, new, &mut output);
        match verdict.refusal {
            0 => {
                output.truncate(exact);
                Ok(State { bundle: Arc::new(output), board: verdict.board })
            }
            refusal => Err(refusal),
        }
    }

    /// What has been shown is told by the last step.
    fn shown(&mut self, seen: Vec<Sight>) {
        self.list.last_mut().expect("there are steps").seen.extend(seen);
    }

    fn both_orders(&mut self, state: &State, first: &Planned, second: &Planned) {
        let one = self.step(state, first).and_then(|state| self.step(&state, second));
        let other = self.step(state, second).and_then(|state| self.step(&state, first));
        let seen = match (one, other) {
            (Ok(one), Ok(other)) if one == other => {
                let files = (first.number.min(second.number), first.number.max(second.number));
                let mut seen = vec![Sight::Agreed { files }];
                let right = judge(&state.bundle).board == state.board;
                seen.push(Sight::AgreedFrom { right });
                if one.bundle.len() == LARGEST_BUNDLE {
                    seen.push(Sight::Full { undone: false });
                }
                seen
            }
            (Ok(_), Ok(_)) => vec![Sight::Differ],
            (Err(one), Err(other)) => [one, other].map(|r| Sight::Refused { refusal: r }).into(),
            _ => vec![Sight::OneOrder],
        };
        self.shown(seen);
    }

    fn undo(&mut self, state: &State, planned: &Planned, spare: i64) {
        let after = match self.step(state, planned) {
            Ok(after) => after,
            Err(_) => return,
        };
        let number = planned.number;
        let old = files(&state.bundle).expect("a state is a bundle")[number];
        let new = old.map(|old| Arc::new(old.to_vec()));
        let back = Planned { number, new, spare };
        let seen = match self.step(&after, &back) {
            Err(refusal) => vec![Sight::UndoRefused { refusal }],
            Ok(end) => {
                let judged = judge(&state.bundle).board;
                let mut seen = board_sights(&state.board, &end.board, &judged, number);
                seen.push(Sight::Restored { file: number, before: before(old) });
                if end.bundle != state.bundle {
                    seen.push(Sight::NotRestored);
                }
                if after.bundle.len() == LARGEST_BUNDLE {
                    seen.push(Sight::Full { undone: true });
                }
                seen
            }
        };
        self.shown(seen);
    }

    fn planned(&mut self, pool: &Pool, number: usize) -> Planned {
        let new = match self.random.below(4) {
            0 => None,
            _ => Some(pool.pick(number, &mut self.random)),
        };
        let spare = self.random.pick(&[0, 0, 0, 1, 30, -1]);
        Planned { number, new, spare }
    }

    fn state(&mut self, set: &SetDraft, is_right: bool) -> State {
        let bundle = Arc::new(set.bundle());
        let board = match is_right {
            true => judge(&bundle).board,
            false => random_board(&mut self.random),
        };
        State { bundle, board }
    }
}

fn add_pair(
    cases: &mut Cases,
    base: &SetDraft,
    pool: &Pool,
    (low, high): (usize, usize),
    round: usize,
) {
    let set = match round {
        0 => base.clone(),
        _ => random_set(base, cases.random.below(4), &mut cases.random),
    };
    let state = cases.state(&set, round < 2);
    let (mut first, mut second) = (cases.planned(pool, low), cases.planned(pool, high));
    if round == 0 {
        first.spare = 0;
        second.spare = 1;
    }
    cases.both_orders(&state, &first, &second);
}

/// The file omitted, empty or present before, from right boards and others.
fn add_undone(cases: &mut Cases, base: &SetDraft, pool: &Pool, number: usize, round: usize) {
    let set = match round % 3 {
        0 => base.without(number),
        1 => base.with_bytes(number, b""),
        _ => base.clone(),
    };
    let state = cases.state(&set, round % 2 == 0);
    let mut planned = cases.planned(pool, number);
    planned.spare = planned.spare.max(0);
    let spare = if round > 20 { -1 } else { 0 };
    cases.undo(&state, &planned, spare);
}

/// Small sets, in which orders and empty files matter most.
fn add_small(cases: &mut Cases) {
    let contents: [Option<&[u8]>; 5] = [None, Some(b""), Some(b"[]"), Some(b"{}"), Some(b"[{}]")];
    for _ in 0..600 {
        let mut set = SetDraft::empty();
        for number in 0..FILES {
            if let Some(bytes) = cases.random.pick(&contents) {
                set = set.with_bytes(number, bytes);
            }
        }
        let is_right = cases.random.below(2) == 0;
        let state = cases.state(&set, is_right);
        let first = cases.random.below(FILES);
        let second = (first + 1 + cases.random.below(FILES - 1)) % FILES;
        let [first, second] = [first, second].map(|number| Planned {
            number,
            new: cases.random.pick(&contents).map(|new| Arc::new(new.to_vec())),
            spare: cases.random.pick(&[0, 0, 2, -1]),
        });
        cases.both_orders(&state, &first, &second);
        cases.undo(&state, &first, cases.list.len() as i64 % 3 - 1);
    }
}

/// Bundles that are full or become so.
fn add_full(cases: &mut Cases) {
    let length = LARGEST_BUNDLE - HEADER - 1;
    let full = Set::empty().with_bytes(8, &vec![b' '; length]).with(2, "x");
    let bundle = Arc::new(full.bundle());
    let state = State { board: judge(&bundle).board, bundle };
    let planned = |number: usize, new: Option<&[u8]>| Planned {
        number,
        new: new.map(|new| Arc::new(new.to_vec())),
        spare: 0,
    };
    // Room is made by the first for the second, so only one order is accepted.
    cases.both_orders(&state, &planned(2, Some(b"")), &planned(4, Some(b"y")));
    cases.both_orders(&state, &planned(2, Some(b"z")), &planned(4, Some(b"y")));
    cases.both_orders(&state, &planned(2, Some(b"z")), &planned(4, Some(b"")));
    cases.undo(&state, &planned(2, Some(b"q")), 0);
    cases.undo(&state, &planned(2, None), 0);
    cases.undo(&state, &planned(8, Some(b"[]")), 0);
}
