//! Two changes in both orders, and undone ones, in drawers: files and board are
//! one, places need not be.

use std::sync::Arc;

use super::case::{before, board_sights, wanted_of_all, wanted_pairs, EitherCase, Sight, Step};
use crate::board::Board;
use crate::bundle::{Files, FILES, HEADER};
use crate::compare::drawer::case::{Call, DrawerCase};
use crate::compare::drawer::cases::scattered;
use crate::compare::gate::case::{Bytes, Change};
use crate::compare::gate::cases::{random_board, random_set, Pool};
use crate::compare::gate::set_draft::SetDraft;
use crate::compare::random::Random;
use crate::drawer::{change_drawer, drawer_files, judge_drawer, spans};

impl Step for DrawerCase {
    fn wanted_either() -> Vec<Sight> {
        let mut wanted = wanted_of_all();
        wanted.extend(wanted_pairs());
        wanted.extend([Sight::Refused { refusal: 11 }, Sight::OneOrder]);
        for undone in [false, true] {
            wanted.extend([Sight::Full { undone }, Sight::OtherPlaces { undone }]);
        }
        wanted
    }
}

pub fn all_cases(seed: u64) -> Vec<EitherCase<DrawerCase>> {
    let mut cases = Cases { list: Vec::new(), random: Random::new(seed) };
    let base = SetDraft::accepted();
    let pool = Pool::new(&base, &mut cases.random);
    for high in 0..FILES {
        for low in 0..high {
            for round in 0..3 {
                add_pair(&mut cases, &base, &pool, (low, high), round);
            }
        }
        for round in 0..12 {
            add_undone(&mut cases, &base, &pool, high, round);
        }
    }
    for _ in 0..1_500 {
        add_small(&mut cases);
    }
    cases.list
}

#[derive(Clone)]
struct State {
    drawer: Bytes,
    board: Board,
}

impl State {
    fn files(&self) -> Files<'_> {
        drawer_files(&self.drawer).expect("a state is a drawer")
    }

    fn is_full(&self) -> bool {
        let present: usize = self.files().iter().flatten().map(|file| file.len()).sum();
        HEADER + present == self.drawer.len()
    }

    fn has_places_of(&self, other: &State) -> bool {
        spans(&self.drawer) == spans(&other.drawer)
    }
}

type Planned = (usize, Option<Bytes>);

struct Cases {
    list: Vec<EitherCase<DrawerCase>>,
    random: Random,
}

impl Cases {
    fn step(&mut self, state: &State, (number, new): &Planned) -> Result<State, u32> {
        let change = Change { board: state.board, number: *number as u32, new: new.clone() };
        let step = DrawerCase { drawer: state.drawer.clone(), call: Call::Make(change) };
        self.list.push(EitherCase { step, seen: Vec::new() });
        let mut drawer = state.drawer.to_vec();
        let new = new.as_deref().map(Vec::as_slice);
        let verdict = change_drawer(&mut drawer, &state.board, *number, new);
        match verdict.refusal {
            0 => Ok(State { drawer: Arc::new(drawer), board: verdict.board }),
            refusal => Err(refusal),
        }
    }

    fn shown(&mut self, seen: Vec<Sight>) {
        self.list.last_mut().expect("there are steps").seen.extend(seen);
    }

    fn both_orders(&mut self, state: &State, first: &Planned, second: &Planned) {
        let one = self.step(state, first).and_then(|state| self.step(&state, second));
        let other = self.step(state, second).and_then(|state| self.step(&state, first));
        let seen = match (one, other) {
            (Ok(one), Ok(other)) if one.files() == other.files() && one.board == other.board => {
                let files = (first.0.min(second.0), first.0.max(second.0));
                let right = judge_drawer(&state.drawer).board == state.board;
                let mut seen = vec![Sight::Agreed { files }, Sight::AgreedFrom { right }];
                if one.is_full() {
                    seen.push(Sight::Full { undone: false });
                }
                if !one.has_places_of(&other) {
                    seen.push(Sight::OtherPlaces { undone: false });
                }
                seen
            }
            (Ok(_), Ok(_)) => vec![Sight::Differ],
            (Err(one), Err(other)) => [one, other].map(|r| Sight::Refused { refusal: r }).into(),
            _ => vec![Sight::OneOrder],
        };
        self.shown(seen);
    }

    /// In a drawer nothing can refuse the undoing.
    fn undo(&mut self, state: &State, planned: &Planned) {
        let after = match self.step(state, planned) {
            Ok(after) => after,
            Err(_) => return,
        };
        let number = planned.0;
        let old = state.files()[number];
        let back = (number, old.map(|old| Arc::new(old.to_vec())));
        let seen = match self.step(&after, &back) {
            Err(_) => vec![Sight::NotRestored],
            Ok(end) => {
                let judged = judge_drawer(&state.drawer).board;
                let mut seen = board_sights(&state.board, &end.board, &judged, number);
                seen.push(Sight::Restored { file: number, before: before(old) });
                if end.files() != state.files() {
                    seen.push(Sight::NotRestored);
                }
                if !end.has_places_of(state) {
                    seen.push(Sight::OtherPlaces { undone: true });
                }
                if state.is_full() || after.is_full() {
                    seen.push(Sight::Full { undone: true });
                }
                seen
            }
        };
        self.shown(seen);
    }

    fn planned(&mut self, pool: &Pool, number: usize) -> Planned {
        let new = match self.random.below(4) {
            0 => None,
            _ => Some(pool.pick(number, &mut self.random)),
        };
        (number, new)
    }

    fn state(&mut self, files: &[Option<Vec<u8>>], room: usize, is_right: bool) -> State {
        let drawer = Arc::new(scattered(files, room, &mut self.random));
        let board = match is_right {
            true => judge_drawer(&drawer).board,
            false => random_board(&mut self.random),
        };
        State { drawer, board }
    }
}

fn files_of(set: &SetDraft) -> Vec<Option<Vec<u8>>> {
    (0..FILES).map(|number| set.bytes(number)).collect()
}

fn add_pair(
    cases: &mut Cases,
    base: &SetDraft,
    pool: &Pool,
    (low, high): (usize, usize),
    round: usize,
) {
    let set = match round {
        0 => base.clone(),
        _ => random_set(base, cases.random.below(4), &mut cases.random),
    };
    let room = [4000, 300, 20][round];
    let state = cases.state(&files_of(&set), room, round < 2);
    let (first, second) = (cases.planned(pool, low), cases.planned(pool, high));
    cases.both_orders(&state, &first, &second);
}

fn add_undone(cases: &mut Cases, base: &SetDraft, pool: &Pool, number: usize, round: usize) {
    let set = match round % 3 {
        0 => base.without(number),
        1 => base.with_bytes(number, b""),
        _ => base.clone(),
    };
    let room = cases.random.pick(&[1000, 3000]);
    let state = cases.state(&files_of(&set), room, round % 2 == 0);
    let planned = cases.planned(pool, number);
    cases.undo(&state, &planned);
}

/// Small drawers with little room or none.
fn add_small(cases: &mut Cases) {
    let often = cases.random.pick(&[2, 5, 20]);
    let mut files: Vec<Option<Vec<u8>>> = vec![None; FILES];
    for (number, file) in files.iter_mut().enumerate() {
        if cases.random.below(often) == 0 {
            let length = cases.random.pick(&[0, 0, 1, 2, 5, 9]);
            *file = Some(vec![b'a' + number as u8; length]);
        }
    }
    let room = cases.random.pick(&[0, 1, 2, 4, 8, 20]);
    let is_right = cases.random.below(2) == 0;
    let state = cases.state(&files, room, is_right);
    let first = cases.random.below(FILES);
    let second = (first + 1 + cases.random.below(FILES - 1)) % FILES;
    let [first, second] = [first, second].map(|number| {
        let length = cases.random.pick(&[0, 1, 2, 3, 5, 9]);
        let new = Arc::new(vec![b'A' + number as u8; length]);
        (number, Some(new).filter(|_| cases.random.below(4) > 0))
    });
    cases.both_orders(&state, &first, &second);
    cases.undo(&state, &first);
}
