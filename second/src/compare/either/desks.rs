//! Two changes in both orders, and undone ones, of two desks and their
//! calendars. Files of one number in two bundles are two files.

use std::sync::Arc;

use super::case::{before, board_sights, wanted_of_all, EitherCase, Sight, Step};
use crate::board::Board;
use crate::bundle::{build, files, FILES, HEADER, LARGEST_BUNDLE};
use crate::compare::desks::case::{Call, Change, DesksCase, Three};
use crate::compare::desks::cases::split;
use crate::compare::gate::case::{Bytes, Output};
use crate::compare::gate::cases::{random_board, Pool};
use crate::compare::gate::sample::Set;
use crate::compare::gate::set_draft::SetDraft;
use crate::compare::random::Random;
use crate::desks::{is_calendar_file, judge_joined, Whose};

const ALL: [Whose; 3] = [Whose::DeskA, Whose::DeskB, Whose::Calendars];

impl Step for DesksCase {
    fn wanted_either() -> Vec<Sight> {
        let mut wanted = wanted_of_all();
        for (one, other) in [(0, 0), (0, 1), (0, 2), (1, 1), (1, 2), (2, 2)] {
            wanted.push(Sight::Whose { whose: (one, other) });
        }
        for files in (0..FILES).filter(|number| !is_calendar_file(*number)) {
            // The same number at both desks.
            wanted.push(Sight::Agreed { files: (files, files) });
        }
        for files in [(6, 7), (6, 8), (7, 8), (6, 10), (6, 14), (6, 9)] {
            wanted.push(Sight::Agreed { files });
        }
        wanted.extend([Sight::Refused { refusal: 5 }, Sight::UndoRefused { refusal: 5 }]);
        wanted.extend([Sight::OneOrder, Sight::BesideRefused, Sight::Refused { refusal: 6 }]);
        wanted.push(Sight::Full { undone: false });
        wanted
    }
}

pub fn all_cases(seed: u64) -> Vec<EitherCase<DesksCase>> {
    let mut cases = Cases { list: Vec::new(), random: Random::new(seed) };
    let pool = Pool::new(&SetDraft::accepted(), &mut cases.random);
    for round in 0..700 {
        add_pair(&mut cases, &pool, round);
    }
    for number in 0..FILES {
        for round in 0..12 {
            add_undone(&mut cases, &pool, number, round);
        }
        if !is_calendar_file(number) {
            for right in [true, false] {
                add_same_number(&mut cases, &pool, number, right);
            }
        }
        for other in [6, 7, 8] {
            add_calendar(&mut cases, &pool, number, other);
        }
    }
    add_full(&mut cases);
    cases.list
}

#[derive(Clone, PartialEq)]
struct State {
    three: Three,
    boards: Box<[Board; 2]>,
}

impl State {
    fn bundle(&mut self, whose: Whose) -> &mut Bytes {
        match whose {
            Whose::DeskA => &mut self.three.desks[0],
            Whose::DeskB => &mut self.three.desks[1],
            Whose::Calendars => &mut self.three.shared,
        }
    }

    fn judged(&self) -> [Board; 2] {
        let [a, b] = &self.three.desks;
        [a, b].map(|desk| judge_joined(desk, &self.three.shared).board)
    }

    fn is_right(&self) -> bool {
        self.judged() == *self.boards
    }
}

#[derive(Clone)]
struct Planned {
    whose: Whose,
    number: usize,
    new: Option<Bytes>,
    spare: i64,
}

struct Cases {
    list: Vec<EitherCase<DesksCase>>,
    random: Random,
}

impl Cases {
    /// The state after the step, or the refusal of a desk that it concerns. A
    /// desk whose own bundle is refused keeps its board and doesn't count.
    fn step(&mut self, state: &State, planned: &Planned) -> Result<State, u32> {
        let change = Change {
            boards: state.boards.clone(),
            whose: planned.whose,
            number: planned.number as u32,
            new: planned.new.clone(),
        };
        let needed = state.three.tried(&change).size.max(164) as i64;
        let length = (needed + planned.spare) as usize;
        let seed = self.random.next_number() as u32;
        let call = Call::Make(change.clone(), Output { length: length as u32, seed });
        let step = DesksCase { three: state.three.clone(), call };
        self.list.push(EitherCase { step, seen: Vec::new() });
        let mut output = vec![0; length];
        let answers = state.three.made(&change, &mut output);
        if answers.size == 0 {
            let refusals = answers.desks.iter().map(|desk| desk.refusal);
            return Err(refusals.max().unwrap_or(0));
        }
        output.truncate(answers.size);
        let mut after = state.clone();
        *after.bundle(planned.whose) = Arc::new(output);
        *after.boards = answers.desks.map(|desk| desk.board);
        Ok(after)
    }

    fn shown(&mut self, seen: Vec<Sight>) {
        self.list.last_mut().expect("there are steps").seen.extend(seen);
    }

    fn both_orders(&mut self, state: &State, first: &Planned, second: &Planned) {
        let one = self.step(state, first).and_then(|state| self.step(&state, second));
        let other = self.step(state, second).and_then(|state| self.step(&state, first));
        let seen = match (one, other) {
            (Ok(one), Ok(other)) if one == other => {
                let numbers = (first.number.min(second.number), first.number.max(second.number));
                let whose = [first.whose as usize, second.whose as usize];
                let whose = (whose[0].min(whose[1]), whose[0].max(whose[1]));
                let mut seen = vec![Sight::Whose { whose }];
                let in_order = |desk: &Bytes| judge_joined(desk, &state.three.shared).refusal == 0;
                if state.three.desks.iter().all(in_order) {
                    seen.push(Sight::Agreed { files: numbers });
                    seen.push(Sight::AgreedFrom { right: state.is_right() });
                } else {
                    seen.push(Sight::BesideRefused);
                }
                if one.three.desks[0].len() == LARGEST_BUNDLE {
                    seen.push(Sight::Full { undone: false });
                }
                seen
            }
            (Ok(_), Ok(_)) => vec![Sight::Differ],
            (Err(one), Err(other)) => [one, other].map(|r| Sight::Refused { refusal: r }).into(),
            _ => vec![Sight::OneOrder],
        };
        self.shown(seen);
    }

    fn undo(&mut self, state: &mut State, planned: &Planned, spare: i64) {
        let after = match self.step(state, planned) {
            Ok(after) => after,
            Err(_) => return,
        };
        let number = planned.number;
        let bundle = state.bundle(planned.whose).clone();
        let old = files(&bundle).expect("a state's bundles are in order")[number];
        let new = old.map(|old| Arc::new(old.to_vec()));
        let back = Planned { new, spare, ..planned.clone() };
        let seen = match self.step(&after, &back) {
            Err(refusal) => vec![Sight::UndoRefused { refusal }],
            Ok(end) => {
                let mut seen = vec![Sight::Restored { file: number, before: before(old) }];
                if end.three != state.three {
                    seen.push(Sight::NotRestored);
                }
                let judged = state.judged();
                for desk in [0, 1] {
                    let concerned = planned.whose == Whose::Calendars || planned.whose == ALL[desk];
                    let (handed, given) = (&state.boards[desk], &end.boards[desk]);
                    if concerned {
                        seen.extend(board_sights(handed, given, &judged[desk], number));
                    } else if handed != given {
                        seen.push(Sight::NotRestored);
                    }
                }
                seen
            }
        };
        self.shown(seen);
    }

    fn planned(&mut self, pool: &Pool, whose: Whose, number: usize) -> Planned {
        let new = match self.random.below(4) {
            0 => None,
            _ => Some(pool.pick(number, &mut self.random)),
        };
        Planned { whose, number, new, spare: 0 }
    }

    fn state(&mut self, desks: [Set; 2], calendars: Set, is_right: bool) -> State {
        let [a, b] = desks.map(|desk| Arc::new(desk.bundle()));
        let three = Three { desks: [a, b], shared: Arc::new(calendars.bundle()) };
        let boards = [(); 2].map(|()| random_board(&mut self.random));
        let mut state = State { three, boards: Box::new(boards) };
        if is_right {
            *state.boards = state.judged();
        }
        state
    }

    /// A bundle in which some files are withdrawn or empty.
    fn thinned(&mut self, set: &Set) -> Set {
        let mut set = set.clone();
        for file in set.files.iter_mut().filter(|file| file.is_some()) {
            match self.random.below(8) {
                0 => *file = None,
                1 => *file = Some(Vec::new()),
                _ => {}
            }
        }
        set
    }

    fn any_file(&mut self, whose: Whose) -> usize {
        match whose {
            Whose::Calendars => 6 + self.random.below(3),
            _ => (9 + self.random.below(17)) % FILES,
        }
    }
}

/// Any two changes to two different files; in some rounds one desk's bundle is
/// in no order.
fn add_pair(cases: &mut Cases, pool: &Pool, round: usize) {
    let (desk, calendars) = split();
    let desks = [cases.thinned(&desk), cases.thinned(&desk)];
    let calendars = cases.thinned(&calendars);
    let mut state = cases.state(desks, calendars, round % 2 == 0);
    let [one, other] = [cases.random.pick(&ALL), cases.random.pick(&ALL)];
    let number = cases.any_file(one);
    let mut second = cases.any_file(other);
    while (one, number) == (other, second) {
        second = cases.any_file(other);
    }
    let [mut first, mut second] =
        [(one, number), (other, second)].map(|(whose, number)| cases.planned(pool, whose, number));
    if round % 7 == 3 {
        let desk = cases.random.below(2);
        let mut files = files(&state.three.desks[desk]).expect("the desk is in order");
        files[7] = Some(b"");
        state.three.desks[desk] = Arc::new(build(&files));
    }
    if round % 9 == 4 {
        first.spare = cases.random.pick(&[-1, 5]);
        second.spare = cases.random.pick(&[-1, 0]);
    }
    cases.both_orders(&state, &first, &second);
}

fn add_same_number(cases: &mut Cases, pool: &Pool, number: usize, right: bool) {
    let (desk, calendars) = split();
    let state = cases.state([desk.clone(), desk], calendars, right);
    let [a, b] = [Whose::DeskA, Whose::DeskB].map(|whose| cases.planned(pool, whose, number));
    cases.both_orders(&state, &a, &b);
}

fn add_calendar(cases: &mut Cases, pool: &Pool, number: usize, calendar: usize) {
    if number == calendar {
        return;
    }
    let (desk, calendars) = split();
    let right = cases.random.below(2) == 0;
    let state = cases.state([desk.clone(), desk], calendars, right);
    let whose = match is_calendar_file(number) {
        true => Whose::Calendars,
        false => cases.random.pick(&[Whose::DeskA, Whose::DeskB]),
    };
    let first = cases.planned(pool, whose, number);
    let second = cases.planned(pool, Whose::Calendars, calendar);
    cases.both_orders(&state, &first, &second);
}

fn add_undone(cases: &mut Cases, pool: &Pool, number: usize, round: usize) {
    let (mut desk, mut calendars) = split();
    let set = if is_calendar_file(number) { &mut calendars } else { &mut desk };
    match round % 3 {
        0 => set.files[number] = None,
        1 => set.files[number] = Some(Vec::new()),
        _ => {}
    }
    let mut state = cases.state([desk.clone(), desk], calendars, round % 2 == 0);
    let whose = match is_calendar_file(number) {
        true => Whose::Calendars,
        false => cases.random.pick(&[Whose::DeskA, Whose::DeskB]),
    };
    let planned = cases.planned(pool, whose, number);
    let spare = if round > 10 { -1 } else { 2 };
    cases.undo(&mut state, &planned, spare);
}

/// A desk and calendars that are full: room made by one change lets the other
/// in, so that one order alone is accepted.
fn add_full(cases: &mut Cases) {
    let long = vec![b' '; LARGEST_BUNDLE - HEADER - 1];
    let desk = Set::empty().with_bytes(9, &long).with(2, "x");
    let calendars = Set::empty().with_bytes(8, &long).with(6, "x");
    let state = cases.state([desk, Set::empty()], calendars, true);
    for (whose, held, other) in [(Whose::DeskA, 2, 4), (Whose::Calendars, 6, 7)] {
        for (old, new) in [("", "y"), ("z", "y"), ("z", "")] {
            let [first, second] = [(held, old), (other, new)].map(|(number, bytes)| Planned {
                whose,
                number,
                new: Some(Arc::new(bytes.as_bytes().to_vec())),
                spare: 0,
            });
            cases.both_orders(&state, &first, &second);
        }
    }
}
