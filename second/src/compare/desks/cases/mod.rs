//! The cases of the two desks.

mod holding;
mod large;
mod mixes;
mod outputs;
mod runs;

use super::case::{Call, Change, DesksCase, Three};
use crate::board::Board;
use crate::compare::gate::case::{Bytes, Output, LONGEST};
use crate::compare::gate::cases::random_board;
use crate::compare::gate::sample::{accepted, Set};
use crate::compare::random::Random;
use crate::desks::{is_calendar_file, Whose};

/// The same seed always gives the same cases in the same order.
pub fn all_cases(seed: u64) -> Vec<DesksCase> {
    let mut cases = Cases { list: Vec::new(), random: Random::new(seed) };
    mixes::add(&mut cases);
    holding::add(&mut cases);
    outputs::add(&mut cases);
    runs::add(&mut cases);
    large::add(&mut cases);
    cases.list
}

const ALL: [Whose; 3] = [Whose::DeskA, Whose::DeskB, Whose::Calendars];

struct Cases {
    list: Vec<DesksCase>,
    random: Random,
}

impl Cases {
    fn push(&mut self, three: &Three, call: Call) {
        self.list.push(DesksCase { three: three.clone(), call });
    }

    /// Desk A's bundle, or what is taken for it, judged on the join.
    fn judge(&mut self, desk: &Bytes, shared: &Bytes) {
        let desks = [desk.clone(), Bytes::default()];
        self.push(&Three { desks, shared: shared.clone() }, Call::Judge);
    }

    fn try_change(&mut self, three: &Three, change: Change) {
        self.push(three, Call::Try(change));
    }

    fn make_change(&mut self, three: &Three, change: Change, length: usize) {
        assert!(length <= LONGEST);
        let seed = self.random.next_number() as u32;
        self.push(three, Call::Make(change, Output { length: length as u32, seed }));
    }

    fn random_boards(&mut self) -> Box<[Board; 2]> {
        Box::new([random_board(&mut self.random), random_board(&mut self.random)])
    }
}

/// The accepted set as a desk's files and as the calendars.
pub(in crate::compare) fn split() -> (Set, Set) {
    let (mut desk, mut calendars) = (accepted(), accepted());
    for number in 0..20 {
        match is_calendar_file(number) {
            true => desk.files[number] = None,
            false => calendars.files[number] = None,
        }
    }
    (desk, calendars)
}
