//! Outputs of every length around the one that is needed.

use std::sync::Arc;

use super::{Cases, ALL};
use crate::compare::desks::case::{Change, Three};
use crate::compare::gate::case::Bytes;
use crate::compare::gate::sample::Set;
use crate::desks::Whose;

pub(super) fn add(cases: &mut Cases) {
    let desk_a = Set::empty().with(3, "{}").with(9, "[]").with(12, "");
    let desk_b = Set::empty().with(9, "[ ]");
    let shared = Set::empty().with(6, "").with(8, "[{}]");
    let right = [&desk_a, &desk_b, &shared].map(|set| Arc::new(set.bundle()));
    let wrong: Bytes = Arc::new(desk_a.with(7, "").bundle());
    let [a, b, shared] = right;
    let sorts = [[a.clone(), b.clone()], [wrong.clone(), b], [a, wrong.clone()]];
    for desks in sorts {
        let three = Three { desks, shared: shared.clone() };
        for whose in ALL {
            let numbers: &[u32] = if whose == Whose::Calendars { &[6, 7, 8] } else { &[3, 9, 12] };
            for number in numbers {
                for new in [None, Some(&b""[..]), Some(b"[]"), Some(b"[{}, {}]")] {
                    let boards = cases.random_boards();
                    let new = new.map(|new| Arc::new(new.to_vec()));
                    add_lengths(cases, &three, Change { boards, whose, number: *number, new });
                }
            }
        }
    }
}

fn add_lengths(cases: &mut Cases, three: &Three, change: Change) {
    let needed = match three.tried(&change).size {
        0 => 170,
        size => size,
    };
    cases.try_change(three, change.clone());
    for length in (needed - 3..needed + 4).chain([0, 163, 164, needed + 60]) {
        cases.make_change(three, change.clone(), length);
    }
}
