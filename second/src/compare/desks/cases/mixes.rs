//! Every mix of refusals: of both desks' bundles, the shared one, and the
//! change.

use std::sync::Arc;

use super::{Cases, ALL};
use crate::compare::desks::case::{Change, Three};
use crate::compare::gate::case::Bytes;
use crate::compare::gate::sample::Set;
use crate::desks::Whose;

pub(super) fn add(cases: &mut Cases) {
    let desk_a = five_sorts(Set::empty().with(9, "[]").with(14, ""), 6);
    let desk_b = five_sorts(Set::empty().with(0, "x").with(9, "[{}]"), 8);
    let calendars = five_sorts(Set::empty().with(6, "[]").with(8, "[{}]"), 9);
    for shared in &calendars {
        for a in &desk_a {
            cases.judge(a, shared);
            for b in &desk_b {
                let three = Three { desks: [a.clone(), b.clone()], shared: shared.clone() };
                for whose in ALL {
                    add_changes(cases, &three, whose);
                }
            }
        }
    }
}

/// In order, and refused by 1, 2, 3 and 9; what is refused by one number would
/// be by each higher one as well.
fn five_sorts(set: Set, not_its: usize) -> [Bytes; 5] {
    let nine = set.with(not_its, "[]").bundle();
    let mut three = nine.clone();
    three.push(b'.');
    let mut two = three.clone();
    two[1] = 1;
    let one = two[..163].to_vec();
    [set.bundle(), one, two, three, nine].map(Arc::new)
}

/// In order; 4; 9; 5; and 5 beside each of the others.
fn add_changes(cases: &mut Cases, three: &Three, whose: Whose) {
    let (right, wrong) = match whose {
        Whose::Calendars => (8, 9),
        Whose::DeskA | Whose::DeskB => (9, 7),
    };
    for (number, lengths) in [(right, &[400, 150][..]), (20, &[400]), (wrong, &[150])] {
        let boards = cases.random_boards();
        let new = match cases.random.below(3) {
            0 => None,
            _ => Some(Arc::new(b"[{}, {}]".to_vec())),
        };
        let change = Change { boards, whose, number, new };
        cases.try_change(three, change.clone());
        for length in lengths {
            cases.make_change(three, change.clone(), *length);
        }
    }
}
