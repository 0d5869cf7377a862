//! Files where they may not be: each file in each bundle, with bytes and
//! without, and each file changed and withdrawn in each bundle.

use std::sync::Arc;

use super::{split, Cases, ALL};
use crate::bundle::FILES;
use crate::compare::desks::case::{Change, Three};
use crate::compare::gate::cases::FILE_NUMBERS;
use crate::compare::gate::sample::Set;
use crate::desks::Whose;

pub(super) fn add(cases: &mut Cases) {
    let small = Three {
        desks: [Set::empty().with(4, "[]"), Set::empty()].map(|set| Arc::new(set.bundle())),
        shared: Arc::new(Set::empty().with(7, "").bundle()),
    };
    for number in 0..FILES {
        for contents in ["", "[]"] {
            let holding = Arc::new(Set::empty().with(number, contents).bundle());
            let [a, b] = small.desks.clone();
            let shared = small.shared.clone();
            let sorts = [
                Three { desks: [holding.clone(), b.clone()], shared: shared.clone() },
                Three { desks: [a.clone(), holding.clone()], shared },
                Three { desks: [a, b], shared: holding },
            ];
            for three in sorts {
                cases.judge(&three.desks[0], &three.shared);
                add_all_whose(cases, &three);
            }
        }
    }
    add_numbers(cases, &small);
    let (desk, calendars) = split();
    let [desk, shared] = [desk, calendars].map(|set| Arc::new(set.bundle()));
    let sample = Three { desks: [desk.clone(), desk], shared };
    add_numbers(cases, &sample);
}

/// A change that is in order.
fn add_all_whose(cases: &mut Cases, three: &Three) {
    for whose in ALL {
        let number = if whose == Whose::Calendars { 6 } else { 3 };
        let boards = cases.random_boards();
        let new = Some(Arc::new(b"{}".to_vec()));
        cases.make_change(three, Change { boards, whose, number, new }, 300);
    }
}

/// Every file number, put in and withdrawn.
fn add_numbers(cases: &mut Cases, three: &Three) {
    let largest = three.desks.iter().map(|desk| desk.len()).max().unwrap_or(0);
    for whose in ALL {
        for number in (0..FILES as u32).chain(FILE_NUMBERS) {
            for new in [None, Some(b"".to_vec()), Some(b"[{}]".to_vec())] {
                let boards = cases.random_boards();
                let change = Change { boards, whose, number, new: new.map(Arc::new) };
                cases.try_change(three, change.clone());
                cases.make_change(three, change, largest + 100);
            }
        }
    }
}
