//! Bundles at 1,048,576 bytes, and joins longer than that.

use std::sync::Arc;

use super::{Cases, ALL};
use crate::bundle::{HEADER, LARGEST_BUNDLE};
use crate::compare::desks::case::{Change, Three};
use crate::compare::gate::case::Bytes;
use crate::compare::gate::sample::Set;
use crate::desks::Whose;

pub(super) fn add(cases: &mut Cases) {
    add_long_joins(cases);
    add_too_long(cases);
}

/// A table with no records, of that length.
fn table(length: usize) -> Vec<u8> {
    let mut bytes = vec![b' '; length];
    bytes[0] = b'[';
    bytes[length - 1] = b']';
    bytes
}

fn bundle(number: usize, length: usize) -> Bytes {
    Arc::new(Set::empty().with_bytes(number, &table(length)).bundle())
}

fn add_long_joins(cases: &mut Cases) {
    let full = LARGEST_BUNDLE - HEADER;
    let small: Bytes = Arc::new(Set::empty().bundle());
    cases.judge(&bundle(10, full), &bundle(6, full));
    cases.judge(&bundle(10, full + 1), &bundle(6, full));
    cases.judge(&bundle(10, full), &bundle(6, full + 1));
    let long = Three { desks: [bundle(10, full), small], shared: bundle(8, full) };
    for (whose, number) in [(Whose::DeskA, 10), (Whose::Calendars, 8)] {
        for length in [2, full, full + 1] {
            let boards = cases.random_boards();
            let new = Some(Arc::new(table(length)));
            let change = Change { boards, whose, number, new };
            cases.try_change(&long, change.clone());
            cases.make_change(&long, change, HEADER + length.min(full));
        }
    }
}

/// 6, beside what comes before it and before 5.
fn add_too_long(cases: &mut Cases) {
    let desk = Set::empty().with(3, "{}");
    let calendars = Set::empty().with(7, "[]");
    let right = Arc::new(desk.bundle());
    let one: Bytes = Arc::new(right[..163].to_vec());
    let nine: Bytes = Arc::new(desk.with(6, "").bundle());
    let shared: Bytes = Arc::new(calendars.bundle());
    let shared_nine: Bytes = Arc::new(calendars.with(9, "").bundle());
    // Two bytes are there already.
    let new = Arc::new(table(LARGEST_BUNDLE - HEADER - 1));
    for (a, b, shared) in [
        (&right, &right, &shared),
        (&nine, &right, &shared),
        (&right, &one, &shared),
        (&right, &right, &shared_nine),
    ] {
        let three = Three { desks: [a.clone(), b.clone()], shared: shared.clone() };
        for whose in ALL {
            let number = if whose == Whose::Calendars { 8 } else { 9 };
            let boards = cases.random_boards();
            let change = Change { boards, whose, number, new: Some(new.clone()) };
            cases.try_change(&three, change.clone());
            cases.make_change(&three, change, 100);
        }
    }
    for (number, length) in [(20, 300), (7, 300)] {
        let three = Three { desks: [right.clone(), right.clone()], shared: shared.clone() };
        let boards = cases.random_boards();
        let change = Change { boards, whose: Whose::DeskA, number, new: Some(new.clone()) };
        cases.make_change(&three, change, length);
    }
}
