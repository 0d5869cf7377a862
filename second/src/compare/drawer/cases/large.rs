//! Drawers at the limit of 1,048,576 bytes and one byte over.

use std::sync::Arc;

use super::{drawer_of, Cases};
use crate::bundle::{HEADER, LARGEST_BUNDLE};
use crate::compare::drawer::case::Call;
use crate::compare::gate::case::Change;
use crate::compare::gate::cases::random_board;
use crate::compare::gate::sample::Set;
use crate::drawer::Span;

const HALF: usize = LARGEST_BUNDLE / 2;

pub(super) fn add(cases: &mut Cases) {
    let full = LARGEST_BUNDLE - HEADER;
    let one = |length| vec![(8, Span { offset: HEADER, length })];
    // Two files with one byte before, between and behind them.
    let first = Span { offset: HEADER + 1, length: HALF - HEADER - 1 };
    let second = Span { offset: HALF + 1, length: LARGEST_BUNDLE - HALF - 2 };
    let apart = vec![(19, first), (2, second), (5, Span { offset: LARGEST_BUNDLE, length: 0 })];
    for (files, length) in [
        (one(full), LARGEST_BUNDLE),
        (one(full - 1), LARGEST_BUNDLE),
        (one(full), LARGEST_BUNDLE + 1),
        (one(full + 1), LARGEST_BUNDLE),
        (one(full + 1), LARGEST_BUNDLE + 1),
        (Vec::new(), LARGEST_BUNDLE),
        (apart, LARGEST_BUNDLE),
    ] {
        let drawer = drawer_of(&files, length, || b' ');
        let drawer = cases.judge(drawer);
        for new in [1, 2, 3, 4] {
            add_change(cases, &drawer, Some(new));
        }
        add_change(cases, &drawer, None);
        cases.take(&drawer, LARGEST_BUNDLE + 1);
    }
    let empty = Arc::new(drawer_of(&[], LARGEST_BUNDLE, || b'.'));
    add_change(cases, &empty, Some(full));
    add_change(cases, &empty, Some(full + 1));
    add_put(cases);
}

fn add_change(cases: &mut Cases, drawer: &Arc<Vec<u8>>, length: Option<usize>) {
    let board = random_board(&mut cases.random);
    let new = length.map(|length| Arc::new(b"[]".repeat(length)[..length].to_vec()));
    cases.push(drawer, Call::Make(Change { board, number: 6, new }));
}

fn add_put(cases: &mut Cases) {
    let bytes = vec![b' '; LARGEST_BUNDLE - HEADER];
    let bundle = Arc::new(Set::empty().with_bytes(11, &bytes).bundle());
    for length in [LARGEST_BUNDLE - 1, LARGEST_BUNDLE, LARGEST_BUNDLE + 1] {
        cases.push(&Arc::new(vec![b'.'; length]), Call::Put(bundle.clone()));
    }
    let small = Arc::new(Set::empty().bundle());
    cases.push(&Arc::new(vec![b'.'; LARGEST_BUNDLE + 1]), Call::Put(small));
}
