//! Wrong headers: each of the 41 numbers wrong in many ways, sums that wrap,
//! files that share bytes, drawers too short; every call meets its refusals in
//! order.

use std::sync::Arc;

use super::{drawer_of, Cases};
use crate::bundle::{word_at, FILES, HEADER};
use crate::compare::drawer::case::Call;
use crate::compare::gate::case::{Bytes, Change};
use crate::compare::gate::cases::{random_board, FILE_NUMBERS};
use crate::drawer::Span;

pub(super) fn add(cases: &mut Cases) {
    let bases = bases(cases);
    for base in &bases {
        for word in 0..=2 * FILES {
            add_wrong_word(cases, base, word);
        }
        add_shared_bytes(cases, base);
        add_wrapping(cases, base);
        for length in (0..=8).chain(155..=base.len()) {
            asked(cases, base[..length].to_vec());
        }
    }
    add_orders(cases, &bases[1]);
}

/// Without files; some with gaps, out of order, one empty inside another, one
/// at the very end; all twenty, from the last to the first.
fn bases(cases: &mut Cases) -> Vec<Vec<u8>> {
    let span = |offset, length| Span { offset: HEADER + offset, length };
    let some =
        [(3, span(9, 4)), (4, span(2, 5)), (9, span(4, 0)), (15, span(14, 1)), (19, span(20, 0))];
    let all: Vec<(usize, Span)> =
        (0..FILES).map(|number| (number, span(3 * (FILES - 1 - number), number % 4))).collect();
    let sorts = [(&[][..], 5), (&some, 20), (&all, 60)];
    sorts
        .map(|(files, room)| drawer_of(files, HEADER + room, || cases.random.next_number() as u8))
        .into()
}

/// Judged, and now and then asked for something else.
fn asked(cases: &mut Cases, drawer: Vec<u8>) {
    let drawer = cases.judge(drawer);
    match cases.random.below(6) {
        0 => {
            let change = any_change(cases);
            cases.change(&drawer, change);
        }
        1 => {
            let number = cases.random.pick(&FILE_NUMBERS);
            cases.push(&drawer, Call::LookUp(number));
        }
        2 => {
            let length = cases.random.below(drawer.len() + 40);
            cases.take(&drawer, length);
        }
        _ => {}
    }
}

pub(super) fn any_change(cases: &mut Cases) -> Change {
    let board = random_board(&mut cases.random);
    let number = match cases.random.below(4) {
        0 => cases.random.pick(&FILE_NUMBERS),
        _ => cases.random.below(FILES) as u32,
    };
    let new = match cases.random.below(4) {
        0 => None,
        most => {
            let length = cases.random.below(4 * most);
            Some(Arc::new((0..length).map(|_| cases.any_byte()).collect()))
        }
    };
    Change { board, number, new }
}

fn with_word(drawer: &[u8], word: usize, value: u32) -> Vec<u8> {
    let mut changed = drawer.to_vec();
    changed[4 * word..4 * word + 4].copy_from_slice(&value.to_le_bytes());
    changed
}

fn add_wrong_word(cases: &mut Cases, base: &[u8], word: usize) {
    let right = word_at(base, 4 * word);
    let length = base.len() as u32;
    let near = [right.wrapping_add(1), right.wrapping_sub(1), right.swap_bytes(), right ^ 1 << 31];
    let other = [0, 1, 19, 20, 21, 163, 164, 165, length - 1, length, length + 1];
    let huge = [u32::MAX, u32::MAX - 163, u32::MAX - length, 1 << 31, 1 << 16, 1 << 24];
    for value in near.into_iter().chain(other).chain(huge) {
        asked(cases, with_word(base, word, value));
    }
}

/// Two files with bytes in common: the first, the last, all, one inside.
fn add_shared_bytes(cases: &mut Cases, base: &[u8]) {
    for first in 0..FILES {
        for second in [(first + 1) % FILES, (first + 7) % FILES] {
            let at = HEADER as u32 + 1;
            for (offset, length) in [(at + 1, 2), (at, 2), (at + 1, 0), (at + 1, 1), (at + 2, 1)] {
                let mut drawer = with_word(base, 1 + 2 * first, at);
                drawer = with_word(&drawer, 2 + 2 * first, 3);
                drawer = with_word(&drawer, 1 + 2 * second, offset);
                asked(cases, with_word(&drawer, 2 + 2 * second, length));
            }
        }
    }
    let alone = drawer_of(&[], HEADER + 6, || b'.');
    for (first, second) in [((1, 3), (2, 1)), ((0, 6), (5, 1)), ((2, 2), (3, 2)), ((0, 1), (0, 1))]
    {
        for (a, b) in [(4, 11), (11, 4)] {
            let mut drawer = alone.clone();
            for (number, (offset, length)) in [(a, first), (b, second)] {
                drawer = with_word(&drawer, 1 + 2 * number, HEADER as u32 + offset);
                drawer = with_word(&drawer, 2 + 2 * number, length);
            }
            asked(cases, drawer);
        }
    }
}

/// Offset and length come to something small, if sums wrap around.
fn add_wrapping(cases: &mut Cases, base: &[u8]) {
    for number in [0, 4, 9, 19] {
        for offset in [164, 165, base.len() as u32, 1 << 31, u32::MAX - 4, u32::MAX] {
            for sum in [0, 4, 163, 164, 166, base.len() as u32] {
                let drawer = with_word(base, 1 + 2 * number, offset);
                let length = sum.wrapping_sub(offset);
                asked(cases, with_word(&drawer, 2 + 2 * number, length));
            }
        }
    }
}

/// Every mix of what can be wrong with a change.
fn add_orders(cases: &mut Cases, base: &[u8]) {
    for wrong in 0..16 {
        let has = |bit: usize| wrong >> bit & 1 == 1;
        let mut drawer = base.to_vec();
        if has(1) {
            drawer[0] = 19;
        }
        if has(2) {
            drawer = with_word(&drawer, 2, 1);
        }
        if has(0) {
            drawer.truncate(160);
        }
        let drawer: Bytes = Arc::new(drawer);
        for number in if has(3) { [20, u32::MAX] } else { [4, 11] } {
            cases.push(&drawer, Call::LookUp(number));
            for new in [None, Some(vec![b'x'; 3]), Some(vec![b'x'; 60])] {
                let board = random_board(&mut cases.random);
                cases.change(&drawer, Change { board, number, new: new.map(Arc::new) });
            }
        }
        for length in [0, 163, 174, 300] {
            cases.take(&drawer, length);
        }
    }
}
