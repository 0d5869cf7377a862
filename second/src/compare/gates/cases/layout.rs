//! The bundle's layout: each number of the header wrong in every way, lengths
//! that wrap around, bundles cut and prolonged; judged, or the ground of another
//! call, which is refused alike.

use std::sync::Arc;

use super::super::case::Change;
use super::super::files::Files;
use super::ground::Ground;
use super::{file_numbers, Cases};
use crate::bundle::LARGEST_BUNDLE;

pub(super) fn add(cases: &mut Cases, ground: &Ground) {
    for base in small_bundles(ground) {
        let header = ground.which.gate().header();
        for word in 0..header / 4 {
            add_wrong_word(cases, ground, &base, word);
        }
        add_wrapped(cases, ground, &base);
        for length in (0..header + 7).chain(base.len().saturating_sub(3)..base.len() + 4) {
            let mut bundle = base.clone();
            bundle.resize(length, 4);
            add_bundle(cases, ground, bundle);
        }
    }
    add_other_counts(cases, ground);
    add_all_numbers(cases, ground);
    add_limit(cases, ground);
}

/// None present; all without bytes; some, one of them empty.
fn small_bundles(ground: &Ground) -> [Vec<u8>; 3] {
    let none = Files::empty(ground.which);
    let mut empty = none.clone();
    empty.files.iter_mut().for_each(|file| *file = Some(Vec::new()));
    let some = none.with(0, b"[]").with(1, b"").with(3, b"[{}]");
    [none, empty, some].map(|set| set.bundle())
}

/// Judged, or asked for something else.
fn add_bundle(cases: &mut Cases, ground: &Ground, bundle: Vec<u8>) {
    let which = ground.which;
    let bundle = Arc::new(bundle);
    let numbers = file_numbers(which);
    match cases.random.below(8) {
        0 => {
            let change = any_change(cases, ground);
            cases.try_change(which, &bundle, change);
        }
        1 => {
            let change = any_change(cases, ground);
            let length = cases.random.below(bundle.len() + 40);
            cases.make_change(which, &bundle, change, length);
        }
        2 => {
            let number = cases.random.pick(&numbers);
            cases.look_up(which, &bundle, number);
        }
        3 => {
            let mark = cases.random.below(which.gate().marks + 4);
            cases.reason(which, &bundle, mark);
        }
        _ => cases.judge(which, &bundle),
    }
}

/// A change of any file or of none that there is, against any board.
pub(super) fn any_change(cases: &mut Cases, ground: &Ground) -> Change {
    let board = cases.random_board(ground.which);
    let random = &mut cases.random;
    let file = match random.below(3) {
        0 => random.pick(&file_numbers(ground.which)),
        _ => random.below(ground.which.gate().files) as u32,
    };
    let new = random.pick(&[None, Some(&b""[..]), Some(b"[]"), Some(b"{}"), Some(b"[{}]")]);
    Change { board, file, new: new.map(|bytes| Arc::new(bytes.to_vec())) }
}

fn word_of(bundle: &[u8], word: usize) -> u32 {
    let bytes = &bundle[4 * word..4 * word + 4];
    u32::from_le_bytes(bytes.try_into().expect("a number has four bytes"))
}

fn with_word(bundle: &[u8], word: usize, value: u32) -> Vec<u8> {
    let mut changed = bundle.to_vec();
    changed[4 * word..4 * word + 4].copy_from_slice(&value.to_le_bytes());
    changed
}

/// Near the right number, near what it might be taken for, and some bits.
fn add_wrong_word(cases: &mut Cases, ground: &Ground, base: &[u8], word: usize) {
    let right = word_of(base, word);
    let length = base.len() as u32;
    let header = ground.which.gate().header() as u32;
    let mut values = vec![
        right.wrapping_add(1),
        right.wrapping_sub(1),
        right.swap_bytes(),
        right.wrapping_neg(),
        0,
        1,
        header,
        header + 1,
        length,
        length + 1,
        u32::MAX,
        u32::MAX - header + 1,
    ];
    values.extend([8, 15, 16, 23, 24, 31].map(|bit| right ^ 1 << bit));
    for value in values {
        add_bundle(cases, ground, with_word(base, word, value));
    }
}

/// A file of a length near 2^32 and a later one that makes up for it.
fn add_wrapped(cases: &mut Cases, ground: &Ground, base: &[u8]) {
    let files = ground.which.gate().files;
    for first in 0..files - 1 {
        for back in [1, 2, ground.which.gate().header() as u32, 1 << 31] {
            let mut bundle = base.to_vec();
            let mut end = ground.which.gate().header() as u32;
            for number in 0..files {
                let length = match number {
                    _ if number == first => back.wrapping_neg(),
                    _ if number == files - 1 => (base.len() as u32).wrapping_sub(end),
                    _ => word_of(base, 2 + 2 * number),
                };
                bundle = with_word(&bundle, 1 + 2 * number, end);
                bundle = with_word(&bundle, 2 + 2 * number, length);
                end = end.wrapping_add(length);
            }
            add_bundle(cases, ground, bundle);
        }
    }
}

/// Bundles of the other gate and of counts between, in order but for that.
fn add_other_counts(cases: &mut Cases, ground: &Ground) {
    for count in [0, 1, 3, 4, 5, 19, 20, 21] {
        let mut bundle = vec![0; 4 + 8 * count];
        bundle[0] = count as u8;
        for length in [bundle.len(), 164, 36, 200] {
            bundle.resize(length, 0);
            let bundle = Arc::new(bundle.clone());
            cases.judge(ground.which, &bundle);
            cases.look_up(ground.which, &bundle, 0);
            cases.reason(ground.which, &bundle, 0);
        }
    }
}

/// Every file number and every mark number in good and refused bundles.
fn add_all_numbers(cases: &mut Cases, ground: &Ground) {
    let which = ground.which;
    let sample = ground.base.bundle();
    let mut count_wrong = sample.clone();
    count_wrong[3] = 1;
    let mut offset_wrong = sample.clone();
    offset_wrong[4 + 8] ^= 4;
    let bundles = [
        Vec::new(),
        sample[..35].to_vec(),
        count_wrong,
        offset_wrong,
        [&sample[..], b"\0"].concat(),
        Files::empty(which).bundle(),
        ground.base.without(1).with(2, b"").bundle(),
        sample,
    ];
    for bundle in bundles {
        let bundle = Arc::new(bundle);
        cases.all_reasons(which, &bundle);
        for number in file_numbers(which) {
            cases.look_up(which, &bundle, number);
        }
    }
}

/// A file that fills the bundle, one byte more, and changes up to both.
fn add_limit(cases: &mut Cases, ground: &Ground) {
    let which = ground.which;
    let room = LARGEST_BUNDLE - which.gate().header();
    let none = Files::empty(which);
    let mut spaces = vec![b' '; room];
    spaces[..2].copy_from_slice(b"[]");
    let full = Arc::new(none.with(2, &spaces).bundle());
    cases.judge(which, &full);
    cases.look_up(which, &full, 2);
    cases.reason(which, &full, 2);
    let too_long = Arc::new([&full[..], b" "].concat());
    cases.judge(which, &too_long);
    cases.look_up(which, &too_long, 2);
    cases.reason(which, &too_long, 99);
    for (file, new) in [(2, vec![b' '; room]), (2, vec![b' '; room + 1]), (3, vec![b' '; 1])] {
        let board = cases.random_board(which);
        let change = Change { board, file, new: Some(Arc::new(new)) };
        cases.try_change(which, &full, change.clone());
        cases.make_change(which, &full, change.clone(), LARGEST_BUNDLE);
        cases.make_change(which, &full, change, LARGEST_BUNDLE + 1);
    }
    for (file, new) in [(3, None), (2, None), (3, Some(Arc::new(Vec::new())))] {
        let board = cases.random_board(which);
        let change = Change { board, file, new };
        cases.try_change(which, &too_long, change.clone());
        cases.make_change(which, &full, change.clone(), 100);
        cases.make_change(which, &full, change, LARGEST_BUNDLE);
    }
}
