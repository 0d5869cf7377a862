//! The bundle's layout: each of the 41 numbers wrong in every way, lengths that
//! wrap around, bundles cut and prolonged. Each is judged; some are also the
//! ground of a change or a lookup, which are refused alike.

use std::sync::Arc;

use super::{any_change, Cases, FILE_NUMBERS};
use crate::bundle::{FILES, HEADER};
use crate::compare::gate::sample::Set;

/// A count and 20 pairs.
const WORDS: usize = 1 + 2 * FILES;

pub(super) fn add(cases: &mut Cases) {
    let bases = small_bundles();
    for base in &bases {
        for word in 0..WORDS {
            add_wrong_word(cases, base, word);
        }
        add_swapped_words(cases, base);
        add_empty_files(cases, base);
        add_moved_borders(cases, base);
        add_wrapped_lengths(cases, base);
        add_lengths(cases, base);
    }
    add_huge_lengths(cases);
    let sample = cases.base.bundle();
    for word in 0..WORDS {
        add_bundle(cases, with_word(&sample, word, word_of(&sample, word).wrapping_add(1)));
    }
}

/// None present; some, one of them empty; all; all empty; the ends only.
fn small_bundles() -> [Vec<u8>; 5] {
    let mut all = Set::empty();
    let mut all_empty = Set::empty();
    for number in 0..FILES {
        all = all.with(number, &"[ ]"[..1 + number % 3]);
        all_empty = all_empty.with(number, "");
    }
    let some = Set::empty().with(0, "IPM").with(4, "[]").with(9, "").with(15, "[{}]");
    let ends = Set::empty().with(0, "IPM").with(19, "[]");
    [Set::empty(), some, all, all_empty, ends].map(|set| set.bundle())
}

/// Judged, and now and then asked for something else.
fn add_bundle(cases: &mut Cases, bundle: Vec<u8>) {
    let bundle = Arc::new(bundle);
    cases.push_judge(&bundle);
    match cases.random.below(8) {
        0 => {
            let change = any_change(cases);
            cases.try_change(&bundle, change);
        }
        1 => {
            let change = any_change(cases);
            let length = cases.random.below(bundle.len() + 40);
            cases.make_change(&bundle, change, length);
        }
        2 => {
            let number = cases.random.pick(&FILE_NUMBERS);
            cases.look_up(&bundle, number);
        }
        _ => {}
    }
}

// --------------------------------------------------------------- numbers

fn word_of(bundle: &[u8], word: usize) -> u32 {
    let bytes = &bundle[4 * word..4 * word + 4];
    u32::from_le_bytes(bytes.try_into().expect("a number has four bytes"))
}

fn with_word(bundle: &[u8], word: usize, value: u32) -> Vec<u8> {
    let mut changed = bundle.to_vec();
    changed[4 * word..4 * word + 4].copy_from_slice(&value.to_le_bytes());
    changed
}

fn offset_word(number: usize) -> usize {
    1 + 2 * number
}

fn length_word(number: usize) -> usize {
    2 + 2 * number
}

/// Near the right number, near what it might be taken for, and each bit.
fn add_wrong_word(cases: &mut Cases, base: &[u8], word: usize) {
    let right = word_of(base, word);
    let length = base.len() as u32;
    let mut values = vec![
        right.wrapping_add(1),
        right.wrapping_sub(1),
        right.swap_bytes(),
        right.wrapping_neg(),
        0,
        1,
        19,
        20,
        21,
        163,
        164,
        165,
        length,
        length + 1,
        length - 1,
        u32::MAX,
        u32::MAX - 163,
        i32::MAX as u32,
    ];
    values.extend((0..32).map(|bit| right ^ 1 << bit));
    for value in values {
        add_bundle(cases, with_word(base, word, value));
    }
}

fn add_swapped_words(cases: &mut Cases, base: &[u8]) {
    for first in 0..WORDS {
        for second in first + 1..WORDS {
            let (a, b) = (word_of(base, first), word_of(base, second));
            if a != b {
                add_bundle(cases, with_word(&with_word(base, first, b), second, a));
            }
        }
    }
}

/// An omitted file made present with no bytes, at its place and elsewhere.
fn add_empty_files(cases: &mut Cases, base: &[u8]) {
    let mut end = HEADER as u32;
    for number in 0..FILES {
        if word_of(base, offset_word(number)) == 0 {
            for offset in [end, end + 1, end - 1, base.len() as u32] {
                add_bundle(cases, with_word(base, offset_word(number), offset));
            }
        }
        end += word_of(base, length_word(number));
    }
}

/// A byte of one file handed to the next, with or without the offset between.
fn add_moved_borders(cases: &mut Cases, base: &[u8]) {
    for first in 0..FILES - 1 {
        for second in first + 1..FILES {
            let shorter = shifted(base, length_word(first), -1);
            let moved = shifted(&shorter, length_word(second), 1);
            add_bundle(cases, shifted(&moved, offset_word(second), -1));
            add_bundle(cases, moved);
        }
    }
}

fn shifted(bundle: &[u8], word: usize, by: i32) -> Vec<u8> {
    with_word(bundle, word, word_of(bundle, word).wrapping_add_signed(by))
}

// -------------------------------------------------------------- wrapping

/// A file of a length near 2^32 and a later one that makes up for it: every
/// offset is the sum of what stands before, if sums wrap around.
fn add_wrapped_lengths(cases: &mut Cases, base: &[u8]) {
    for first in 0..FILES - 1 {
        for second in [first + 1, FILES - 1] {
            for back in [1, 2, HEADER as u32, HEADER as u32 + 1, 1 << 31] {
                add_bundle(cases, wrapped(base, first, second, back));
            }
        }
    }
}

/// File `first` ends `back` bytes before it began, and file `second` is longer
/// by what is lost.
fn wrapped(base: &[u8], first: usize, second: usize, back: u32) -> Vec<u8> {
    let mut lengths = lengths_of(base);
    let lost = lengths[first].unwrap_or(0).wrapping_add(back);
    lengths[first] = Some(back.wrapping_neg());
    lengths[second] = Some(lengths[second].unwrap_or(0).wrapping_add(lost));
    with_lengths(base, &lengths)
}

/// The files' lengths; an omitted file has none.
fn lengths_of(base: &[u8]) -> Vec<Option<u32>> {
    let is_present = |number: &usize| word_of(base, offset_word(*number)) != 0;
    let length = |number: usize| word_of(base, length_word(number));
    (0..FILES).map(|number| Some(number).filter(is_present).map(length)).collect()
}

/// The header that these lengths give where sums wrap around.
fn with_lengths(base: &[u8], lengths: &[Option<u32>]) -> Vec<u8> {
    let mut bundle = base.to_vec();
    let mut end = HEADER as u32;
    for (number, length) in lengths.iter().enumerate() {
        let offset = length.map_or(0, |_| end);
        bundle = with_word(&bundle, offset_word(number), offset);
        bundle = with_word(&bundle, length_word(number), length.unwrap_or(0));
        end = end.wrapping_add(length.unwrap_or(0));
    }
    bundle
}

/// Lengths of which each is too long and all together come to nothing.
fn add_huge_lengths(cases: &mut Cases) {
    let base = Set::empty().bundle();
    for (count, length) in [(2, 1 << 31), (4, 1 << 30), (16, 1 << 28)] {
        for first in [0, 3, FILES - count] {
            let mut lengths = vec![None; FILES];
            lengths[first..first + count].fill(Some(length));
            add_bundle(cases, with_lengths(&base, &lengths));
        }
    }
}

// --------------------------------------------------------------- lengths

/// Every length up to 170, and some around the bundle's own; what is added is
/// zeros, or bytes that go on with the header.
fn add_lengths(cases: &mut Cases, base: &[u8]) {
    let around = base.len() - 3..base.len() + 4;
    for length in (0..=170).chain(around).chain([base.len() + 256, 1000]) {
        for fill in [0, 20] {
            let mut bundle = base.to_vec();
            bundle.resize(length, fill);
            add_bundle(cases, bundle);
        }
    }
    // Too short for its count to be looked at.
    for length in [0, 1, 3, 4, 162, 163] {
        let mut bundle = with_word(base, 0, 19);
        bundle.truncate(length);
        add_bundle(cases, bundle);
    }
}

#[cfg(test)]
mod tests {
    use super::*;
    use crate::gate::judge;

    #[test]
    fn wrapped_offsets_agree_with_wrapped_sums() {
        for base in small_bundles() {
            let bundle = wrapped(&base, 4, 9, 164);
            let mut end = HEADER as u32;
            for number in 0..FILES {
                let offset = word_of(&bundle, offset_word(number));
                let length = word_of(&bundle, length_word(number));
                assert!(offset == end || (offset == 0 && length == 0), "file {number}");
                end = end.wrapping_add(length);
            }
            assert_eq!(end as usize, bundle.len());
            assert_eq!(judge(&bundle).refusal, 3);
        }
    }

    #[test]
    fn small_bundles_are_bundles() {
        for base in small_bundles() {
            assert_eq!(judge(&base).refusal, 0);
        }
    }
}
