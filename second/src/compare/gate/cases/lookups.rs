//! Lookups of every file number in bundles of all sorts.

use std::sync::Arc;

use super::{Cases, FILE_NUMBERS};
use crate::bundle::{FILES, LARGEST_BUNDLE};
use crate::compare::gate::case::LONGEST;
use crate::compare::gate::sample::Set;

const RANDOM_SETS: usize = 60;

pub(super) fn add(cases: &mut Cases) {
    let sample = cases.base.bundle();
    add_all_numbers(cases, sample.clone());
    for set in some_sets() {
        add_all_numbers(cases, set.bundle());
    }
    for bundle in refused_bundles(&sample) {
        add_all_numbers(cases, bundle);
    }
    for _ in 0..RANDOM_SETS {
        let set = random_set(cases);
        add_all_numbers(cases, set.bundle());
    }
    add_long(cases);
}

fn add_all_numbers(cases: &mut Cases, bundle: Vec<u8>) {
    let bundle = Arc::new(bundle);
    for number in (0..=21).chain(FILE_NUMBERS.into_iter().filter(|number| *number > 21)) {
        cases.look_up(&bundle, number);
    }
}

/// None present, all without bytes, one alone, all but one.
fn some_sets() -> Vec<Set> {
    let mut sets = vec![Set::empty()];
    let mut all_empty = Set::empty();
    for number in 0..FILES {
        all_empty = all_empty.with(number, "");
    }
    for number in [0, 9, 19] {
        sets.push(Set::empty().with(number, "[]"));
        sets.push(Set::empty().with(number, ""));
        sets.push(all_empty.without(number));
        sets.push(all_empty.with(number, "[{}]"));
    }
    sets.push(all_empty);
    sets
}

pub(in crate::compare) fn refused_bundles(sample: &[u8]) -> Vec<Vec<u8>> {
    let mut count_wrong = sample.to_vec();
    count_wrong[3] = 1;
    let mut offset_wrong = sample.to_vec();
    offset_wrong[8 * 7 + 4] ^= 4;
    let mut length_wrong = sample.to_vec();
    length_wrong[8 * 19 + 11] = 0xFF;
    vec![
        Vec::new(),
        sample[..163].to_vec(),
        sample[..164].to_vec(),
        sample[..sample.len() - 1].to_vec(),
        [sample, b"\0"].concat(),
        count_wrong,
        offset_wrong,
        length_wrong,
    ]
}

/// Each file omitted, empty, or with up to ten bytes of any kind.
fn random_set(cases: &mut Cases) -> Set {
    let mut set = Set::empty();
    for number in 0..FILES {
        let length = match cases.random.below(3) {
            0 => continue,
            1 => 0,
            _ => cases.random.below(11),
        };
        let bytes: Vec<u8> = (0..length).map(|_| cases.random.next_number() as u8).collect();
        set = set.with_bytes(number, &bytes);
    }
    set
}

/// Bundles at the limit: one file that fills it, and one byte too many.
fn add_long(cases: &mut Cases) {
    let set = Set::empty().with_bytes(7, &vec![b'7'; LARGEST_BUNDLE - 164]);
    let bundle = Arc::new(set.bundle());
    for number in [6, 7, 8, 20] {
        cases.look_up(&bundle, number);
    }
    let too_long = Arc::new([&bundle[..], b"7"].concat());
    assert_eq!(too_long.len(), LONGEST);
    cases.look_up(&too_long, 7);
}
