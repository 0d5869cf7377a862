//! Single changes: each file from one version to another or away, outputs of
//! every length, file numbers that are none, and refusals in their order.

use std::sync::Arc;

use super::pool::Pool;
use super::{any_change, change, random_board, Cases, FILE_NUMBERS};
use crate::board::Board;
use crate::bundle::FILES;
use crate::compare::gate::case::{new_length, Bytes, Change};
use crate::compare::gate::sample::Set;
use crate::gate::judge;

pub(super) fn add(cases: &mut Cases) {
    let base = cases.base.clone();
    let pool = Pool::new(&base, &mut cases.random);
    let bundle = Arc::new(base.bundle());
    let right = judge(&bundle).board;
    for number in 0..FILES {
        add_versions(cases, &bundle, &right, number, pool.versions(number));
        let without = Arc::new(base.without(number).bundle());
        let board = judge(&without).board;
        add_versions(cases, &without, &board, number, &pool.versions(number)[..1]);
    }
    add_outputs(cases);
    add_numbers(cases);
    add_refusals_in_order(cases);
}

/// Each version, and none, against the right board and against any other.
fn add_versions(
    cases: &mut Cases,
    bundle: &Bytes,
    right: &Board,
    number: usize,
    versions: &[Bytes],
) {
    let withdrawn = change(*right, number, None);
    let replaced =
        versions.iter().map(|new| Change { new: Some(new.clone()), ..withdrawn.clone() });
    let changes: Vec<Change> = replaced.chain([withdrawn.clone()]).collect();
    for change in changes {
        let other = Change { board: random_board(&mut cases.random), ..change.clone() };
        cases.try_change(bundle, change.clone());
        add_made(cases, bundle, other);
    }
}

/// The change into an output long enough, and now and then one too short.
fn add_made(cases: &mut Cases, bundle: &Bytes, change: Change) {
    let exact = new_length(bundle, &change);
    let length = cases.random.pick(&[exact, exact, exact + 1, exact + 70]);
    if cases.random.below(4) == 0 {
        cases.make_change(bundle, change.clone(), exact - 1);
    }
    cases.make_change(bundle, change, length);
}

// --------------------------------------------------------------- outputs

/// Small bundles, so that every length of an output can be asked.
fn add_outputs(cases: &mut Cases) {
    let sets = [Set::empty(), Set::empty().with(3, "{}").with(9, "[]").with(12, "")];
    for set in sets {
        let bundle = Arc::new(set.bundle());
        for number in [0, 3, 9, 12, 19] {
            for new in [None, Some(&b""[..]), Some(b"[]"), Some(b"[{}, {}]")] {
                add_output_lengths(cases, &bundle, number, new);
            }
        }
    }
}

fn add_output_lengths(cases: &mut Cases, bundle: &Bytes, number: usize, new: Option<&[u8]>) {
    let board = random_board(&mut cases.random);
    let change = change(board, number, new.map(<[u8]>::to_vec));
    cases.try_change(bundle, change.clone());
    let exact = new_length(bundle, &change);
    let near = exact - 3..exact + 4;
    for length in near.chain([0, 1, 4, 163, 164, bundle.len(), exact + 100, 1000]) {
        cases.make_change(bundle, change.clone(), length);
    }
}

// --------------------------------------------------------------- numbers

fn add_numbers(cases: &mut Cases) {
    let base = Arc::new(Set::empty().with(5, "[]").with(19, "[]").bundle());
    for number in FILE_NUMBERS {
        for new in [None, Some(b"".to_vec()), Some(b"[]".to_vec()), Some(vec![b' '; 300])] {
            for length in [0, 164, 166, 168, 1000] {
                let board = random_board(&mut cases.random);
                let change = Change { board, number, new: new.clone().map(Arc::new) };
                cases.try_change(&base, change.clone());
                cases.make_change(&base, change, length);
            }
        }
    }
}

// ----------------------------------------------------------------- order

/// Every mix of what can be wrong with a change, but for new bundles that are
/// too long, which `sizes` has.
fn add_refusals_in_order(cases: &mut Cases) {
    let right = Set::empty().with(5, "[]").with(9, "[{}]").bundle();
    for wrong in 0..16 {
        let has = |bit: usize| wrong >> bit & 1 == 1;
        let mut bundle = right.clone();
        if has(0) {
            bundle.truncate(160);
        }
        if has(1) {
            bundle[0] = 19;
        }
        if has(2) {
            bundle[8 + 8 * 5] = 9;
        }
        let bundle = Arc::new(bundle);
        for number in if has(3) { [20, u32::MAX] } else { [5, 9] } {
            add_mix(cases, &bundle, number);
        }
    }
    for _ in 0..500 {
        let change = any_change(cases);
        let bundle = Arc::new(right.clone());
        add_random_output(cases, &bundle, change);
    }
}

fn add_mix(cases: &mut Cases, bundle: &Bytes, number: u32) {
    cases.look_up(bundle, number);
    for new in [None, Some(b"[]".to_vec())] {
        for length in [0, 100, 400] {
            let board = random_board(&mut cases.random);
            let change = Change { board, number, new: new.clone().map(Arc::new) };
            cases.try_change(bundle, change.clone());
            cases.make_change(bundle, change, length);
        }
    }
}

fn add_random_output(cases: &mut Cases, bundle: &Bytes, change: Change) {
    let length = cases.random.below(400);
    cases.make_change(bundle, change, length);
}
