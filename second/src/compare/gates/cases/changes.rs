//! Single changes: each file from one version to another or away, outputs of
//! every length, file numbers that are none, and refusals in their order.

use std::sync::Arc;

use super::super::case::Change;
use super::super::files::Files;
use super::ground::Ground;
use super::layout::any_change;
use super::{file_numbers, Cases};
use crate::compare::gate::case::Bytes;
use crate::gates::layout::look_up;

/// The length of the bundle after the change; a file that isn't there has none.
pub(super) fn exact_length(ground: &Ground, bundle: &[u8], change: &Change) -> usize {
    let old = look_up(ground.which.gate(), bundle, change.file as usize).1.len();
    match (change.file as usize) < ground.which.gate().files {
        true => bundle.len() - old + change.bytes().map_or(0, <[u8]>::len),
        false => bundle.len(),
    }
}

pub(super) fn add(cases: &mut Cases, ground: &Ground) {
    let bundle = Arc::new(ground.base.bundle());
    let right = ground.base.board();
    for file in 0..ground.which.gate().files {
        let without = Arc::new(ground.base.without(file).bundle());
        let versions: Vec<Bytes> = ground.versions[file].iter().take(14).cloned().collect();
        for new in versions.into_iter().map(Some).chain([None]) {
            let change = Change { board: right.clone(), file: file as u32, new };
            cases.try_change(ground.which, &bundle, change.clone());
            let board = cases.random_board(ground.which);
            let other = Change { board, ..change };
            let before = if cases.random.below(3) == 0 { &without } else { &bundle };
            let exact = exact_length(ground, before, &other);
            let length = cases.random.pick(&[exact, exact, exact + 1, exact + 70, exact - 1]);
            cases.make_change(ground.which, before, other, length);
        }
        let withdrawn = Change { board: right.clone(), file: file as u32, new: None };
        cases.make_change(ground.which, &without, withdrawn, without.len());
    }
    add_outputs(cases, ground);
    add_numbers(cases, ground);
    add_refusals_in_order(cases, ground);
}

/// Small bundles, so that every length of an output can be asked.
fn add_outputs(cases: &mut Cases, ground: &Ground) {
    let header = ground.which.gate().header();
    let none = Files::empty(ground.which);
    for set in [none.clone(), none.with(0, b"{}").with(2, b"[]").with(3, b"")] {
        let bundle = Arc::new(set.bundle());
        for file in 0..4 {
            for new in [None, Some(&b""[..]), Some(b"[]"), Some(b"[{}, {}]")] {
                let board = cases.random_board(ground.which);
                let new = new.map(|new| Arc::new(new.to_vec()));
                let change = Change { board, file, new };
                let exact = exact_length(ground, &bundle, &change);
                for length in (exact - 2..exact + 3).chain([0, 1, header - 1, header, 500]) {
                    cases.make_change(ground.which, &bundle, change.clone(), length);
                }
            }
        }
    }
}

fn add_numbers(cases: &mut Cases, ground: &Ground) {
    let bundle = Arc::new(Files::empty(ground.which).with(1, b"[]").with(3, b"[]").bundle());
    for file in file_numbers(ground.which) {
        for new in [None, Some(b"".to_vec()), Some(vec![b' '; 300])] {
            for length in [0, bundle.len(), 1000] {
                let board = cases.random_board(ground.which);
                let change = Change { board, file, new: new.clone().map(Arc::new) };
                cases.try_change(ground.which, &bundle, change.clone());
                cases.make_change(ground.which, &bundle, change, length);
            }
        }
    }
}

/// Every mix of what can be wrong with a change.
fn add_refusals_in_order(cases: &mut Cases, ground: &Ground) {
    let which = ground.which;
    let files = which.gate().files as u32;
    let right = Files::empty(which).with(1, b"[]").with(3, b"[{}]").bundle();
    for wrong in 0..16_u32 {
        let has = |bit: u32| wrong >> bit & 1 == 1;
        let mut bundle = right.clone();
        if has(0) {
            bundle.truncate(which.gate().header() - 1);
        }
        if has(1) {
            bundle[0] = 19;
        }
        if has(2) {
            bundle[8 + 8] = 9;
        }
        let bundle = Arc::new(bundle);
        for file in if has(3) { [files, u32::MAX] } else { [1, 3] } {
            let mut long = vec![None, Some(b"[]".to_vec())];
            if wrong == 0 || wrong.count_ones() == 4 {
                long.push(Some(vec![b' '; 1_048_577]));
            }
            for new in long {
                let board = cases.random_board(which);
                let change = Change { board, file, new: new.map(Arc::new) };
                cases.try_change(which, &bundle, change.clone());
                cases.make_change(which, &bundle, change.clone(), 0);
                cases.make_change(which, &bundle, change, 400);
            }
            cases.look_up(which, &bundle, file);
            cases.reason(which, &bundle, file as usize + 81);
        }
    }
    let bundle = Arc::new(right);
    for _ in 0..200 {
        let change = any_change(cases, ground);
        let length = cases.random.below(400);
        cases.make_change(which, &bundle, change, length);
    }
}
