//! Bundles put into drawers of every sort and taken out again.

use std::sync::Arc;

use super::sets::scattered;
use super::{drawer_of, Cases};
use crate::bundle::{built_length, FILES, HEADER};
use crate::compare::drawer::case::Call;
use crate::compare::gate::cases::refused_bundles;
use crate::compare::gate::sample::{accepted, Set};
use crate::drawer::{drawer_files, put_bundle};

pub(super) fn add(cases: &mut Cases) {
    let small = Set::empty().with(3, "{}").with(9, "").with(12, "[{}]");
    let sample = accepted();
    for set in [&Set::empty(), &small, &sample] {
        add_put(cases, &set.bundle());
        for room in [0, 1, 30] {
            let drawer = Arc::new(scattered(&set.files, room, &mut cases.random));
            add_take(cases, drawer);
        }
    }
    let mut bundles = refused_bundles(&small.bundle());
    bundles.push(small.bundle());
    for bundle in bundles {
        add_mix(cases, bundle);
    }
    for _ in 0..200 {
        add_random(cases);
    }
}

/// Into drawers of every length around the bundle's, whatever they hold.
fn add_put(cases: &mut Cases, bundle: &[u8]) {
    let lengths = [0, 1, 163, 164, 165, 200, bundle.len() + 300];
    let near = bundle.len().saturating_sub(3)..bundle.len() + 4;
    for length in near.chain(lengths) {
        let drawer: Vec<u8> = (0..length).map(|_| cases.any_byte()).collect();
        let call = Call::Put(Arc::new(bundle.to_vec()));
        cases.push(&Arc::new(drawer), call);
    }
}

/// A refused bundle comes before a wrong drawer, and a good one doesn't mind
/// what the drawer held.
fn add_mix(cases: &mut Cases, bundle: Vec<u8>) {
    let good = drawer_of(&[], HEADER + 20, || b'.');
    let mut wrong = good.clone();
    wrong[0] = 3;
    let mut crossed = good.clone();
    crossed[8] = 1;
    for drawer in [good[..163].to_vec(), Vec::new(), good, wrong, crossed] {
        let drawer = Arc::new(drawer);
        cases.push(&drawer, Call::Put(Arc::new(bundle.clone())));
        cases.take(&drawer, 163);
        cases.take(&drawer, 170);
    }
}

/// Into outputs of every length around the bundle's.
fn add_take(cases: &mut Cases, drawer: Arc<Vec<u8>>) {
    let files = drawer_files(&drawer).expect("the drawer is in order");
    let exact = built_length(&files);
    for length in (exact - 3..exact + 4).chain([0, 1, 163, 164, drawer.len(), exact + 500]) {
        cases.take(&drawer, length);
    }
}

/// A small bundle put in and then taken out.
fn add_random(cases: &mut Cases) {
    let mut set = Set::empty();
    for number in 0..FILES {
        if cases.random.below(3) == 0 {
            let length = cases.random.below(6);
            let bytes: Vec<u8> = (0..length).map(|_| cases.any_byte()).collect();
            set = set.with_bytes(number, &bytes);
        }
    }
    let bundle = set.bundle();
    let room = cases.random.below(12);
    let mut drawer: Vec<u8> = (0..bundle.len() - 1 + room).map(|_| cases.any_byte()).collect();
    cases.push(&Arc::new(drawer.clone()), Call::Put(Arc::new(bundle.clone())));
    // What is behind the bundle is free room from now on.
    if put_bundle(&mut drawer, &bundle) == 0 {
        let drawer = cases.judge(drawer);
        cases.take(&drawer, bundle.len());
    }
}
