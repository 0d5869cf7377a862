//! Bundles as they are: the readings of order 6, refused ones, accepted ones,
//! and sets at random.

use super::Cases;
use crate::compare::gate::cases::{random_set, refused_bundles};
use crate::compare::gate::readings::{printed, readings};
use crate::compare::gate::set_draft::SetDraft;
use crate::compare::gate::styles::restyled;

const STYLES: usize = 20;
const RANDOM_SETS: usize = 400;

pub(super) fn add(cases: &mut Cases) {
    for bundle in readings().into_iter().map(|reading| reading.bundle) {
        cases.in_both(bundle);
    }
    for bundle in printed().into_iter().map(|printed| printed.bundle) {
        cases.in_both(bundle);
    }
    let sample = cases.base.bundle();
    let small = SetDraft::empty().with_bytes(6, b"[]").bundle();
    for bundle in refused_bundles(&sample).into_iter().chain(refused_bundles(&small)) {
        cases.in_both(bundle);
    }
    cases.in_both(sample);
    for _ in 0..STYLES {
        let styled = restyled(&cases.base, &mut cases.random);
        cases.in_either(styled.bundle());
    }
    for round in 0..RANDOM_SETS {
        let set = random_set(&cases.base, round, &mut cases.random);
        cases.in_either(set.bundle());
    }
}
