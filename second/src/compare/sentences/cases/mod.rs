//! Bundles whose text is compared: every sentence, values around the length
//! from which they are cut, faults anywhere in their files, files that keep
//! marks from being judged, and sets at random.

mod broken;
mod long;
mod own_marks;
mod unjudged;
mod values;
mod whole;

use std::sync::Arc;

use super::case::TextCase;
use crate::compare::gate::case::{Bytes, LONGEST};
use crate::compare::gate::set_draft::SetDraft;
use crate::compare::random::Random;
use crate::print::LARGEST_INPUT;

/// The same seed always gives the same cases in the same order.
pub fn all_cases(seed: u64) -> Vec<TextCase> {
    let base = SetDraft::accepted();
    let mut cases = Cases { list: Vec::new(), random: Random::new(seed), base };
    whole::add(&mut cases);
    broken::add(&mut cases);
    values::add(&mut cases);
    own_marks::add(&mut cases);
    unjudged::add(&mut cases);
    long::add(&mut cases);
    cases.list
}

/// The cases gathered so far, the numbers to vary them with, and the accepted
/// set that most of them are made of.
struct Cases {
    list: Vec<TextCase>,
    random: Random,
    base: SetDraft,
}

impl Cases {
    /// Just these files of the accepted set, and those that a set must have, so
    /// that few other marks have a line.
    fn only(&self, numbers: &[usize]) -> SetDraft {
        self.base.only(&[&[0, 1, 3], numbers].concat())
    }

    fn push(&mut self, bundle: &Bytes, grouped: bool) {
        assert!(bundle.len() <= LONGEST);
        self.list.push(TextCase { bundle: bundle.clone(), grouped });
    }

    /// In both forms, but plain only what the program `reasons` takes.
    fn in_both(&mut self, bundle: Vec<u8>) {
        let bundle = Arc::new(bundle);
        if bundle.len() <= LARGEST_INPUT {
            self.push(&bundle, false);
        }
        self.push(&bundle, true);
    }

    /// In one of the two, plain only what that program takes.
    fn in_either(&mut self, bundle: Vec<u8>) {
        let grouped = bundle.len() > LARGEST_INPUT || self.random.below(2) == 0;
        self.push(&Arc::new(bundle), grouped);
    }
}
