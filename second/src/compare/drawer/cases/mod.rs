//! The cases of the drawer.

mod bundles;
mod exhaustive;
mod large;
mod layout;
mod runs;
mod sets;

use std::sync::Arc;

use super::case::{Call, DrawerCase};
use crate::bundle::{push_word, FILES, HEADER};
use crate::compare::gate::case::{Bytes, Change, Output, LONGEST};
use crate::compare::random::Random;
use crate::drawer::Span;

pub(in crate::compare) use sets::scattered;

/// The same seed always gives the same cases in the same order.
pub fn all_cases(seed: u64) -> Vec<DrawerCase> {
    let mut cases = Cases { list: Vec::new(), random: Random::new(seed) };
    exhaustive::add(&mut cases);
    layout::add(&mut cases);
    runs::add(&mut cases);
    sets::add(&mut cases);
    bundles::add(&mut cases);
    large::add(&mut cases);
    cases.list
}

struct Cases {
    list: Vec<DrawerCase>,
    random: Random,
}

impl Cases {
    fn push(&mut self, drawer: &Bytes, call: Call) {
        assert!(drawer.len() <= LONGEST);
        self.list.push(DrawerCase { drawer: drawer.clone(), call });
    }

    /// The drawer is judged and listed.
    fn judge(&mut self, drawer: Vec<u8>) -> Bytes {
        let drawer = Arc::new(drawer);
        self.push(&drawer, Call::Judge);
        self.push(&drawer, Call::List);
        drawer
    }

    /// The change is tried and made.
    fn change(&mut self, drawer: &Bytes, change: Change) {
        self.push(drawer, Call::Try(change.clone()));
        self.push(drawer, Call::Make(change));
    }

    fn take(&mut self, drawer: &Bytes, length: usize) {
        let seed = self.random.next_number() as u32;
        let length = length.min(LONGEST) as u32;
        self.push(drawer, Call::Take(Output { length, seed }));
    }

    fn any_byte(&mut self) -> u8 {
        self.random.next_number() as u8
    }
}

/// A drawer of these files, each with its place, and other bytes around them.
/// Numbers of the header may be wrong; only bytes within the drawer are written.
fn drawer_of(files: &[(usize, Span)], length: usize, mut byte: impl FnMut() -> u8) -> Vec<u8> {
    let mut pairs = [(0, 0); FILES];
    for (number, span) in files {
        pairs[*number] = (span.offset, span.length);
    }
    let mut drawer = Vec::new();
    push_word(&mut drawer, FILES);
    for (offset, length) in pairs {
        push_word(&mut drawer, offset);
        push_word(&mut drawer, length);
    }
    assert_eq!(drawer.len(), HEADER);
    drawer.resize_with(length.max(HEADER), &mut byte);
    drawer
}
