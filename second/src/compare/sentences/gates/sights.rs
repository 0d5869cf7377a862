//! What the texts of the two gates beside the schedule gate have to show. Those
//! of the schedule gate itself are counted by the comparison without `--gates`.

use std::fmt::{self, Display};

use super::super::sights::{sights_of_gate, Asked, Sight as OfText, Spot};
use super::case::GateTextCase;
use crate::compare::gates::sights::wanted_kinds;
use crate::compare::gates::{Which, BOTH};
use crate::gates::layout::{look_up, parts};
use crate::gates::reason::reason;

#[derive(Clone, Copy, Debug, PartialEq, Eq, PartialOrd, Ord)]
pub enum Sight {
    /// The schedule gate is asked as well.
    Schedule {
        grouped: bool,
    },
    Other {
        which: Which,
        sight: OfText,
    },
}

impl Display for Sight {
    fn fmt(&self, out: &mut fmt::Formatter) -> fmt::Result {
        write!(out, "{self:?}")
    }
}

pub(super) fn wanted() -> Vec<Sight> {
    let mut wanted = [false, true].map(|grouped| Sight::Schedule { grouped }).to_vec();
    for which in BOTH {
        let all = wanted_of(which).into_iter();
        wanted.extend(all.map(|sight| Sight::Other { which, sight }));
    }
    wanted
}

fn wanted_of(which: Which) -> Vec<OfText> {
    let gate = which.gate();
    let mut wanted = Vec::new();
    for grouped in [false, true] {
        wanted.push(OfText::Accepted { grouped });
        wanted.extend((1..=3).map(|refusal| OfText::Refused { refusal, grouped }));
    }
    for number in 0..gate.files {
        let kinds = wanted_kinds(which, number).into_iter().filter(|kind| *kind != 0);
        for kind in kinds {
            wanted.push(OfText::Own { number, kind });
        }
        wanted.extend(wanted_kept(which, number));
    }
    for mark in gate.files..gate.marks {
        let files = gate.files_of_mark(mark).into_iter();
        wanted.extend(files.map(|file| OfText::NotJudged { mark, file }));
        wanted.extend(wanted_of_rule(which, mark));
    }
    if which == Which::Contract {
        wanted.extend([false, true].map(|named| OfText::Parent { named }));
        for kind in [10, 11, 12, 13, 14, 15, 17, 18, 19, 30, 31, 32, 33, 34] {
            let spots = [Spot::FirstLine, Spot::SecondLine, Spot::BehindCarriageReturn];
            wanted.extend(spots.map(|at| OfText::Place { kind, at }));
        }
    }
    wanted
}

/// The most and the fewest marks that a file can keep from being judged.
fn wanted_kept(which: Which, file: usize) -> Vec<OfText> {
    let gate = which.gate();
    let reads = (gate.files..gate.marks).map(|mark| gate.files_of_mark(mark));
    let reading: Vec<Vec<usize>> = reads.filter(|read| read.contains(&file)).collect();
    let alone = reading.iter().filter(|read| read.iter().all(|other| *other >= file)).count();
    let counts = [reading.len(), alone].into_iter().filter(|marks| *marks > 0);
    counts.map(|marks| OfText::Kept { file, marks }).collect()
}

/// Of the rules that the schedule gate has too, that each is broken by a value or
/// by null.
fn wanted_of_rule(which: Which, mark: usize) -> Vec<OfText> {
    let given: &[bool] = match (which, mark) {
        (Which::Baseline, 71 | 75 | 77 | 81) => &[false],
        (Which::Contract, 15 | 16) => &[false, true],
        _ => &[true],
    };
    let mut wanted: Vec<OfText> =
        given.iter().map(|given| OfText::Rule { mark, given: *given }).collect();
    // A date has at most 62 bytes.
    if which == Which::Contract || mark == 84 {
        wanted.extend((79..=82).map(|length| OfText::Value { mark, length }));
    }
    if which == Which::Contract && ![13, 14].contains(&mark) {
        wanted.push(OfText::CutEscape { mark });
    }
    wanted
}

pub(super) fn sights_of(case: &GateTextCase, text: &[u8]) -> Vec<Sight> {
    let grouped = case.text.grouped;
    let which = match case.which {
        None => return vec![Sight::Schedule { grouped }],
        Some(which) => which,
    };
    let (gate, bundle) = (which.gate(), &case.text.bundle);
    let asked = Asked {
        bundle,
        grouped,
        file_names: gate.file_names,
        refusal: parts(gate, bundle).err(),
        reason: &|mark| reason(gate, bundle, mark),
        part: &|file| look_up(gate, bundle, file).1,
        parents: if which == Which::Contract { &[15, 16] } else { &[79] },
    };
    let all = sights_of_gate(&asked, text).into_iter();
    all.map(|sight| Sight::Other { which, sight }).collect()
}
