//! The three calls of a gate: judge a bundle, try a change, make a change.

use std::collections::BTreeMap;

use super::layout::{build, built_length, parts, Parts};
use super::Gate;
use crate::board::{Mark, NOT_JUDGED};
use crate::bundle::{LARGEST_BUNDLE, NEW_BUNDLE_TOO_LONG, NO_SUCH_FILE, OUTPUT_TOO_SHORT};
use crate::gate::Change;
use crate::table::Reading;

/// The answer of a judgement. Refusal 0 is none.
#[derive(Clone, Debug, PartialEq, Eq)]
pub struct Judged {
    pub refusal: u32,
    pub marks: Vec<Mark>,
}

/// The answer of a change. The length is that of the new bundle, 0 if refused.
#[derive(Clone, Debug, PartialEq, Eq)]
pub struct Changed {
    pub refusal: u32,
    pub length: usize,
    pub marks: Vec<Mark>,
}

pub fn judge(gate: &Gate, bundle: &[u8]) -> Judged {
    let fresh = vec![NOT_JUDGED; gate.marks];
    match parts(gate, bundle) {
        Err(refusal) => Judged { refusal, marks: fresh },
        Ok(parts) => {
            let all: Vec<usize> = (0..gate.marks).collect();
            Judged { refusal: 0, marks: judge_marks(gate, fresh, &all, &parts) }
        }
    }
}

/// What making the change into an output long enough would answer.
pub fn try_change(
    gate: &Gate,
    bundle: &[u8],
    board: &[Mark],
    file: usize,
    change: Change,
) -> Changed {
    match changed_parts(gate, bundle, file, change) {
        Err(refusal) => refused(refusal, board),
        Ok(parts) => accepted(gate, board, file, &parts),
    }
}

/// Makes the change: the output then starts with the new bundle. A refused
/// change leaves the output as it is.
pub fn make_change(
    gate: &Gate,
    bundle: &[u8],
    board: &[Mark],
    file: usize,
    change: Change,
    output: &mut [u8],
) -> Changed {
    let parts = match changed_parts(gate, bundle, file, change) {
        Err(refusal) => return refused(refusal, board),
        Ok(parts) => parts,
    };
    let new_bundle = build(gate, &parts);
    match output.get_mut(..new_bundle.len()) {
        None => return refused(OUTPUT_TOO_SHORT, board),
        Some(start) => start.copy_from_slice(&new_bundle),
    }
    accepted(gate, board, file, &parts)
}

/// The files as they stand after the change, or the refusal 1, 2, 3, 4 or 6.
fn changed_parts<'a>(
    gate: &Gate,
    bundle: &'a [u8],
    file: usize,
    change: Change<'a>,
) -> Result<Parts<'a>, u32> {
    let mut parts = parts(gate, bundle)?;
    match parts.get_mut(file) {
        None => return Err(NO_SUCH_FILE),
        Some(part) => *part = change,
    }
    match built_length(gate, &parts) > LARGEST_BUNDLE {
        true => Err(NEW_BUNDLE_TOO_LONG),
        false => Ok(parts),
    }
}

fn refused(refusal: u32, board: &[Mark]) -> Changed {
    Changed { refusal, length: 0, marks: board.to_vec() }
}

fn accepted(gate: &Gate, board: &[Mark], file: usize, parts: &Parts) -> Changed {
    let marks = judge_marks(gate, board.to_vec(), &gate.touched_marks(file), parts);
    Changed { refusal: 0, length: built_length(gate, parts), marks }
}

/// The board with these marks judged from the files and all others kept.
fn judge_marks(gate: &Gate, mut board: Vec<Mark>, marks: &[usize], parts: &Parts) -> Vec<Mark> {
    let mut readings: BTreeMap<usize, Reading> = BTreeMap::new();
    for mark in marks {
        for file in gate.files_of_mark(*mark) {
            readings.entry(file).or_insert_with(|| (gate.read)(file, parts[file]));
        }
        board[*mark] = gate.judge_mark(*mark, |file| &readings[&file]);
    }
    board
}
