//! The three calls: judge a bundle, try a change, make a change.

use std::collections::HashMap;

use crate::board::{Board, Mark, HOLDS, MARKS};
use crate::bundle::{
    build, built_length, files, Files, FILES, LARGEST_BUNDLE, NEW_BUNDLE_TOO_LONG, NO_SUCH_FILE,
    OUTPUT_TOO_SHORT,
};
use crate::rules::{files_read, judge_rule};
use crate::table::{read_file, Reading};

/// New bytes for a file, or nothing: the file is withdrawn.
pub type Change<'a> = Option<&'a [u8]>;

/// The answer of each call. Refusal 0 is none.
#[derive(Clone, Debug, PartialEq, Eq)]
pub struct Verdict {
    pub refusal: u32,
    pub board: Board,
}

/// Judges a bundle in full. A refused one gets a fresh board.
pub fn judge(bundle: &[u8]) -> Verdict {
    match files(bundle) {
        Err(refusal) => Verdict { refusal, board: Board::fresh() },
        Ok(files) => {
            let all: Vec<usize> = (0..MARKS).collect();
            Verdict { refusal: 0, board: judge_marks(Board::fresh(), &all, &files) }
        }
    }
}

/// What making the change into an output long enough would answer.
pub fn try_change(bundle: &[u8], board: &Board, number: usize, change: Change) -> Verdict {
    match changed_files(bundle, number, change) {
        Err(refusal) => Verdict { refusal, board: *board },
        Ok(files) => accepted(board, number, &files),
    }
}

/// Makes the change: the output then starts with the new bundle. A refused
/// change leaves the output as it is.
pub fn make_change(
    bundle: &[u8],
    board: &Board,
    number: usize,
    change: Change,
    output: &mut [u8],
) -> Verdict {
    let files = match changed_files(bundle, number, change) {
        Err(refusal) => return Verdict { refusal, board: *board },
        Ok(files) => files,
    };
    if output.len() < built_length(&files) {
        return Verdict { refusal: OUTPUT_TOO_SHORT, board: *board };
    }
    let new_bundle = build(&files);
    output[..new_bundle.len()].copy_from_slice(&new_bundle);
    accepted(board, number, &files)
}

/// The marks that a change of this file touches: its own, and those of the
/// rules that read it.
pub fn touched_marks(number: usize) -> Vec<usize> {
    let reads = |mark: &usize| *mark >= FILES && files_read(*mark).contains(&number);
    (0..MARKS).filter(|mark| *mark == number || reads(mark)).collect()
}

/// The files as they stand after the change, or the refusal 1, 2, 3, 4 or 6.
pub(crate) fn changed_files<'a>(
    bundle: &'a [u8],
    number: usize,
    change: Change<'a>,
) -> Result<Files<'a>, u32> {
    let mut files = files(bundle)?;
    *files.get_mut(number).ok_or(NO_SUCH_FILE)? = change;
    if built_length(&files) > LARGEST_BUNDLE {
        return Err(NEW_BUNDLE_TOO_LONG);
    }
    Ok(files)
}

fn accepted(board: &Board, number: usize, files: &Files) -> Verdict {
    let board = judge_marks(*board, &touched_marks(number), files);
    Verdict { refusal: 0, board }
}

/// The board with these marks judged from the files and all others kept.
pub fn judge_marks(mut board: Board, marks: &[usize], files: &Files) -> Board {
    let mut readings = Readings { files, read: HashMap::new() };
    for mark in marks {
        board.marks[*mark] = readings.judge_mark(*mark);
    }
    board
}

/// The files read so far, each read once.
struct Readings<'a> {
    files: &'a Files<'a>,
    read: HashMap<usize, Reading>,
}

impl Readings<'_> {
    fn judge_mark(&mut self, mark: usize) -> Mark {
        if mark < FILES {
            self.read(mark);
            return self.read[&mark].as_ref().err().copied().unwrap_or(HOLDS);
        }
        for file in files_read(mark) {
            self.read(file);
        }
        judge_rule(mark, |file| &self.read[&file])
    }

    fn read(&mut self, number: usize) {
        let contents = self.files[number];
        self.read.entry(number).or_insert_with(|| read_file(number, contents));
    }
}
