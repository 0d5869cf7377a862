//! Gates by what tells one from another: the schedule gate with the baseline
//! profile (order 8) and the contract side's gate (order 9). Their three calls,
//! the lookup and the reasons are the same, each over its own files and marks.

pub mod calls;
pub mod layout;
pub mod print;
pub mod reason;
pub mod sentence;

use crate::board::{broken_at, Mark, HOLDS, NOT_JUDGED};
use crate::fields::Field;
use crate::table::{Reading, Record};

/// A gate's marks 0 to `files` - 1 are those of its files, the others of rules.
#[derive(Clone, Copy)]
pub struct Gate {
    pub files: usize,
    pub marks: usize,
    pub file_names: &'static [&'static str],
    pub fields: fn(usize) -> Vec<&'static Field>,
    pub read: fn(usize, Option<&[u8]>) -> Reading,
    /// The files that a rule reads, the table named first before the other.
    pub reads: fn(usize) -> Vec<usize>,
    /// Where a rule is broken, of the records of the files that it reads.
    pub breaks: fn(usize, &[&[Record]]) -> Option<Broken>,
    /// The field that decides over a record, which breaks the rule.
    pub deciding: fn(usize, &Record) -> &'static str,
    /// The file in which a broken rule's target is missing.
    pub searched: fn(usize) -> Option<usize>,
}

/// The number of a breaking record, and of the one named with it, from 1;
/// companion 0 is none.
#[derive(Clone, Copy, Debug, PartialEq, Eq)]
pub struct Broken {
    pub record: usize,
    pub companion: usize,
}

impl Broken {
    /// The first record that is wrong by itself, if there is one.
    pub fn first(records: &[Record], wrong: impl FnMut(&Record) -> bool) -> Option<Broken> {
        let at = records.iter().position(wrong)?;
        Some(Broken { record: at + 1, companion: 0 })
    }
}

impl Gate {
    /// A count, and an offset and a length for each file.
    pub fn header(&self) -> usize {
        4 + 8 * self.files
    }

    /// The files that the mark is judged from.
    pub fn files_of_mark(&self, mark: usize) -> Vec<usize> {
        match mark < self.files {
            true => vec![mark],
            false => (self.reads)(mark),
        }
    }

    /// The marks that a change of this file touches.
    pub fn touched_marks(&self, file: usize) -> Vec<usize> {
        (0..self.marks).filter(|mark| self.files_of_mark(*mark).contains(&file)).collect()
    }

    /// The mark, by the readings of all files that it is judged from.
    fn judge_mark<'a>(&self, mark: usize, reading_of: impl Fn(usize) -> &'a Reading) -> Mark {
        if mark < self.files {
            return reading_of(mark).as_ref().err().copied().unwrap_or(HOLDS);
        }
        let mut tables: Vec<&[Record]> = Vec::new();
        for file in self.files_of_mark(mark) {
            match reading_of(file) {
                Ok(records) => tables.push(records),
                Err(_) => return NOT_JUDGED,
            }
        }
        match (self.breaks)(mark, &tables) {
            Some(Broken { record, companion }) => broken_at(record, companion),
            None => HOLDS,
        }
    }
}
