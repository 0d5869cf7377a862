//! The lookup kept beside the tables (order 7): one entry for each record of the
//! readable files among 4 to 19. It changes no mark; what a call leaves in the
//! lent list is worked out here from the records themselves.

use crate::board::Board;
use crate::bundle::{built_length, files, Files, FILES, OUTPUT_TOO_SHORT};
use crate::gate::{changed_files, judge, make_change, touched_marks, try_change, Change};
use crate::rules::{files_read, key_of};
use crate::table::{read_file, Record};

/// The list is shorter than the records that get an entry.
pub const LIST_TOO_SHORT: u32 = 8;

/// The files that have a key.
const KEYED: std::ops::Range<usize> = 4..FILES;

/// Where the text of a record's first key field starts in the file, behind the
/// quote, its length as written, the sum over the decoded key, and the record.
#[derive(Clone, Copy, Debug, Default, PartialEq, Eq)]
pub struct Entry {
    pub start: u32,
    pub length: u32,
    pub sum: u32,
    pub record: u32,
}

#[derive(Clone, Debug, PartialEq, Eq)]
pub struct Listed {
    pub refusal: u32,
    /// Of the bundle that was judged, 0 if refused.
    pub length: usize,
    /// How many entries the list starts with, 0 if refused.
    pub entries: usize,
    pub board: Board,
}

/// Judges a bundle in full and fills the list.
pub fn judge_listed(bundle: &[u8], list: &mut [Entry]) -> Listed {
    let refused = |refusal| Listed { refusal, length: 0, entries: 0, board: Board::fresh() };
    let entries = match files(bundle) {
        Err(refusal) => return refused(refusal),
        Ok(files) => entries_of(&files, KEYED),
    };
    match fill(list, &entries) {
        false => refused(LIST_TOO_SHORT),
        true => Listed {
            refusal: 0,
            length: bundle.len(),
            entries: entries.len(),
            board: judge(bundle).board,
        },
    }
}

/// What making the change into an output long enough would answer and list.
pub fn try_listed(
    bundle: &[u8],
    board: &Board,
    file: usize,
    change: Change,
    list: &mut [Entry],
) -> Listed {
    let refused = |refusal| Listed { refusal, length: 0, entries: 0, board: *board };
    let files = match changed_files(bundle, file, change) {
        Err(refusal) => return refused(refusal),
        Ok(files) => files,
    };
    let entries = entries_of(&files, files_of_change(file));
    if !fill(list, &entries) {
        return refused(LIST_TOO_SHORT);
    }
    let board = try_change(bundle, board, file, change).board;
    Listed { refusal: 0, length: built_length(&files), entries: entries.len(), board }
}

/// Makes the change. A list that is too short is found out behind an output that
/// is.
pub fn make_listed(
    bundle: &[u8],
    board: &Board,
    file: usize,
    change: Change,
    output: &mut [u8],
    list: &mut [Entry],
) -> Listed {
    let refused = |refusal| Listed { refusal, length: 0, entries: 0, board: *board };
    let files = match changed_files(bundle, file, change) {
        Err(refusal) => return refused(refusal),
        Ok(files) => files,
    };
    let length = built_length(&files);
    if length > output.len() {
        return refused(OUTPUT_TOO_SHORT);
    }
    let entries = entries_of(&files, files_of_change(file));
    if !fill(list, &entries) {
        return refused(LIST_TOO_SHORT);
    }
    let board = make_change(bundle, board, file, change, output).board;
    Listed { refusal: 0, length, entries: entries.len(), board }
}

/// The files that are read by some mark which the change touches.
pub fn files_of_change(file: usize) -> impl Iterator<Item = usize> {
    let of_rule = |mark: &usize| *mark >= FILES;
    let marks = touched_marks(file).into_iter().filter(of_rule);
    let mut read: Vec<usize> = marks.flat_map(files_read).collect();
    read.sort_unstable();
    read.dedup();
    read.into_iter()
}

/// Of these files in order, as far as they have a key and are readable.
pub fn entries_of(files: &Files, numbers: impl Iterator<Item = usize>) -> Vec<Entry> {
    let keyed = numbers.filter(|number| KEYED.contains(number));
    let readable = keyed.filter_map(|number| {
        let records = read_file(number, files[number]).ok()?;
        Some(entries(number, &records))
    });
    readable.flatten().collect()
}

/// Ordered by sum and then record.
fn entries(number: usize, records: &[Record]) -> Vec<Entry> {
    let first = key_of(number)[0];
    let mut entries: Vec<Entry> =
        (1..).zip(records).map(|(at, record)| entry(record, first, at)).collect();
    entries.sort_by_key(|entry| (entry.sum, entry.record));
    entries
}

fn entry(record: &Record, name: &str, number: u32) -> Entry {
    let place = record.place(name);
    let key = record.id(name).expect("the first key field is given");
    Entry {
        start: place.start + 1,
        length: place.end - place.start - 2,
        sum: sum_of(&key),
        record: number,
    }
}

/// Of a folded key, in 32 bits.
pub fn sum_of(key: &str) -> u32 {
    let wide = key.bytes().fold(0, |sum: u64, byte| (31 * sum + u64::from(byte)) % (1 << 32));
    wide as u32
}

/// Whether the list is long enough; it then starts with the entries.
fn fill(list: &mut [Entry], entries: &[Entry]) -> bool {
    match list.get_mut(..entries.len()) {
        None => false,
        Some(start) => {
            start.copy_from_slice(entries);
            true
        }
    }
}
