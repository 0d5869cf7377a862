//! The cases of the reading of one file: systematic ones, then random mixes.

mod accepted;
mod companions;
mod damage;
mod draft;
mod kinds;
mod large;
mod limits;
mod mixed;
mod names;
mod spaces;
mod values;
mod whole;
mod wrong_characters;

use self::draft::{text, Draft, FOUR_SPACES};
use super::case::TableCase;
use crate::compare::random::Random;
use crate::compare::wire::LONGEST;
use crate::table::is_singleton;

/// The same seed always gives the same cases in the same order.
pub fn all_cases(seed: u64) -> Vec<TableCase> {
    let mut cases = first_cases(seed);
    // These came later and stand behind the others, which so keep their places and random numbers.
    kinds::add_all_missing(&mut cases);
    limits::add_dates_by_bytes(&mut cases);
    cases.list
}

/// Those that the gate's cases are drawn from. Draws go by how many there are, so
/// what comes later is not among them.
pub(in crate::compare) fn drawn_cases(seed: u64) -> Vec<TableCase> {
    first_cases(seed).list
}

fn first_cases(seed: u64) -> Cases {
    let mut cases = Cases { list: Vec::new(), random: Random::new(seed) };
    whole::add(&mut cases);
    accepted::add(&mut cases);
    spaces::add(&mut cases);
    kinds::add(&mut cases);
    names::add(&mut cases);
    limits::add(&mut cases);
    wrong_characters::add(&mut cases);
    companions::add(&mut cases);
    damage::add(&mut cases);
    large::add(&mut cases);
    mixed::add(&mut cases);
    cases
}

/// The cases gathered so far, and the numbers to vary them with.
struct Cases {
    list: Vec<TableCase>,
    random: Random,
}

impl Cases {
    fn omitted(&mut self, number: usize) {
        self.list.push(TableCase { number: number as u32, contents: None });
    }

    fn file(&mut self, number: usize, contents: &[u8]) {
        assert!(contents.len() <= LONGEST);
        self.list.push(TableCase { number: number as u32, contents: Some(contents.to_vec()) });
    }

    /// A table of these records; of a singleton only the first is written.
    fn records(&mut self, table: usize, drafts: &[Draft]) {
        self.file(table, &text(table, drafts));
    }

    /// The record by itself.
    fn record(&mut self, table: usize, draft: &Draft) {
        self.records(table, std::slice::from_ref(draft));
    }

    /// The record at one place of a table of three, or by itself.
    fn among_others(&mut self, table: usize, draft: &Draft, at: usize) {
        let mut drafts: Vec<Draft> =
            (0..record_places(table)).map(|n| Draft::least(table, n)).collect();
        drafts[at] = draft.clone();
        self.records(table, &drafts);
    }

    /// The record by itself or somewhere among others.
    fn somewhere(&mut self, table: usize, draft: &Draft) {
        match self.random.below(3) {
            0 => {
                let at = self.random.below(record_places(table));
                self.among_others(table, draft, at);
            }
            _ => self.record(table, draft),
        }
    }
}

/// The tables: every file but file 0.
fn tables() -> impl Iterator<Item = usize> {
    1..=19
}

/// A first, a middle and a last record, or the only one.
fn record_places(table: usize) -> usize {
    if is_singleton(table) {
        1
    } else {
        3
    }
}

/// Bytes that stand on one side or the other of some line of JSON or UTF-8.
const ODD_BYTES: [u8; 42] = [
    0x00, 0x08, b'\t', b'\n', 0x0B, 0x0C, b'\r', 0x1F, b' ', b'"', b'\'', b'+', b',', b'-', b'.',
    b'/', b'0', b'1', b'9', b':', b'A', b'E', b'[', b'\\', b']', b'e', b'n', b't', b'u', b'{',
    b'}', 0x7F, 0x80, 0xBF, 0xC1, 0xC2, 0xE0, 0xED, 0xF0, 0xF4, 0xF5, 0xFF,
];

fn replaced(bytes: &[u8], at: usize, byte: u8) -> Vec<u8> {
    let mut changed = bytes.to_vec();
    changed[at] = byte;
    changed
}

fn inserted(bytes: &[u8], at: usize, byte: u8) -> Vec<u8> {
    let mut changed = bytes.to_vec();
    changed.insert(at, byte);
    changed
}

fn removed(bytes: &[u8], at: usize) -> Vec<u8> {
    let mut changed = bytes.to_vec();
    changed.remove(at);
    changed
}

fn joined(parts: &[&[u8]]) -> Vec<u8> {
    parts.concat()
}
