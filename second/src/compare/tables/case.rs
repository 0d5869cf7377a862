//! A case of the reading of one file and its answer as bytes between two
//! programs, and what this program answers.

use std::io::{self, Read, Write};

use super::sights::{self, Sight};
use crate::board::{Mark, HOLDS};
use crate::compare::run::{hex, Question};
use crate::compare::wire::{
    read_first_word, read_longs, read_slice, read_word, unsound, write_longs, write_words,
};
use crate::fields::fields_of;
use crate::table::{read_file, Record, MOST_RECORDS};

const FILES: u32 = 20;
const MOST_FIELDS: usize = 23;
const LONGEST_SHOWN: usize = 1000;

/// No right answer has more cells: a start and an end for each value.
const MOST_CELLS: u64 = (MOST_RECORDS * MOST_FIELDS * 2) as u64;

/// A file by its number: its bytes, or nothing if it is omitted.
#[derive(Clone, Debug, PartialEq, Eq)]
pub struct TableCase {
    pub number: u32,
    pub contents: Option<Vec<u8>>,
}

/// The file's mark, the number of its records, and the starts and ends of
/// their values, record by record, in the order of the table's fields. `count`
/// is the number of cells as answered.
#[derive(Clone, Debug, PartialEq, Eq)]
pub struct TableAnswer {
    pub kind: u64,
    pub place: u64,
    pub companion: u64,
    pub records: u64,
    pub count: u64,
    pub cells: Vec<u32>,
}

impl TableAnswer {
    fn new(mark: Mark, records: usize, cells: Vec<u32>) -> TableAnswer {
        TableAnswer {
            kind: mark.kind.into(),
            place: mark.place.into(),
            companion: mark.companion.into(),
            records: records as u64,
            count: cells.len() as u64,
            cells,
        }
    }

    fn head(&self) -> [u64; 5] {
        [self.kind, self.place, self.companion, self.records, self.count]
    }

    fn describe(&self) -> String {
        let [kind, place, companion, records, count] = self.head();
        format!("kind {kind} place {place} companion {companion} records {records} cells {count}")
    }
}

impl Question for TableCase {
    type Answer = TableAnswer;
    type Sight = Sight;

    /// Three little-endian 32-bit numbers (the file's number, 1 if it is
    /// present, its length), then its bytes.
    fn write(&self, out: &mut impl Write) -> io::Result<()> {
        let present = u32::from(self.contents.is_some());
        let bytes = self.contents.as_deref().unwrap_or(&[]);
        write_words(out, &[self.number, present, bytes.len() as u32])?;
        out.write_all(bytes)
    }

    fn read(input: &mut impl Read) -> io::Result<Option<TableCase>> {
        let Some(number) = read_first_word(input)? else {
            return Ok(None);
        };
        let present = read_word(input)?;
        let length = read_word(input)?;
        if number >= FILES {
            return Err(unsound("there is no such file"));
        }
        let contents = match (present, length) {
            (1, _) => Some(read_slice(input, length)?),
            (0, 0) => None,
            _ => return Err(unsound("an omitted file has bytes")),
        };
        Ok(Some(TableCase { number, contents }))
    }

    fn answer(&self) -> TableAnswer {
        let number = self.number as usize;
        match read_file(number, self.contents.as_deref()) {
            Err(mark) => TableAnswer::new(mark, 0, Vec::new()),
            Ok(records) => TableAnswer::new(HOLDS, records.len(), cells(number, &records)),
        }
    }

    /// Five little-endian 64-bit numbers, then the cells, of 32 bits each.
    fn write_answer(answer: &TableAnswer, out: &mut impl Write) -> io::Result<()> {
        write_longs(out, &answer.head())?;
        write_words(out, &answer.cells)
    }

    /// Of an answer with more cells than any right one has, no cell is read:
    /// it is wrong by its number of cells alone.
    fn read_answer(&self, input: &mut impl Read) -> Option<TableAnswer> {
        let [kind, place, companion, records, count] = read_longs(input)?;
        let read = if count <= MOST_CELLS { count } else { 0 };
        let cells: Option<Vec<u32>> = (0..read).map(|_| read_word(input).ok()).collect();
        Some(TableAnswer { kind, place, companion, records, count, cells: cells? })
    }

    fn describe(&self, expected: &TableAnswer, answered: &TableAnswer) -> String {
        let shown = match &self.contents {
            Some(bytes) => hex(bytes, LONGEST_SHOWN),
            None => "omitted".to_string(),
        };
        let mut lines = vec![
            format!("file {}", self.number),
            format!("  bytes {shown}"),
            format!("  expected {}", expected.describe()),
            format!("  answered {}", answered.describe()),
        ];
        lines.extend(self.describe_cell(expected, answered));
        lines.join("\n")
    }

    fn wanted() -> Vec<Sight> {
        sights::wanted()
    }

    fn ruled_out() -> Vec<Sight> {
        sights::ruled_out()
    }

    fn sights(&self, expected: &TableAnswer) -> Vec<Sight> {
        sights::sights_of(self, expected)
    }
}

impl TableCase {
    /// The first cell that differs, if all before the cells is equal.
    fn describe_cell(&self, expected: &TableAnswer, answered: &TableAnswer) -> Option<String> {
        if expected.head() != answered.head() {
            return None;
        }
        let mut pairs = expected.cells.iter().zip(&answered.cells);
        let index = pairs.position(|(a, b)| a != b)?;
        let fields: Vec<&str> = fields_of(self.number as usize).map(|field| field.name).collect();
        let record = index / 2 / fields.len() + 1;
        let field = fields[index / 2 % fields.len()];
        let end = ["start", "end"][index % 2];
        let (right, wrong) = (expected.cells[index], answered.cells[index]);
        Some(format!("  record {record} {field} {end}: expected {right}, answered {wrong}"))
    }
}

fn cells(number: usize, records: &[Record]) -> Vec<u32> {
    let mut cells = Vec::new();
    for record in records {
        for field in fields_of(number) {
            let place = record.place(field.name);
            cells.extend([place.start, place.end]);
        }
    }
    cells
}

#[cfg(test)]
mod tests {
    use super::*;

    fn case(number: u32, contents: &str) -> TableCase {
        TableCase { number, contents: Some(contents.as_bytes().to_vec()) }
    }

    fn omitted(number: u32) -> TableCase {
        TableCase { number, contents: None }
    }

    fn sent(case: &TableCase) -> Vec<u8> {
        let mut bytes = Vec::new();
        case.write(&mut bytes).unwrap();
        bytes
    }

    fn answered(answer: &TableAnswer) -> Vec<u8> {
        let mut bytes = Vec::new();
        TableCase::write_answer(answer, &mut bytes).unwrap();
        bytes
    }

    #[test]
    fn a_case_comes_back_from_its_bytes() {
        let present = case(6, "[]");
        assert_eq!(sent(&present), b"\x06\0\0\0\x01\0\0\0\x02\0\0\0[]");
        assert_eq!(sent(&omitted(19)), [19, 0, 0, 0, 0, 0, 0, 0, 0, 0, 0, 0]);
        for case in [present, case(2, ""), omitted(0)] {
            let bytes = sent(&case);
            let mut input = &bytes[..];
            assert_eq!(TableCase::read(&mut input).unwrap(), Some(case));
            assert_eq!(TableCase::read(&mut input).unwrap(), None);
            assert!(TableCase::read(&mut &bytes[..bytes.len() - 1]).is_err());
        }
    }

    #[test]
    fn unsound_cases_are_not_answered() {
        let words = |words: [u32; 3]| words.iter().flat_map(|word| word.to_le_bytes()).collect();
        for unsound in [[20, 1, 0], [6, 2, 0], [6, 0, 1], [6, 1, 1_048_577]] {
            let mut bytes: Vec<u8> = words(unsound);
            bytes.resize(2_000_000, b' ');
            assert!(TableCase::read(&mut &bytes[..]).is_err(), "{unsound:?}");
        }
    }

    #[test]
    fn an_answer_comes_back_from_its_bytes() {
        let case = case(6, r#"[{"ID":"C1","Name":"N","Comments":null}]"#);
        let answer = case.answer();
        assert_eq!(answer.head(), [0, 0, 0, 1, 6]);
        assert_eq!(answer.cells, [7, 11, 19, 22, 34, 0]);
        let bytes = answered(&answer);
        assert_eq!(bytes.len(), 40 + 6 * 4);
        assert_eq!(bytes[24..32], [1, 0, 0, 0, 0, 0, 0, 0]);
        assert_eq!(bytes[40..48], [7, 0, 0, 0, 11, 0, 0, 0]);
        assert_eq!(case.read_answer(&mut &bytes[..]), Some(answer));
        assert_eq!(case.read_answer(&mut &bytes[..bytes.len() - 1]), None);
        assert_eq!(case.read_answer(&mut &bytes[..39]), None);
    }

    #[test]
    fn the_companion_follows_the_place() {
        let wrong = case(6, r#"[{"ID":"C1","Name":"N"},{"ID":7}]"#).answer();
        assert_eq!(wrong.head(), [15, 30, 2, 0, 0]);
        let bytes = answered(&wrong);
        assert_eq!(bytes[8..24], [30, 0, 0, 0, 0, 0, 0, 0, 2, 0, 0, 0, 0, 0, 0, 0]);
        assert_eq!(bytes.len(), 40);
    }

    #[test]
    fn an_answer_with_too_many_cells_is_not_read_on() {
        let bytes = answered(&TableAnswer::new(HOLDS, 1, vec![0; 2]));
        let huge = [&bytes[..32], &u64::MAX.to_le_bytes()[..]].concat();
        let answer = omitted(4).read_answer(&mut &huge[..]).unwrap();
        assert_eq!((answer.count, answer.cells.len()), (u64::MAX, 0));
    }

    #[test]
    fn unreadable_and_omitted_files_have_no_cells() {
        assert_eq!(case(6, "[{}]").answer().head(), [19, 2, 0, 0, 0]);
        assert_eq!(case(6, "[]").answer().head(), [0, 0, 0, 0, 0]);
        assert_eq!(case(2, "{}").answer().head(), [0, 0, 0, 1, 16]);
        assert_eq!(case(0, "IPMDAR_SCHEDULE_PERFORMANCE_DATASET/1.0").answer().head(), [0; 5]);
        assert_eq!(case(0, "").answer().head(), [22, 0, 0, 0, 0]);
        assert_eq!(omitted(3).answer().head(), [21, 0, 0, 0, 0]);
        assert_eq!(omitted(4).answer().head(), [0; 5]);
    }

    #[test]
    fn the_first_wrong_cell_is_named() {
        let case = case(5, r#"[{"Value":"V","CustomFieldID":"F"}]"#);
        let expected = case.answer();
        let mut wrong = expected.clone();
        wrong.cells[3] += 1;
        let shown = case.describe(&expected, &wrong);
        assert!(shown.starts_with("file 5\n  bytes (35) 5b7b22"));
        assert!(shown.ends_with("\n  record 1 Value end: expected 13, answered 14"));
        wrong.kind = 11;
        let described = case.describe(&expected, &wrong);
        assert!(described.ends_with("kind 11 place 0 companion 0 records 1 cells 4"));
    }
}
