//! The record that a mark names (order 5): each kind of fault in each field, in
//! the first, a middle and the last record, and in records whose number needs
//! more than one byte.

use super::{tables, Cases};
use crate::compare::faulty::{faulty_files, with_element};
use crate::table::MOST_RECORDS;

pub(super) fn add(cases: &mut Cases) {
    for table in tables() {
        for file in faulty_files(table, usize::MAX) {
            cases.file(table, &file.contents);
        }
    }
    for number in [255, 256, 257, MOST_RECORDS] {
        for record in LATE {
            cases.file(6, &with_element(6, number, number - 1, record));
        }
    }
    for more in LATE {
        cases.file(6, &with_element(6, MOST_RECORDS + 1, MOST_RECORDS, more));
    }
}

/// Records of file 6: an unknown name, a wrong character, and nothing.
const LATE: [&[u8]; 3] = [b"{\"id\":1}", b"{\"ID\":\"C1\",\"Name\":\" \"}", b"{}"];

#[cfg(test)]
mod tests {
    use super::*;
    use crate::table::read_file;

    /// The kind and companion of a file in which the record of that number is
    /// such a one.
    fn named(number: usize, record: &[u8]) -> (u32, u32) {
        let file = with_element(6, number, number - 1, record);
        let mark = read_file(6, Some(&file)).unwrap_err();
        (mark.kind, mark.companion)
    }

    #[test]
    fn late_records_are_named_by_their_whole_number() {
        for number in [255, 256, 257, 4096] {
            let marks = LATE.map(|record| named(number, record));
            assert_eq!(marks, [(13, number as u32), (31, number as u32), (19, 0)]);
        }
        assert_eq!(LATE.map(|record| named(4097, record)), [(20, 0); 3]);
    }
}
