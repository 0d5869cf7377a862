//! Files with a single fault: of each kind, in each field that can have it, in
//! the first, a middle and the last record of a table, in its only one, and in
//! a singleton. Which record a mark names (order 5) is counted here by hand.

use super::draft::{quoted, Draft};
use super::tables::{names_its_record, possible_kinds, stands_in_record};
use crate::fields::{fields_of, Type};
use crate::table::{is_singleton, read_file};

/// A file, and the kind and companion of its mark.
pub(super) struct Faulty {
    pub contents: Vec<u8>,
    pub kind: u32,
    pub companion: u32,
}

const RECORDS: usize = 5;

/// How many records there are, and which of them is spoilt.
const PLACES: [(usize, usize); 4] = [(RECORDS, 0), (RECORDS, 2), (RECORDS, 4), (1, 0)];
const ONLY_PLACE: [(usize, usize); 1] = [(1, 0)];

/// The files of that table, with at most so many ways to spoil a record for
/// each kind.
pub(super) fn faulty_files(table: usize, most: usize) -> Vec<Faulty> {
    let kinds = possible_kinds(table).into_iter().filter(|kind| stands_in_record(*kind));
    kinds.flat_map(|kind| files_of_kind(table, kind, most)).collect()
}

fn files_of_kind(table: usize, kind: u32, most: usize) -> Vec<Faulty> {
    let places: &[(usize, usize)] = if is_singleton(table) { &ONLY_PLACE } else { &PLACES };
    let mut files = Vec::new();
    for (count, at) in places {
        for spoilt in spoilt_records(table, kind, *at).into_iter().take(most) {
            let companion = if names_its_record(kind) { *at as u32 + 1 } else { 0 };
            let contents = with_element(table, *count, *at, &spoilt);
            let file = Faulty { contents, kind, companion };
            file.check(table);
            files.push(file);
        }
    }
    files
}

impl Faulty {
    /// The reader finds the mark that is meant: what is counted by hand and
    /// what this program answers have to be one.
    fn check(&self, table: usize) {
        let mark = read_file(table, Some(&self.contents)).expect_err("the file has a fault");
        let shown = String::from_utf8_lossy(&self.contents);
        assert_eq!((mark.kind, mark.companion), (self.kind, self.companion), "{shown}");
    }
}

/// The file of so many good records, but for the one element.
pub(super) fn with_element(table: usize, count: usize, at: usize, element: &[u8]) -> Vec<u8> {
    if is_singleton(table) {
        return element.to_vec();
    }
    let mut elements: Vec<Vec<u8>> =
        (0..count).map(|number| Draft::least(table, number).text()).collect();
    elements[at] = element.to_vec();
    [b"[", &elements.join(&b","[..])[..], b"]"].concat()
}

/// The record of that number with a fault of that kind, in every way there is.
fn spoilt_records(table: usize, kind: u32, number: usize) -> Vec<Vec<u8>> {
    let record = Draft::least(table, number);
    let drafts = match kind {
        10 => in_fields(table, &record, |_| true, b"\"\xFF\""),
        11 => in_fields(table, &record, |_| true, b"tru"),
        12 => return vec![b"1".to_vec(), b"null".to_vec(), b"[]".to_vec()],
        13 => with_unknown_name(&record),
        14 => with_names_twice(table, &record),
        15 => in_fields(table, &record, |_| true, b"[]"),
        17 => in_fields(table, &record, |kind| kind == Type::Date, b"\"x\""),
        18 => in_fields(table, &record, is_number, b"1e99"),
        19 => without_fields(table, &record),
        30 => in_fields(table, &record, is_string, b"\"\\u0000\""),
        31 => in_fields(table, &record, has_white_space_rule, b"\" A\""),
        32 => in_fields(table, &record, |kind| kind == Type::StringID, b"\"\xC3\xA9\""),
        // In a StringID it would be 32.
        33 => in_fields(table, &record, may_have_any_character, b"\"\\uD800\""),
        34 => in_fields(table, &record, |kind| kind == Type::Integer, b"0.5"),
        _ => panic!("no record has a fault of kind {kind}"),
    };
    drafts.iter().map(Draft::text).collect()
}

fn is_number(kind: Type) -> bool {
    matches!(kind, Type::Decimal | Type::Integer)
}

fn is_string(kind: Type) -> bool {
    matches!(kind, Type::String | Type::StringID | Type::Text)
}

fn has_white_space_rule(kind: Type) -> bool {
    matches!(kind, Type::String | Type::StringID)
}

fn may_have_any_character(kind: Type) -> bool {
    matches!(kind, Type::String | Type::Text)
}

/// The value in each field of such a type.
fn in_fields(table: usize, record: &Draft, has: fn(Type) -> bool, value: &[u8]) -> Vec<Draft> {
    let fields = fields_of(table).filter(|field| has(field.kind));
    fields.map(|field| record.with_value(field.name, value)).collect()
}

/// In front of all other names, and behind them.
fn with_unknown_name(record: &Draft) -> Vec<Draft> {
    let places = [0, record.members.len()];
    places.iter().map(|at| record.with_member(*at, b"\"x\"", b"1")).collect()
}

fn with_names_twice(table: usize, record: &Draft) -> Vec<Draft> {
    let twice = |name: &str| {
        let mut draft = record.with_value(name, b"null");
        draft.push(&quoted(name), b"null");
        draft
    };
    fields_of(table).map(|field| twice(field.name)).collect()
}

fn without_fields(table: usize, record: &Draft) -> Vec<Draft> {
    let fields = fields_of(table).filter(|field| !field.nullable);
    fields.map(|field| record.without(field.name)).collect()
}

#[cfg(test)]
mod tests {
    use super::*;
    use crate::compare::draft::text;
    use std::collections::BTreeSet;

    #[test]
    fn every_kind_is_there_and_has_the_mark_that_is_meant() {
        for table in 1..20 {
            let files = faulty_files(table, usize::MAX);
            let kinds: BTreeSet<u32> = files.iter().map(|file| file.kind).collect();
            let wanted = possible_kinds(table).into_iter().filter(|kind| stands_in_record(*kind));
            assert_eq!(kinds, wanted.collect());
        }
    }

    #[test]
    fn all_but_one_element_are_good() {
        let good = Draft::least(6, 1).text();
        let file = with_element(6, 3, 1, &good);
        assert_eq!(read_file(6, Some(&file)).unwrap().len(), 3);
        assert_eq!(file, text(6, &[0, 1, 2].map(|number| Draft::least(6, number))));
        assert_eq!(with_element(2, 1, 0, b"{}"), b"{}");
    }
}
