//! Sets in the making: the records of each file, to be changed and written.

use std::sync::Arc;

use super::sample::{accepted, Set};
use crate::bundle::FILES;
use crate::compare::draft::{quoted, text, Draft};
use crate::fields::fields_of;
use crate::json::decoded_codes;
use crate::table::{read_file, Record};

/// A file in the making. Its records are shared with the sets it comes from,
/// of which most differ in one file only.
#[derive(Clone)]
pub(in crate::compare) enum FileDraft {
    Omitted,
    Bytes(Vec<u8>),
    Records(Arc<Vec<Draft>>),
}

impl FileDraft {
    pub fn of_records(records: Vec<Draft>) -> FileDraft {
        FileDraft::Records(Arc::new(records))
    }
}

#[derive(Clone)]
pub(in crate::compare) struct SetDraft {
    pub files: Vec<FileDraft>,
}

impl SetDraft {
    /// The accepted sample, each of its tables as records.
    pub fn accepted() -> SetDraft {
        let files = accepted().files.into_iter().enumerate().map(|(number, contents)| {
            let contents = contents.expect("the sample has all files");
            match number {
                0 => FileDraft::Bytes(contents),
                table => FileDraft::of_records(drafts_of(table, &contents)),
            }
        });
        SetDraft { files: files.collect() }
    }

    pub fn empty() -> SetDraft {
        SetDraft { files: vec![FileDraft::Omitted; FILES] }
    }

    /// Just these files of the set; all others are omitted.
    pub fn only(&self, numbers: &[usize]) -> SetDraft {
        let mut set = SetDraft::empty();
        for number in numbers {
            set.files[*number] = self.files[*number].clone();
        }
        set
    }

    pub fn with_file(&self, number: usize, file: FileDraft) -> SetDraft {
        let mut set = self.clone();
        set.files[number] = file;
        set
    }

    pub fn with_bytes(&self, number: usize, bytes: &[u8]) -> SetDraft {
        self.with_file(number, FileDraft::Bytes(bytes.to_vec()))
    }

    pub fn with_records(&self, table: usize, records: &[Draft]) -> SetDraft {
        self.with_file(table, FileDraft::of_records(records.to_vec()))
    }

    pub fn without(&self, number: usize) -> SetDraft {
        self.with_file(number, FileDraft::Omitted)
    }

    /// The field of the record at `at` has this value, or is absent.
    pub fn with_value(
        &self,
        table: usize,
        at: usize,
        name: &str,
        value: Option<&[u8]>,
    ) -> SetDraft {
        let mut set = self.clone();
        let record = &mut set.records_mut(table)[at];
        *record = record.with_choice(name, value);
        set
    }

    /// The records of a table that is in the making as such.
    pub fn records(&self, table: usize) -> &[Draft] {
        match &self.files[table] {
            FileDraft::Records(records) => records,
            FileDraft::Omitted | FileDraft::Bytes(_) => panic!("file {table} has no records"),
        }
    }

    pub fn records_mut(&mut self, table: usize) -> &mut Vec<Draft> {
        match &mut self.files[table] {
            FileDraft::Records(records) => Arc::make_mut(records),
            FileDraft::Omitted | FileDraft::Bytes(_) => panic!("file {table} has no records"),
        }
    }

    pub fn bytes(&self, number: usize) -> Option<Vec<u8>> {
        match &self.files[number] {
            FileDraft::Omitted => None,
            FileDraft::Bytes(bytes) => Some(bytes.clone()),
            FileDraft::Records(records) => Some(text(number, records)),
        }
    }

    /// The bytes of a file that isn't omitted.
    pub fn present(&self, number: usize) -> Vec<u8> {
        self.bytes(number).expect("the file is present")
    }

    pub fn bundle(&self) -> Vec<u8> {
        let files = (0..FILES).map(|number| self.bytes(number)).collect();
        Set { files }.bundle()
    }
}

/// The records of a readable file. Fields that are null are left out.
fn drafts_of(table: usize, contents: &[u8]) -> Vec<Draft> {
    let records = read_file(table, Some(contents)).expect("the sample is readable");
    records.iter().map(|record| draft_of(table, record, contents)).collect()
}

fn draft_of(table: usize, record: &Record, contents: &[u8]) -> Draft {
    let mut draft = Draft::default();
    for field in fields_of(table).filter(|field| !record.is_null(field.name)) {
        let place = record.place(field.name);
        let value = &contents[place.start as usize..place.end as usize];
        draft.push(&quoted(field.name), value);
    }
    draft
}

/// The first, a middle and the last of so many records, or fewer.
pub(in crate::compare) fn places(count: usize) -> Vec<usize> {
    places_from(0, count)
}

/// The same among the records from `first` on.
pub(in crate::compare) fn places_from(first: usize, count: usize) -> Vec<usize> {
    let last = count.saturating_sub(1);
    let all = [first, (first + count) / 2, last];
    let mut places: Vec<usize> = all.into_iter().filter(|at| (first..count).contains(at)).collect();
    places.dedup();
    places
}

/// The ID in the form in which IDs are compared; nothing if it is absent.
pub(super) fn folded_id(draft: &Draft, name: &str) -> Option<Vec<u32>> {
    let codes = decoded_codes(draft.value(name)?, 0);
    Some(codes.into_iter().map(crate::json::fold_code).collect())
}

#[cfg(test)]
mod tests {
    use super::*;
    use crate::gate::judge;

    #[test]
    fn the_sample_stays_accepted_as_drafts() {
        let set = SetDraft::accepted();
        assert!(judge(&set.bundle()).board.is_accepted());
        for table in 4..FILES {
            assert!(set.records(table).len() >= 3, "file {table}");
        }
    }

    #[test]
    fn values_are_set_and_taken_away() {
        let set = SetDraft::accepted().only(&[6]);
        let named = set.with_value(6, 1, "Name", Some(b"\"N\""));
        assert_eq!(named.records(6)[1].text(), br#"{"ID":"C2","Name":"N"}"#);
        let bare = named.with_value(6, 1, "Name", None);
        assert_eq!(bare.records(6)[1].text(), br#"{"ID":"C2"}"#);
        assert_eq!(bare.bytes(7), None);
        assert_eq!(bare.without(6).bundle().len(), 164);
    }

    #[test]
    fn places_are_first_middle_and_last() {
        assert_eq!(places(5), [0, 2, 4]);
        assert_eq!(places(2), [0, 1]);
        assert_eq!(places(1), [0]);
        assert_eq!(places(0), [0; 0]);
        assert_eq!(places_from(1, 5), [1, 3, 4]);
        assert_eq!(places_from(1, 1), [0; 0]);
    }

    #[test]
    fn ids_are_folded() {
        let draft = Draft::default().with_value("ID", br#""\u0041b""#);
        assert_eq!(folded_id(&draft, "ID"), Some(vec![0x61, 0x62]));
        assert_eq!(folded_id(&draft, "Name"), None);
    }
}
