//! IDs compared where they stand (order 3): of one byte and of hundreds of
//! kilobytes, both in one file or in two, or one of them in the new bytes of a
//! change; and many that begin alike.
//!
//! A program that compares every record with every other goes through all of
//! two such IDs each time, so the tables here are shorter than in `long`.

use std::sync::Arc;

use super::targets::{links, Link};
use super::{change, random_board, Cases};
use crate::bundle::LARGEST_BUNDLE;
use crate::compare::draft::{quoted, Draft};
use crate::compare::gate::set_draft::SetDraft;
use crate::compare::gate::styles::{escaped, recased};
use crate::compare::ids::{alike_id, id_codes, main_pairs, pairs, Pair};
use crate::fields::{fields_of, Type};
use crate::rules::{rule, Rule};

const SHORT: [usize; 2] = [1, 40];
const LONG: usize = 200_000;

/// Two of these and little else fill a bundle.
const LONGEST: usize = LARGEST_BUNDLE / 2 - 200;

pub(super) fn add(cases: &mut Cases) {
    for length in SHORT {
        for pair in pairs(&id_codes(length)) {
            add_keys(cases, &pair);
            for link in links() {
                add_link(cases, &link, &pair);
            }
            add_parent(cases, &pair);
        }
    }
    add_long(cases);
    add_longest(cases);
    add_long_enumeration_value(cases);
    add_alike(cases);
}

/// Both IDs, either one first.
fn in_some_order<'a>(cases: &mut Cases, pair: &'a Pair) -> [&'a [u8]; 2] {
    let mut ids: [&[u8]; 2] = [&pair.first, &pair.second];
    ids.rotate_left(cases.random.below(2));
    ids
}

// ------------------------------------------------------------ in one file

fn add_keys(cases: &mut Cases, pair: &Pair) {
    for mark in 20..=35 {
        let Rule::Key { file, fields } = rule(mark) else {
            unreachable!("marks 20 to 35 are keys");
        };
        let ids: Vec<&str> = fields_of(file)
            .filter(|field| field.kind == Type::StringID && fields.contains(&field.name))
            .map(|field| field.name)
            .collect();
        for part in &ids {
            add_key(cases, file, &[part], pair);
        }
        if ids.len() > 1 {
            add_key(cases, file, &ids, pair);
        }
    }
}

/// Two records alike but for these parts of their keys.
fn add_key(cases: &mut Cases, table: usize, parts: &[&str], pair: &Pair) {
    let record = cases.base.records(table)[0].clone();
    let records = in_some_order(cases, pair)
        .map(|id| parts.iter().fold(record.clone(), |record, part| record.with_value(part, id)));
    cases.judge_set(&SetDraft::empty().with_records(table, &records));
}

/// The parent's ID in its own record, in its child's, and in Tasks.
fn parent_set(cases: &Cases, own: &[u8], given: &[u8]) -> SetDraft {
    let row = |level: &[u8], id: &[u8]| {
        Draft::default().with_value("Level", level).with_value("TaskID", id)
    };
    let rows = [row(b"1", own), row(b"2", b"\"x\"").with_value("ParentTaskID", given)];
    let task = cases.base.records(9)[0].with_value("ID", given);
    SetDraft::empty().with_records(15, &rows).with_records(9, &[task])
}

fn add_parent(cases: &mut Cases, pair: &Pair) {
    let [own, given] = in_some_order(cases, pair);
    cases.judge_set(&parent_set(cases, own, given));
}

// ----------------------------------------------------------- in two files

/// One record in either table.
fn linked(cases: &Cases, link: &Link, asking: &[u8], searched: &[u8]) -> SetDraft {
    let record =
        |table: usize, name: &str, id: &[u8]| [cases.base.records(table)[0].with_value(name, id)];
    SetDraft::empty()
        .with_records(link.file, &record(link.file, link.field, asking))
        .with_records(link.other, &record(link.other, link.other_field, searched))
}

fn add_link(cases: &mut Cases, link: &Link, pair: &Pair) {
    let [asking, searched] = in_some_order(cases, pair);
    let set = linked(cases, link, asking, searched);
    cases.judge_set(&set);
    let number = cases.random.pick(&[link.file, link.other]);
    add_as_change(cases, &set, number);
}

/// The file comes by a change, so that one ID is in the bundle and the other in
/// the new bytes.
fn add_as_change(cases: &mut Cases, set: &SetDraft, number: usize) {
    let before = Arc::new(set.without(number).bundle());
    let board = random_board(&mut cases.random);
    cases.try_change(&before, change(board, number, set.bytes(number)));
}

// ------------------------------------------------------------------- long

/// The rule by which each shift has its calendar; another one asks the other
/// way round.
const SHIFTS: Link = Link { file: 7, field: "CalendarID", other: 6, other_field: "ID" };

fn add_long(cases: &mut Cases) {
    for (index, pair) in main_pairs(&id_codes(LONG)).iter().enumerate() {
        add_key(cases, 6, &["ID"], pair);
        let set = linked(cases, &SHIFTS, &pair.first, &pair.second);
        match index % 3 {
            0 => cases.judge_set(&set),
            1 => add_as_change(cases, &set, SHIFTS.file),
            _ => add_as_change(cases, &set, SHIFTS.other),
        }
    }
    for pair in main_pairs(&id_codes(LONG / 5)) {
        add_key(cases, 14, &["PredecessorTaskID", "SuccessorTaskID"], &pair);
        add_parent(cases, &pair);
    }
}

/// The same ID in other case, and one that differs in its last character only.
fn add_longest(cases: &mut Cases) {
    let id = |last: u8| [b"\"", &vec![b'K'; LONGEST - 1][..], &[last], b"\""].concat();
    for other in [b'Q', b'p'] {
        let pair = Pair { first: id(b'q'), second: id(other) };
        add_key(cases, 6, &["ID"], &pair);
        cases.judge_set(&linked(cases, &SHIFTS, &pair.first, &pair.second));
    }
}

/// A value that begins as a right one and goes on.
fn add_long_enumeration_value(cases: &mut Cases) {
    for length in [1, LONG] {
        let value = quoted(&format!("SUMMARY{}", "Y".repeat(length)));
        let set = cases.base.only(&[9, 15]);
        cases.judge_set(&set.with_value(9, 0, "TaskTypeID", Some(&value)));
    }
}

// ------------------------------------------------------------------ alike

/// Records of IDs that differ in their last four characters only.
const ALIKE: usize = 300;

fn add_alike(cases: &mut Cases) {
    let ids = |length: usize| -> Vec<Vec<u8>> {
        (0..ALIKE).map(|number| quoted(&alike_id(number, length))).collect()
    };
    add_alike_keys(cases, 9, "ID", &ids(60));
    add_alike_keys(cases, 14, "SuccessorTaskID", &ids(60));
    for link in links().iter().filter(|link| link.file == 15) {
        add_alike_targets(cases, link, &ids(60));
    }
    add_alike_keys(cases, 6, "ID", &ids(200));
    add_alike_targets(cases, &SHIFTS, &ids(200));
}

/// All differ, or the last is the first or the one before once more, written
/// in another way.
fn add_alike_keys(cases: &mut Cases, table: usize, part: &str, ids: &[Vec<u8>]) {
    let record = cases.base.records(table)[0].clone();
    let mut records: Vec<Draft> = ids.iter().map(|id| record.with_value(part, id)).collect();
    cases.judge_set(&SetDraft::empty().with_records(table, &records));
    let last = ids.len() - 1;
    for again in [0, last - 1] {
        let id = in_other_style(cases, &ids[again]);
        records[last] = record.with_value(part, &id);
        cases.judge_set(&SetDraft::empty().with_records(table, &records));
    }
}

/// The searched table has the IDs in the opposite order and another style. All
/// are found, or all but the last or the first.
fn add_alike_targets(cases: &mut Cases, link: &Link, ids: &[Vec<u8>]) {
    let record = cases.base.records(link.file)[0].clone();
    let asking: Vec<Draft> = ids.iter().map(|id| record.with_value(link.field, id)).collect();
    let record = cases.base.records(link.other)[0].clone();
    let searched: Vec<Draft> = ids
        .iter()
        .rev()
        .map(|id| record.with_value(link.other_field, &in_other_style(cases, id)))
        .collect();
    let set = SetDraft::empty().with_records(link.file, &asking);
    for found in [&searched[..], &searched[1..], &searched[..ids.len() - 1]] {
        cases.judge_set(&set.with_records(link.other, found));
    }
}

fn in_other_style(cases: &mut Cases, id: &[u8]) -> Vec<u8> {
    let cased = recased(id, &mut cases.random);
    match cases.random.below(4) {
        0 => escaped(&cased, &mut cases.random),
        _ => cased,
    }
}

#[cfg(test)]
mod tests {
    use super::*;
    use crate::board::{broken_at, Mark, HOLDS};
    use crate::compare::gate::set_draft::folded_id;
    use crate::compare::random::Random;
    use crate::gate::judge;

    fn cases() -> Cases {
        Cases { list: Vec::new(), random: Random::new(1), base: SetDraft::accepted() }
    }

    fn is_one(pair: &Pair) -> bool {
        let folded = |id: &[u8]| folded_id(&Draft::default().with_value("ID", id), "ID");
        folded(&pair.first) == folded(&pair.second)
    }

    fn holds_if(holds: bool, place: usize, companion: usize) -> Mark {
        if holds {
            HOLDS
        } else {
            broken_at(place, companion)
        }
    }

    /// The one case that was added.
    fn judged(cases: &mut Cases) -> Vec<Mark> {
        let case = cases.list.pop().expect("a case has been added");
        assert!(cases.list.is_empty());
        judge(&case.bundle).board.marks.to_vec()
    }

    #[test]
    fn the_pair_alone_decides() {
        let mut cases = cases();
        for length in [1, 40, 20_000] {
            for pair in main_pairs(&id_codes(length)) {
                let one = is_one(&pair);
                add_key(&mut cases, 6, &["ID"], &pair);
                assert_eq!(judged(&mut cases)[22], holds_if(!one, 2, 1));
                add_key(&mut cases, 19, &["ResourceID", "TaskID"], &pair);
                assert_eq!(judged(&mut cases)[35], holds_if(!one, 2, 1));
                let set = linked(&cases, &SHIFTS, &pair.first, &pair.second);
                let marks = judge(&set.bundle()).board.marks;
                assert_eq!([marks[49], marks[67]], [holds_if(one, 1, 0); 2]);
                add_parent(&mut cases, &pair);
                let marks = judged(&mut cases);
                assert_eq!([marks[79], marks[80]], [holds_if(one, 2, 1); 2]);
                assert_eq!(marks[74], holds_if(one, 1, 0));
            }
        }
    }

    #[test]
    fn every_link_is_decided_by_the_pair() {
        let mut cases = cases();
        let marks: Vec<usize> = (48..=64).chain([67, 73, 74]).collect();
        for (mark, link) in marks.into_iter().zip(links()) {
            for pair in pairs(&id_codes(40)) {
                let [asking, searched] = in_some_order(&mut cases, &pair);
                let set = linked(&cases, &link, asking, searched);
                let board = judge(&set.bundle()).board;
                assert_eq!(board.marks[mark], holds_if(is_one(&pair), 1, 0), "mark {mark}");
            }
        }
    }

    #[test]
    fn the_longest_fill_a_bundle() {
        let mut cases = cases();
        add_longest(&mut cases);
        for (case, mark) in cases.list.iter().zip([22, 49, 22, 49]) {
            let missing = LARGEST_BUNDLE - case.bundle.len();
            assert!(missing < 300, "{missing}");
            let board = judge(&case.bundle).board;
            assert_eq!(board.marks[6], HOLDS);
            assert!(board.marks[mark] == HOLDS || board.marks[mark].kind == 1);
        }
    }

    #[test]
    fn alike_ones_are_told_apart() {
        let mut cases = cases();
        let ids: Vec<Vec<u8>> = (0..30).map(|number| quoted(&alike_id(number, 60))).collect();
        add_alike_keys(&mut cases, 9, "ID", &ids);
        let marks = cases.list.drain(..).map(|case| judge(&case.bundle).board.marks[25]);
        assert_eq!(marks.collect::<Vec<Mark>>(), [HOLDS, broken_at(30, 1), broken_at(30, 29)]);
        add_alike_targets(&mut cases, &SHIFTS, &ids);
        let marks = cases.list.drain(..).map(|case| judge(&case.bundle).board.marks[49]);
        assert_eq!(marks.collect::<Vec<Mark>>(), [HOLDS, broken_at(30, 0), broken_at(1, 0)]);
    }
}
