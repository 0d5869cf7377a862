//! Targets (48 to 64) and records that need one elsewhere (67, 73, 74); short
//! and longer IDs in no order, also those of parents (80).

use super::long::{asking_record, searched_record, short_record};
use super::Cases;
use crate::compare::cases::{written, Style};
use crate::compare::draft::{quoted, Draft};
use crate::compare::gate::set_draft::{places, FileDraft, SetDraft};
use crate::compare::gate::styles::{escaped, recased};
use crate::fields::fields_of;
use crate::rules::{rule, Rule};

pub(super) fn add(cases: &mut Cases) {
    for link in links() {
        add_own_ids(cases, &link);
        add_other_ids(cases, &link);
        add_moved_targets(cases, &link);
        add_empty_tables(cases, &link);
        add_nulls(cases, &link);
    }
}

/// A field whose ID is looked for in a field of another table.
pub(super) struct Link {
    pub file: usize,
    pub field: &'static str,
    pub other: usize,
    pub other_field: &'static str,
}

impl Link {
    fn base(&self, cases: &Cases) -> SetDraft {
        cases.base.only(&[self.file, self.other])
    }
}

pub(super) fn links() -> Vec<Link> {
    let marks = (48..=64).chain([67, 73, 74]);
    marks
        .map(|mark| match rule(mark) {
            Rule::Target { file, field, other, other_field } => {
                Link { file, field, other, other_field }
            }
            Rule::HasOne { file, other, other_field, .. } => {
                Link { file, field: "ID", other, other_field }
            }
            _ => unreachable!("these marks ask for a record of another table"),
        })
        .collect()
}

/// Words near an ID that is there, in the table that asks.
fn add_own_ids(cases: &mut Cases, link: &Link) {
    let base = link.base(cases);
    for at in places(base.records(link.file).len()) {
        let right = base.records(link.file)[at].value(link.field).unwrap_or(b"\"T1\"").to_vec();
        for id in near_ids(cases, &right) {
            cases.judge_set(&base.with_value(link.file, at, link.field, Some(&id)));
        }
    }
}

/// The same in the table that is searched.
fn add_other_ids(cases: &mut Cases, link: &Link) {
    let base = link.base(cases);
    for at in places(base.records(link.other).len()) {
        let right = base.records(link.other)[at].value(link.other_field).unwrap_or(b"\"T1\"");
        for id in near_ids(cases, right) {
            cases.judge_set(&base.with_value(link.other, at, link.other_field, Some(&id)));
        }
    }
}

/// The ID in other styles, shorter, longer, and with a neighbour of a letter
/// that doesn't fold.
fn near_ids(cases: &mut Cases, right: &[u8]) -> Vec<Vec<u8>> {
    let inner = &right[1..right.len() - 1];
    let id = |parts: &[&[u8]]| [b"\"", &parts.concat()[..], b"\""].concat();
    let cased = recased(right, &mut cases.random);
    vec![
        escaped(&cased, &mut cases.random),
        cased,
        id(&[inner, b"1"]),
        id(&[b"1", inner]),
        id(&[&inner[..1]]),
        id(&[inner, b" ", inner]),
        id(&[b"~", &inner[1..]]),
        b"\"@`[{\"".to_vec(),
    ]
}

/// Every rotation of the searched table, so that each target is found at each
/// place of it, and each target left out.
fn add_moved_targets(cases: &mut Cases, link: &Link) {
    let base = link.base(cases);
    let records = base.records(link.other).to_vec();
    for turn in 0..records.len() {
        let mut rotated = records.clone();
        rotated.rotate_left(turn);
        cases.judge_set(&base.with_records(link.other, &rotated));
        cases.judge_set(&base.with_records(link.other, &rotated[1..]));
        cases.judge_set(&base.with_records(link.other, &rotated[..1]));
        let twice: Vec<Draft> = rotated.iter().chain(&rotated[..1]).cloned().collect();
        cases.judge_set(&base.with_records(link.other, &twice));
    }
}

fn add_empty_tables(cases: &mut Cases, link: &Link) {
    let base = link.base(cases);
    let empties =
        [FileDraft::Omitted, FileDraft::of_records(Vec::new()), FileDraft::Bytes(b"".to_vec())];
    for file in &empties {
        cases.judge_set(&base.with_file(link.file, file.clone()));
        for other in &empties {
            let set = base.with_file(link.other, other.clone());
            cases.judge_set(&set);
            cases.judge_set(&set.with_file(link.file, file.clone()));
        }
    }
}

/// A null ID asks for nothing, also where there is nothing to be found.
fn add_nulls(cases: &mut Cases, link: &Link) {
    let is_nullable = fields_of(link.file).any(|f| f.name == link.field && f.nullable);
    let base = link.base(cases);
    let bare = base.with_records(link.other, &[]);
    for at in places(base.records(link.file).len()) {
        for null in [None, Some(&b"null"[..]), Some(b"\"\"")] {
            cases.judge_set(&base.with_value(link.file, at, link.field, null));
            if is_nullable {
                cases.judge_set(&bare.with_value(link.file, at, link.field, null));
            }
        }
    }
}

// ------------------------------------------------------- short IDs, and others

/// Targets may be found through what an ID of up to eight characters is made of,
/// and longer ones only in another way.
pub(super) fn add_all_lengths(cases: &mut Cases) {
    for (turn, link) in links().iter().enumerate() {
        add_found(cases, link, turn);
        add_wide(cases, link, turn);
        add_missing(cases, link, turn);
        add_nearly_there(cases, link, turn);
        add_unfolded(cases, link, turn);
    }
    add_parents(cases);
}

/// The longest ID. Each shorter one is a front of it.
const LETTERS: &str = "T/b07-Za/q_S";

/// How many IDs there are.
const IDS: usize = 3 * LETTERS.len() - 1;

/// Three IDs of each length: a front, one with another last character, and one
/// with its first two exchanged. Not one of them is there twice.
fn ids() -> Vec<String> {
    let lengths = 1..=LETTERS.len();
    let fronts = lengths.clone().map(|length| LETTERS[..length].to_string());
    let others = lengths.clone().map(|length| format!("{}~", &LETTERS[..length - 1]));
    let exchanged = lengths.skip(1).map(|length| format!("/T{}", &LETTERS[2..length]));
    fronts.chain(others).chain(exchanged).collect()
}

/// For which ID the record asks: not for the one behind that of the record before
/// it, nor for that of the record at its own place or behind it.
fn asked(number: usize) -> usize {
    (8 * number + 4) % IDS
}

/// The record that asks for the ID of that number.
fn asking(number: usize) -> usize {
    (0..IDS).find(|record| asked(*record) == number).expect("each ID is asked for")
}

/// How all IDs of a table are written.
#[derive(Clone, Copy)]
enum Spelling {
    Plain,
    Lower,
    /// The character at that place is an escape, or the last one.
    Escape(usize),
    /// Each slash has a backslash before it.
    Slashes,
}

fn spelled(id: &str, spelling: Spelling) -> Vec<u8> {
    match spelling {
        Spelling::Plain => quoted(id),
        Spelling::Lower => quoted(&id.to_ascii_lowercase()),
        Spelling::Escape(at) => {
            let at = at.min(id.len() - 1);
            let letters = id.as_bytes();
            let escape = written(letters[at].into(), Style::LowerHex);
            [b"\"", &letters[..at], &escape, &letters[at + 1..], b"\""].concat()
        }
        Spelling::Slashes => quoted(&id.replace('/', "\\/")),
    }
}

/// The records that ask for all IDs, in no order.
fn all_asking(link: &Link, spelling: Spelling) -> Vec<Draft> {
    let ids = ids();
    let record = |number: usize| {
        asking_record(link, number).with_value(link.field, &spelled(&ids[asked(number)], spelling))
    };
    (0..IDS).map(record).collect()
}

/// The searched records, one for each ID.
fn all_searched(link: &Link, spelling: Spelling) -> Vec<Draft> {
    let record = |(number, id): (usize, &String)| {
        searched_record(link, number).with_value(link.other_field, &spelled(id, spelling))
    };
    ids().iter().enumerate().map(record).collect()
}

fn judge_both(cases: &mut Cases, link: &Link, asking: &[Draft], searched: &[Draft]) {
    let set = SetDraft::empty().with_records(link.file, asking);
    cases.judge_set(&set.with_records(link.other, searched));
}

/// All are found: written alike in both tables, or in another way in one of them.
fn add_found(cases: &mut Cases, link: &Link, turn: usize) {
    use Spelling::{Escape, Lower, Plain, Slashes};
    let mut spellings =
        vec![(Plain, Plain), (Lower, Plain), (Plain, Lower), (Slashes, Plain), (Plain, Slashes)];
    for at in 0..LETTERS.len() {
        let is_asked = (at + turn) % 2 == 0;
        spellings.push(if is_asked { (Escape(at), Plain) } else { (Plain, Escape(at)) });
    }
    for (asking, searched) in spellings {
        judge_both(cases, link, &all_asking(link, asking), &all_searched(link, searched));
    }
}

/// One ID ends in a character that no ID may have, in either table.
fn add_wide(cases: &mut Cases, link: &Link, turn: usize) {
    let number = turn % LETTERS.len();
    let front = &LETTERS[..number];
    let plain = all_asking(link, Spelling::Plain);
    let searched = all_searched(link, Spelling::Plain);
    let mut wide = plain.clone();
    let at = asking(number);
    wide[at] = wide[at].with_value(link.field, &quoted(&format!("{front}é")));
    judge_both(cases, link, &wide, &searched);
    let mut wide = searched;
    let id = quoted(&format!("{front}\\u00e9"));
    wide[number] = wide[number].with_value(link.other_field, &id);
    judge_both(cases, link, &plain, &wide);
}

/// One ID of each length is asked for and not there.
fn add_missing(cases: &mut Cases, link: &Link, turn: usize) {
    for number in 0..LETTERS.len() {
        let spellings = [Spelling::Plain, Spelling::Lower, Spelling::Escape(number / 2)];
        let asking = all_asking(link, spellings[(number + turn) % spellings.len()]);
        let mut searched = all_searched(link, Spelling::Plain);
        searched.remove(number);
        judge_both(cases, link, &asking, &searched);
    }
}

/// One ID of each length is nearly there: its last character is as far from
/// another one's as a letter from its capital, or is the next one, or there is
/// one character more.
fn add_nearly_there(cases: &mut Cases, link: &Link, turn: usize) {
    for number in 0..LETTERS.len() {
        let (front, last) = (&LETTERS[..number], LETTERS.as_bytes()[number]);
        let other = if (number + turn) % 2 == 0 {
            format!("{front}{}#", char::from(last))
        } else {
            format!("{front}{}", char::from(last ^ 1))
        };
        for near in [format!("{front}^"), other] {
            let mut asking_all = all_asking(link, Spelling::Plain);
            let at = asking(number);
            asking_all[at] = asking_all[at].with_value(link.field, &quoted(&near));
            judge_both(cases, link, &asking_all, &all_searched(link, Spelling::Plain));
        }
    }
}

/// Characters that are as far from each other as a letter from its capital, and
/// are no letters.
const UNFOLDED: [[char; 2]; 5] = [['@', '`'], ['[', '{'], ['\\', '|'], [']', '}'], ['^', '~']];

/// The last ID that is asked for has one such character where the last searched
/// one has the other, at each of its eight places by turns.
fn add_unfolded(cases: &mut Cases, link: &Link, turn: usize) {
    for number in [2 * turn, 2 * turn + 1] {
        let [asked_one, other] = UNFOLDED[number % UNFOLDED.len()];
        let at = number / UNFOLDED.len();
        let id = |character: char| {
            let id = format!("{}{character}{}", &LETTERS[..at], &LETTERS[at + 1..8]);
            quoted(&id.replace('\\', "\\\\"))
        };
        let mut asking_all = all_asking(link, Spelling::Plain);
        let mut searched = all_searched(link, Spelling::Plain);
        asking_all.push(asking_record(link, IDS).with_value(link.field, &id(asked_one)));
        searched.push(searched_record(link, IDS).with_value(link.other_field, &id(other)));
        judge_both(cases, link, &asking_all, &searched);
    }
}

/// Tasks of these IDs, all SUMMARY, each with a child: the outline has them in no
/// order and in each spelling. Then one of them is no SUMMARY, or no task.
fn add_parents(cases: &mut Cases) {
    let task = |id: &String| {
        short_record(9, 0).with_value("ID", &quoted(id)).with_value("TaskTypeID", b"\"SUMMARY\"")
    };
    let tasks: Vec<Draft> = ids().iter().map(task).collect();
    let escapes = (0..LETTERS.len()).map(Spelling::Escape);
    for spelling in [Spelling::Plain, Spelling::Lower, Spelling::Slashes].into_iter().chain(escapes)
    {
        let set = SetDraft::empty().with_records(15, &families(spelling));
        cases.judge_set(&set.with_records(9, &tasks));
    }
    for number in 0..LETTERS.len() {
        let spellings = [Spelling::Plain, Spelling::Lower, Spelling::Escape(number / 2)];
        let set = SetDraft::empty().with_records(15, &families(spellings[number % 3]));
        let set = set.with_records(9, &tasks);
        cases.judge_set(&set.with_value(9, number, "TaskTypeID", Some(b"\"HAMMOCK\"")));
        let mut fewer = tasks.clone();
        fewer.remove(number);
        cases.judge_set(&set.with_records(9, &fewer));
    }
}

/// Two rows for each ID: that task and a child of it.
fn families(spelling: Spelling) -> Vec<Draft> {
    let ids = ids();
    let family = |number: usize| {
        let parent = &ids[asked(number)];
        let row = |level: &[u8], id: &[u8]| {
            Draft::default().with_value("Level", level).with_value("TaskID", id)
        };
        let child = row(b"2", &quoted(&format!("C{number}")));
        [row(b"1", &spelled(parent, spelling)), child.with_value("ParentTaskID", &quoted(parent))]
    };
    (0..IDS).flat_map(family).collect()
}

#[cfg(test)]
mod tests {
    use std::collections::BTreeSet;

    use super::*;
    use crate::board::{broken_at, Mark, HOLDS, NOT_JUDGED};
    use crate::compare::random::Random;
    use crate::gate::judge;

    /// Each link and its mark.
    fn marked() -> impl Iterator<Item = (usize, Link)> {
        (48..=64).chain([67, 73, 74]).zip(links())
    }

    /// That mark in the cases that are added so.
    fn marks(mark: usize, add: impl Fn(&mut Cases)) -> Vec<Mark> {
        let random = Random::new(1);
        let mut cases = Cases { list: Vec::new(), random, base: SetDraft::accepted() };
        add(&mut cases);
        cases.list.iter().map(|case| judge(&case.bundle).board.marks[mark]).collect()
    }

    #[test]
    fn ids_are_of_each_length_and_in_no_order() {
        let ids = ids();
        let folded: BTreeSet<String> = ids.iter().map(|id| id.to_ascii_lowercase()).collect();
        assert_eq!((ids.len(), folded.len()), (IDS, IDS));
        let lengths: BTreeSet<usize> = ids.iter().map(String::len).collect();
        assert_eq!(lengths, (1..=12).collect());
        let order: Vec<usize> = (0..IDS).map(asked).collect();
        assert_eq!(order.iter().collect::<BTreeSet<_>>().len(), IDS);
        assert!(order.windows(2).all(|pair| pair[1] != pair[0] + 1));
        assert!((0..IDS).all(|number| order[number] != number && order[number] != number + 1));
    }

    #[test]
    fn spellings_are_of_one_id() {
        let shown = |spelling| String::from_utf8(spelled("T/b", spelling)).unwrap();
        assert_eq!(shown(Spelling::Plain), r#""T/b""#);
        assert_eq!(shown(Spelling::Lower), r#""t/b""#);
        assert_eq!(shown(Spelling::Slashes), r#""T\/b""#);
        assert_eq!(shown(Spelling::Escape(1)), r#""T\u002fb""#);
        assert_eq!(shown(Spelling::Escape(7)), r#""T/\u0062""#);
    }

    #[test]
    fn targets_of_each_length_are_found_or_missing() {
        for (turn, (mark, link)) in marked().enumerate() {
            let found = marks(mark, |cases| add_found(cases, &link, turn));
            assert_eq!(found, [HOLDS; 17], "mark {mark}");
            let wide = marks(mark, |cases| add_wide(cases, &link, turn));
            assert_eq!(wide, [NOT_JUDGED; 2], "mark {mark}");
            let broken = |number: usize| broken_at(asking(number) + 1, 0);
            let missing = marks(mark, |cases| add_missing(cases, &link, turn));
            assert_eq!(missing, (0..12).map(broken).collect::<Vec<Mark>>(), "mark {mark}");
            let near = marks(mark, |cases| add_nearly_there(cases, &link, turn));
            let each_twice = (0..24).map(|number| broken(number / 2));
            assert_eq!(near, each_twice.collect::<Vec<Mark>>(), "mark {mark}");
            let unfolded = marks(mark, |cases| add_unfolded(cases, &link, turn));
            assert_eq!(unfolded, [broken_at(IDS + 1, 0); 2], "mark {mark}");
        }
    }

    #[test]
    fn parents_of_each_length_are_summaries_or_not() {
        let marks = marks(80, add_parents);
        assert_eq!(marks[..15], [HOLDS; 15]);
        let row = |number: usize| 2 * asking(number) + 1;
        let broken = |number: usize| broken_at(row(number / 2) + 1, row(number / 2));
        assert_eq!(marks[15..], (0..24).map(broken).collect::<Vec<Mark>>());
    }
}
