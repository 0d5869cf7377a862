//! Primary keys (20 to 35): every part of a key counts, IDs fold, and
//! Ordinals and dates are compared by value; tables in the order of the second
//! ID of their keys, and others that nearly are.

use super::long::short_record;
use super::Cases;
use crate::compare::cases::{written, Style};
use crate::compare::draft::{quoted, Draft};
use crate::compare::gate::set_draft::{places_from, SetDraft};
use crate::compare::gate::styles::{escaped, recased, SHORT_INTEGERS};
use crate::fields::{fields_of, Enumeration, Field, Type, ENUMERATION_VALUES};
use crate::rules::{key_of, rule, Rule};

pub(super) fn add(cases: &mut Cases) {
    for mark in 20..=35 {
        let Rule::Key { file, fields } = rule(mark) else {
            unreachable!("marks 20 to 35 are keys");
        };
        add_shared_parts(cases, file, fields);
        add_pairs_of_ids(cases, file, fields);
        add_moved_borders(cases, file, fields);
    }
    add_pairs(cases, 7, "Ordinal", &ORDINALS);
    add_pairs(cases, 8, "ExceptionDate", &DATES);
    add_many_ordinals(cases);
}

/// Each choice among the key's parts is shared with an earlier record; only a
/// record that shares all of them breaks the key.
fn add_shared_parts(cases: &mut Cases, table: usize, fields: &[&str]) {
    let base = cases.base.only(&[table]);
    let count = base.records(table).len();
    for choice in 1..1 << fields.len() {
        let shared: Vec<&str> =
            (0..fields.len()).filter(|i| choice >> i & 1 == 1).map(|i| fields[i]).collect();
        for at in places_from(1, count) {
            for from in 0..at {
                add_shared(cases, &base, table, (from, at), &shared);
            }
        }
    }
}

fn add_shared(
    cases: &mut Cases,
    base: &SetDraft,
    table: usize,
    (from, at): (usize, usize),
    shared: &[&str],
) {
    let source = &base.records(table)[from];
    let mut record = base.records(table)[at].clone();
    for name in shared {
        record = record.with_choice(name, source.value(name));
    }
    for style in 0..3 {
        let styled = restyled_ids(cases, table, &record, style);
        let mut set = base.clone();
        set.records_mut(table)[at] = styled;
        cases.judge_set(&set);
    }
}

/// The IDs as they are, in some case, or in some case and with escapes.
pub(super) fn restyled_ids(cases: &mut Cases, table: usize, record: &Draft, style: usize) -> Draft {
    let mut styled = record.clone();
    for field in fields_of(table).filter(|field| field.kind == Type::StringID) {
        let Some(value) = record.value(field.name) else {
            continue;
        };
        let value = match style {
            0 => value.to_vec(),
            1 => recased(value, &mut cases.random),
            _ => escaped(&recased(value, &mut cases.random), &mut cases.random),
        };
        styled = styled.with_value(field.name, &value);
    }
    styled
}

/// IDs that are one, and IDs that a careless comparison takes for one: A and a
/// are 0x20 apart, and so are others that don't fold.
const IDS: [&str; 24] = [
    r#""A""#,
    r#""a""#,
    r#""\u0041""#,
    r#""\u0061""#,
    r#""Z""#,
    r#""z""#,
    r#""@""#,
    r#""`""#,
    r#""[""#,
    r#""{""#,
    r#""^""#,
    r#""~""#,
    r#""AA""#,
    r#""aA""#,
    r#""A A""#,
    r#""/""#,
    r#""\/""#,
    r#""\\""#,
    r#""\u005c""#,
    r#""|""#,
    r#""\"""#,
    r#""!""#,
    r#""1""#,
    r#""\u0031""#,
];

/// Every two of the IDs as the key's part of two records alike in all others.
fn add_pairs_of_ids(cases: &mut Cases, table: usize, fields: &[&str]) {
    let is_id = |field: &&Field| field.kind == Type::StringID && fields.contains(&field.name);
    for field in fields_of(table).filter(is_id) {
        let ids = IDS.map(str::as_bytes);
        add_pairs(cases, table, field.name, &ids.map(Some));
    }
}

/// Every two of the values, either one first.
fn add_pairs(cases: &mut Cases, table: usize, name: &str, values: &[Option<&[u8]>]) {
    let record = cases.base.records(table)[0].clone();
    add_pairs_in(cases, table, &record, name, values);
}

/// Every two of the values in two records that are else like this one.
fn add_pairs_in(
    cases: &mut Cases,
    table: usize,
    record: &Draft,
    name: &str,
    values: &[Option<&[u8]>],
) {
    let base = cases.base.only(&[table]);
    for (index, first) in values.iter().enumerate() {
        for second in &values[index..] {
            let mut records = [record.with_choice(name, *first), record.with_choice(name, *second)];
            records.rotate_left(cases.random.below(2));
            cases.judge_set(&base.with_records(table, &records));
        }
    }
}

/// Keys that would be one if their parts were simply put together.
fn add_moved_borders(cases: &mut Cases, table: usize, fields: &[&str]) {
    let base = cases.base.only(&[table]);
    let record = base.records(table)[0].clone();
    let is_id =
        |name: &&&str| fields_of(table).any(|f| f.name == **name && f.kind == Type::StringID);
    let ids: Vec<&str> = fields.iter().filter(is_id).copied().collect();
    for pair in ids.windows(2) {
        let with = |first: &[u8], second: &[u8]| {
            record.with_value(pair[0], first).with_value(pair[1], second)
        };
        let records = [
            with(b"\"AB\"", b"\"C\""),
            with(b"\"A\"", b"\"BC\""),
            with(b"\"C\"", b"\"AB\""),
            with(b"\"a\"", b"\"bc\""),
        ];
        for count in 2..=records.len() {
            cases.judge_set(&base.with_records(table, &records[..count]));
        }
    }
}

const ORDINALS: [Option<&[u8]>; 28] = [
    None,
    Some(b"null"),
    Some(b"0"),
    Some(b"0.0"),
    Some(b"0e5"),
    Some(b"-0"),
    Some(b"-0.00E-3"),
    Some(b"1"),
    Some(b"1.0"),
    Some(b"10e-1"),
    Some(b"0.1e1"),
    Some(b"-1"),
    Some(b"-10E-1"),
    Some(b"10"),
    Some(b"1e1"),
    Some(b"999999999999999"),
    Some(b"-999999999999999"),
    Some(b"99999999999999e1"),
    Some(b"0e99"),
    Some(b"-0.0000000000000000E-99"),
    Some(b"1.0000000000000000"),
    Some(b"10000000000000000e-16"),
    Some(b"0.000000000000000010E+17"),
    Some(b"-1.00000000000000000000"),
    Some(b"10.0000000000000000"),
    Some(b"999999999999999.000"),
    Some(b"999999999999998.000"),
    Some(b"999999999999990"),
];

const DATES: [Option<&[u8]>; 14] = [
    Some(b"\"2020-01-11\""),
    Some(b"\"2020-11-01\""),
    Some(b"\"2020-11-11\""),
    Some(b"\"2020-01-12\""),
    Some(b"\"2021-01-11\""),
    Some(b"\"\\u00320\\u00320-01-11\""),
    Some(b"\"2020\\u002d01\\u002D11\""),
    Some(b"\"0001-01-01\""),
    Some(b"\"0010-01-01\""),
    Some(b"\"9999-12-31\""),
    Some(b"\"2000-02-29\""),
    Some(b"\"2000-03-01\""),
    Some(b"\"2000-02-28\""),
    Some(b"\"2000-0\\u0032-29\""),
];

/// More workshifts of one calendar, their Ordinals written in any form.
fn add_many_ordinals(cases: &mut Cases) {
    let base = cases.base.only(&[7]);
    let record = base.records(7)[0].clone();
    for _ in 0..200 {
        let count = 2 + cases.random.below(8);
        let records: Vec<Draft> = (0..count)
            .map(|_| record.with_choice("Ordinal", cases.random.pick(&ORDINALS)))
            .collect();
        cases.judge_set(&base.with_records(7, &records));
    }
}

/// Every two forms of a short Ordinal, before a comma and before the record's end.
pub(super) fn add_written_ordinals(cases: &mut Cases) {
    let record = cases.base.records(7)[0].clone();
    // A field that wasn't there becomes the last one.
    for record in [record.without("Ordinal"), record] {
        add_pairs_in(cases, 7, &record, "Ordinal", &SHORT_INTEGERS.map(Some));
    }
}

// ------------------------------------------------ in groups of a second ID

/// The tables whose keys start with two IDs.
const OF_TWO_IDS: [usize; 5] = [12, 13, 14, 18, 19];

/// Groups are of one to so many records.
const LARGEST_GROUP: usize = 12;

/// More groups than other tables have.
const MANY: usize = 30;

/// Few of their sizes, where all would be too many.
const SIZES: [usize; 5] = [1, 2, 3, 8, LARGEST_GROUP];

/// Where the second ID of a key never falls from one record to the next, no key
/// has to be compared with those of another group.
pub(super) fn add_all_groups(cases: &mut Cases) {
    for table in OF_TWO_IDS {
        add_groups(cases, table);
        add_restyled_in_groups(cases, table);
        add_groups_in_two_styles(cases, table);
        add_groups_apart(cases, table);
        add_one_out_of_order(cases, table);
        add_falling_groups(cases, table);
        add_one_group(cases, table);
        add_growing_groups(cases, table);
        add_two_repeated(cases, table);
        add_falling_as_compared(cases, table);
    }
    for table in [14, 19] {
        add_many_groups(cases, table);
    }
}

/// A key by numbers: of the record within its group, which has its first ID (and
/// its third), and of the group, which has the second.
type Row = [usize; 2];

/// Groups of these sizes, one behind the other. All have the same first IDs, in
/// no order.
fn groups(sizes: &[usize]) -> Vec<Row> {
    let group = |(number, size): (usize, &usize)| (0..*size).map(move |at| [mixed(at), number]);
    sizes.iter().enumerate().flat_map(group).collect()
}

/// Another number for each: every 13 of them in no order.
fn mixed(number: usize) -> usize {
    number / 13 * 13 + number % 13 * 5 % 13
}

fn records_of(table: usize, rows: &[Row]) -> Vec<Draft> {
    rows.iter().map(|row| record_of(table, *row)).collect()
}

/// Links differ in their predecessor, in their type, or in both.
fn record_of(table: usize, [first, second]: Row) -> Draft {
    let names = key_of(table);
    let record = short_record(table, 0).with_value(names[1], &second_id(table, second));
    match table {
        13 => record
            .with_value(names[0], &first_id(table, first))
            .with_value("ConstraintDate", b"\"2020-01-01\""),
        14 => record
            .with_value(names[0], &first_id(table, first / 4))
            .with_value(names[2], &value(Enumeration::TaskRelationshipType, first % 4)),
        _ => record.with_value(names[0], &first_id(table, first)),
    }
}

/// A task's, or a resource's in the tables that start with one.
fn first_id(table: usize, number: usize) -> Vec<u8> {
    let letter = if table < 18 { 'T' } else { 'R' };
    quoted(&format!("{letter}{number:03}"))
}

/// Of a custom field, a constraint or a task. It rises with the number.
fn second_id(table: usize, number: usize) -> Vec<u8> {
    match table {
        12 | 18 => quoted(&format!("FIELD_{:02}", number + 1)),
        13 => value(Enumeration::TaskConstraintType, number),
        _ => quoted(&format!("T{number:03}")),
    }
}

/// The value of that number, in the order of the alphabet.
fn value(enumeration: Enumeration, number: usize) -> Vec<u8> {
    let own = ENUMERATION_VALUES.iter().filter(|(of, _)| *of == enumeration);
    let mut values: Vec<&str> = own.map(|(_, value)| *value).collect();
    values.sort_unstable();
    quoted(values[number])
}

/// The records of these rows beside all that they name, as far as that has to be
/// there.
fn judge_rows(cases: &mut Cases, table: usize, rows: &[Row]) {
    let records = records_of(table, rows);
    cases.judge_set(&named_set(table, rows).with_records(table, &records));
}

/// Some parts of a key, and whether they have an escape in front; else they are
/// in lower case.
type OtherStyle = (&'static [usize], bool);

/// The same, but the records at these places have a part of their key written in
/// another way.
fn judge_restyled(cases: &mut Cases, table: usize, rows: &[Row], at: &[usize], style: OtherStyle) {
    let mut records = records_of(table, rows);
    for number in at {
        records[*number] = restyled_key(table, &records[*number], style);
    }
    cases.judge_set(&named_set(table, rows).with_records(table, &records));
}

fn restyled_key(table: usize, record: &Draft, (parts, with_escape): OtherStyle) -> Draft {
    let mut styled = record.clone();
    for part in parts {
        let name = key_of(table)[*part];
        let plain = record.value(name).expect("a key is given");
        let other = match with_escape {
            false => plain.to_ascii_lowercase(),
            true => [b"\"", &written(plain[1].into(), Style::LowerHex)[..], &plain[2..]].concat(),
        };
        styled = styled.with_value(name, &other);
    }
    styled
}

/// The tasks, resources and definitions that the rows name.
fn named_set(table: usize, rows: &[Row]) -> SetDraft {
    let most = |part: usize| rows.iter().map(|row| row[part] + 1).max().unwrap_or(0);
    let first_ids = (0..most(0)).map(|number| first_id(table, number)).collect();
    let second_ids: Vec<Vec<u8>> = (0..most(1)).map(|number| second_id(table, number)).collect();
    let named: Vec<(usize, Vec<Vec<u8>>)> = match table {
        12 => vec![(9, first_ids), (11, second_ids)],
        13 => vec![(9, first_ids)],
        // Predecessors and successors are both tasks, and four records share a predecessor.
        14 => {
            let tasks = most(0).div_ceil(4).max(most(1));
            vec![(9, (0..tasks).map(|number| first_id(table, number)).collect())]
        }
        18 => vec![(16, first_ids), (17, second_ids)],
        _ => vec![(16, first_ids), (9, second_ids)],
    };
    let with_ids = |set: SetDraft, (other, ids): (usize, Vec<Vec<u8>>)| {
        let record = |id: &Vec<u8>| short_record(other, 0).with_value(key_of(other)[0], id);
        set.with_records(other, &ids.iter().map(record).collect::<Vec<Draft>>())
    };
    named.into_iter().fold(SetDraft::empty(), with_ids)
}

/// Three groups of each size: no key repeated, and one in one of the groups at
/// each distance, from the group's first record on and up to its last.
fn add_groups(cases: &mut Cases, table: usize) {
    for size in 1..=LARGEST_GROUP {
        let rows = groups(&[size; 3]);
        judge_rows(cases, table, &rows);
        for distance in 1..size {
            let mut sources = vec![0, size - 1 - distance];
            sources.dedup();
            for from in sources {
                let first = (distance + from) % 3 * size;
                let mut repeated = rows.clone();
                repeated[first + from + distance] = rows[first + from];
                judge_rows(cases, table, &repeated);
            }
        }
    }
}

/// The repeated key has its first ID, its second or both written in another way.
fn add_restyled_in_groups(cases: &mut Cases, table: usize) {
    let styles: [OtherStyle; 5] =
        [(&[0], false), (&[1], false), (&[0, 1], false), (&[0], true), (&[1], true)];
    for distance in 1..LARGEST_GROUP {
        for style in styles {
            let first = LARGEST_GROUP + (LARGEST_GROUP - 1 - distance) / 2;
            let mut rows = groups(&[LARGEST_GROUP; 3]);
            rows[first + distance] = rows[first];
            judge_restyled(cases, table, &rows, &[first + distance], style);
        }
    }
}

/// The second IDs of a group are written in two ways by turns: no key repeated,
/// and the first of the last group.
fn add_groups_in_two_styles(cases: &mut Cases, table: usize) {
    for size in SIZES {
        let mut rows = groups(&[size; 3]);
        let odd: Vec<usize> = (0..rows.len()).filter(|at| at % 2 == 1).collect();
        let style = (&[1][..], size % 2 == 0);
        judge_restyled(cases, table, &rows, &odd, style);
        rows.push(rows[2 * size]);
        judge_restyled(cases, table, &rows, &odd, style);
    }
}

/// A group comes again behind another one, with other keys or with one of its own.
fn add_groups_apart(cases: &mut Cases, table: usize) {
    for size in SIZES {
        let mut rows = groups(&[size; 2]);
        rows.extend((size..2 * size).map(|at| [mixed(at), 0]));
        judge_rows(cases, table, &rows);
        let mut places = vec![(0, 0), (0, size - 1), (size - 1, size - 1)];
        places.dedup();
        for (from, to) in places {
            let mut repeated = rows.clone();
            repeated[2 * size + to] = rows[from];
            judge_rows(cases, table, &repeated);
            judge_restyled(cases, table, &repeated, &[2 * size + to], (&[0, 1], false));
        }
    }
}

/// Only the last record has a lower second ID than the one before it, or only the
/// first a higher one than that behind it: a new key, or one of that group.
fn add_one_out_of_order(cases: &mut Cases, table: usize) {
    for size in SIZES {
        let rows = groups(&[size; 3]);
        for last in [[mixed(size), 0], rows[0], rows[size - 1], rows[size]] {
            judge_rows(cases, table, &[&rows[..], &[last]].concat());
        }
        for first in [[mixed(size), 2], rows[2 * size]] {
            judge_rows(cases, table, &[&[first], &rows[..]].concat());
        }
    }
}

/// Every group has a lower second ID than the one before it.
fn add_falling_groups(cases: &mut Cases, table: usize) {
    for size in [2, 3, LARGEST_GROUP] {
        let mut rows = groups(&[size; 3]);
        rows.reverse();
        judge_rows(cases, table, &rows);
        rows[2 * size - 1] = rows[size];
        judge_rows(cases, table, &rows);
    }
}

/// All records have one second ID.
fn add_one_group(cases: &mut Cases, table: usize) {
    for size in [2, 3, 7, 8, 9, 12, 13, 16, 17, 32, 33, 64, 65] {
        let rows = groups(&[size]);
        judge_rows(cases, table, &rows);
        let mut sources = vec![0, size - 2];
        sources.dedup();
        for from in sources {
            let mut repeated = rows.clone();
            repeated[size - 1] = rows[from];
            judge_rows(cases, table, &repeated);
        }
    }
}

/// Groups of one record, of two, and so on; the last record of one repeats the
/// first.
fn add_growing_groups(cases: &mut Cases, table: usize) {
    let sizes: Vec<usize> = (1..=LARGEST_GROUP).collect();
    let rows = groups(&sizes);
    judge_rows(cases, table, &rows);
    let mut first = 1;
    for size in &sizes[1..] {
        let mut repeated = rows.clone();
        repeated[first + size - 1] = rows[first];
        judge_rows(cases, table, &repeated);
        first += size;
    }
}

/// Many groups: no key repeated, the first of the last group, and the first of all.
fn add_many_groups(cases: &mut Cases, table: usize) {
    for size in [8, LARGEST_GROUP] {
        let rows = groups(&[size; MANY]);
        judge_rows(cases, table, &rows);
        for from in [rows.len() - size, 0] {
            let mut repeated = rows.clone();
            repeated[rows.len() - 1] = rows[from];
            judge_rows(cases, table, &repeated);
        }
    }
}

/// Of two repeated keys the one counts that is repeated first, and of three
/// copies the first one is named.
fn add_two_repeated(cases: &mut Cases, table: usize) {
    for copies in [[(0, 5), (1, 3)], [(0, 3), (1, 5)], [(0, 2), (0, 5)]] {
        let mut rows = groups(&[6; 3]);
        for (from, to) in copies {
            rows[6 + to] = rows[6 + from];
        }
        judge_rows(cases, table, &rows);
    }
}

/// Second IDs of which the first and the last are one. They never fall by their
/// bytes as written, or by their first eight, or by as many as the shorter one
/// has, or by their sums; they do as they are compared.
const FALLING_AS_COMPARED: [[&str; 3]; 10] = [
    [r#""A""#, r#""[""#, r#""a""#],
    [r#""Z""#, r#""_""#, r#""z""#],
    [r#""TA""#, r#""T\\""#, r#""Ta""#],
    [r#""B""#, r#""\u0061""#, r#""b""#],
    [r#""\u0042""#, r#""a""#, r#""b""#],
    [r#""T/2""#, r#""T\/1""#, r#""T\/2""#],
    [r#""MOORING-1""#, r#""MOORING-2""#, r#""MOORING-1""#],
    [r#""Mooring-1""#, r#""mooring-10""#, r#""mooring-1""#],
    [r#""T1""#, r#""T1A""#, r#""T1""#],
    [r#""b[""#, r#""az""#, r#""b[""#],
];

/// The first and the last record have one key, or only its second ID.
fn add_falling_as_compared(cases: &mut Cases, table: usize) {
    for ids in FALLING_AS_COMPARED {
        for last in [0, 4] {
            let mut records = records_of(table, &[[0, 0], [0, 0], [last, 0]]);
            for (record, id) in records.iter_mut().zip(ids) {
                *record = record.with_value(key_of(table)[1], id.as_bytes());
            }
            cases.judge_set(&SetDraft::empty().with_records(table, &records));
        }
    }
}

#[cfg(test)]
mod tests {
    use std::collections::BTreeSet;

    use super::*;
    use crate::board::{broken_at, Mark, HOLDS};
    use crate::compare::random::Random;
    use crate::gate::judge;

    /// The table's own key marks in the cases that are added so.
    fn marks(table: usize, add: fn(&mut Cases, usize)) -> Vec<Mark> {
        let random = Random::new(1);
        let mut cases = Cases { list: Vec::new(), random, base: SetDraft::accepted() };
        add(&mut cases, table);
        cases.list.iter().map(|case| judge(&case.bundle).board.marks[table + 16]).collect()
    }

    fn holding(marks: &[Mark]) -> usize {
        marks.iter().filter(|mark| **mark == HOLDS).count()
    }

    #[test]
    fn second_ids_rise() {
        for table in OF_TWO_IDS {
            let most = if table == 14 || table == 19 { MANY } else { LARGEST_GROUP };
            let ids: Vec<Vec<u8>> = (0..most).map(|number| second_id(table, number)).collect();
            assert!(ids.windows(2).all(|pair| pair[0] < pair[1]));
        }
        let numbers: BTreeSet<usize> = (0..65).map(mixed).collect();
        assert_eq!(numbers, (0..65).collect());
    }

    #[test]
    fn a_key_is_repeated_at_each_distance() {
        for table in OF_TWO_IDS {
            let marks = marks(table, add_groups);
            assert_eq!((holding(&marks), marks.len()), (12, 12 + 66 + 55));
            let broken = marks.iter().filter(|mark| mark.kind == 1);
            let distances: BTreeSet<u32> = broken.map(|mark| mark.place - mark.companion).collect();
            assert_eq!(distances, (1..=11).collect());
        }
    }

    #[test]
    fn another_writing_repeats_a_key_too() {
        for table in OF_TWO_IDS {
            let marks = marks(table, add_restyled_in_groups);
            assert_eq!((holding(&marks), marks.len()), (0, 11 * 5));
            assert!(marks.iter().all(|mark| mark.kind == 1));
        }
    }

    #[test]
    fn groups_hold_and_are_broken() {
        for table in OF_TWO_IDS {
            let counts = |add| {
                let marks = marks(table, add);
                assert!(marks.iter().all(|mark| mark.kind < 2));
                (holding(&marks), marks.len())
            };
            assert_eq!(counts(add_groups_in_two_styles), (5, 10));
            assert_eq!(counts(add_groups_apart), (5, 5 + 2 + 4 * 6));
            assert_eq!(counts(add_one_out_of_order), (10, 30));
            assert_eq!(counts(add_falling_groups), (3, 6));
            assert_eq!(counts(add_one_group), (13, 13 * 3 - 1));
            assert_eq!(counts(add_growing_groups), (1, 12));
            assert_eq!(counts(add_falling_as_compared), (10, 20));
        }
    }

    #[test]
    fn many_groups_hold_and_are_broken() {
        for table in [14, 19] {
            let [eight, twelve] = [8, 12].map(|size| size * MANY);
            let expected = [
                HOLDS,
                broken_at(eight, eight - 7),
                broken_at(eight, 1),
                HOLDS,
                broken_at(twelve, twelve - 11),
                broken_at(twelve, 1),
            ];
            assert_eq!(marks(table, add_many_groups), expected);
        }
    }

    #[test]
    fn the_first_repeated_key_counts() {
        let expected = [broken_at(10, 8), broken_at(10, 7), broken_at(9, 7)];
        assert!(OF_TWO_IDS.iter().all(|table| marks(*table, add_two_repeated) == expected));
    }

    /// What the rows name is there, so that no target is missing.
    #[test]
    fn targets_are_there() {
        for table in OF_TWO_IDS {
            let rows = groups(&[4; 5]);
            let set = named_set(table, &rows).with_records(table, &records_of(table, &rows));
            let board = judge(&set.bundle()).board;
            assert!((48..=64).all(|mark| board.marks[mark] == HOLDS), "file {table}");
            assert!((20..=35).all(|mark| board.marks[mark] == HOLDS), "file {table}");
        }
    }
}
