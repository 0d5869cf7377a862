//! Each kind of fault at the first, a middle and the last record and field,
//! and each field against every JSON kind.

use super::draft::{closing, unclosed, Draft};
use super::values::{good_value, may_be_empty, VALUES};
use super::{joined, record_places, tables, Cases};
use crate::fields::{fields_of, Field, FIELDS};

pub(super) fn add(cases: &mut Cases) {
    for field in &FIELDS {
        for value in VALUES {
            add_value_in_field(cases, field, value);
        }
    }
    for table in tables() {
        for at in 0..record_places(table) {
            add_values_at_places(cases, table, at);
            add_names_at_places(cases, table, at);
            add_missing_values(cases, table, at);
        }
        add_other_elements_at_places(cases, table);
        add_two_faults(cases, table);
    }
}

/// The field is the last of few, or one of all.
pub(super) fn add_value_in_field(cases: &mut Cases, field: &Field, value: &[u8]) {
    let number = cases.random.below(50);
    let base = match cases.random.below(4) {
        0 => Draft::full(field.table, number),
        _ => Draft::least(field.table, number),
    };
    cases.somewhere(field.table, &base.with_value(field.name, value));
}

/// Values that give kinds 10, 11, 15, 17 to 19 and 30 to 34 in some field.
const SPOILT: [&[u8]; 39] = [
    b"\"A\xFF\"",
    b"\"\xC3\"",
    b"\"\xED\xA0\x80\"",
    b"\"\\q\"",
    b"\"A\x1F\"",
    b"\"A",
    b"tru",
    b"-",
    b"1.",
    b"",
    b"x",
    b"[",
    b"{",
    b"true",
    b"1",
    b"0.5",
    b"\"A\"",
    b"\"\\u0000\"",
    b"\" A\"",
    b"\"A  B\"",
    b"\"A\\n\"",
    b"\"A\xC2\xA0B\"",
    b"\"\\u3000\"",
    b"\"\\uD800\"",
    b"\"A\x7F\"",
    b"\"A\\u0020 B\"",
    b"\"\xF0\x9F\x98\x80 \"",
    b"\"\xC3\xA9\"",
    b"\"2016-02-30\"",
    b"\"2016-01-31\"",
    b"1e16",
    b"1e-16",
    b"10e15",
    b"1000000000000001",
    b"1000000000000000",
    b"999999999999999e1",
    b"null",
    b"\"\"",
    b"0",
];

fn add_values_at_places(cases: &mut Cases, table: usize, at: usize) {
    let full = Draft::full(table, at);
    for place in full.places() {
        for value in SPOILT {
            let mut draft = full.clone();
            draft.members[place].value = value.to_vec();
            cases.among_others(table, &draft, at);
        }
    }
}

/// Names that give kinds 10, 11, 13 and 14, and no name at all.
fn add_names_at_places(cases: &mut Cases, table: usize, at: usize) {
    let full = Draft::full(table, at);
    for place in full.places() {
        let right = &full.members[place].name;
        let inner = &right[1..right.len() - 1];
        let names: [Vec<u8>; 12] = [
            joined(&[b"\"", inner, b"\xFF\""]),
            joined(&[b"\"\xE2\x82", inner, b"\""]),
            joined(&[b"\"", inner, b"\\x\""]),
            joined(&[b"\"", inner, b"\n\""]),
            joined(&[b"\"", inner, b"x\""]),
            right.to_ascii_lowercase(),
            full.members[0].name.clone(),
            full.members[full.members.len() - 1].name.clone(),
            inner.to_vec(),
            b"\"\"".to_vec(),
            b"null".to_vec(),
            b"".to_vec(),
        ];
        for name in &names {
            cases.among_others(table, &full.with_name(place, name), at);
            cases.among_others(table, &full.with_member(place, name, b"null"), at);
        }
    }
}

/// Each field that can't be null: absent, null or empty, alone or with all the
/// others of its kind.
fn add_missing_values(cases: &mut Cases, table: usize, at: usize) {
    let least = Draft::least(table, at);
    let full = Draft::full(table, at);
    for field in fields_of(table).filter(|field| !field.nullable) {
        for draft in [&least, &full] {
            cases.among_others(table, &draft.without(field.name), at);
            cases.among_others(table, &draft.with_value(field.name, b"null"), at);
            if may_be_empty(field.kind) {
                cases.among_others(table, &draft.with_value(field.name, b"\"\""), at);
            }
        }
        add_alone(cases, field, at);
    }
    cases.among_others(table, &Draft::default(), at);
    cases.among_others(table, &full.all_null(), at);
}

/// The field is the only one that is there, or that isn't null.
fn add_alone(cases: &mut Cases, field: &Field, at: usize) {
    let value = good_value(field.kind, at);
    cases.among_others(field.table, &Draft::default().with_value(field.name, value), at);
    let nulls = Draft::least(field.table, at).all_null();
    cases.among_others(field.table, &nulls.with_value(field.name, value), at);
}

/// An element that is no object, first, in the middle and last; a singleton
/// takes no element at all.
fn add_other_elements_at_places(cases: &mut Cases, table: usize) {
    let others: [&[u8]; 12] = [
        b"[]",
        b"[",
        b"1",
        b"-1.5e3",
        b"\"A\"",
        b"\"\"",
        b"true",
        b"false",
        b"null",
        b"x",
        b"\"\xFF\"",
        b"nul",
    ];
    let record = Draft::least(table, 0).text();
    for other in others {
        for at in 0..3 {
            let mut elements: [&[u8]; 3] = [&record; 3];
            elements[at] = other;
            cases.file(table, &joined(&[b"[", &elements.join(&b","[..]), b"]"]));
        }
    }
}

/// The first of two faults is the mark, also if the second one is of a lower
/// kind or in an earlier field of the table.
fn add_two_faults(cases: &mut Cases, table: usize) {
    for _ in 0..60 {
        let mut drafts: Vec<Draft> =
            (0..record_places(table)).map(|number| Draft::full(table, number)).collect();
        for _ in 0..2 {
            let at = cases.random.below(drafts.len());
            let place = cases.random.below(drafts[at].members.len());
            drafts[at].members[place].value = cases.random.pick(&SPOILT).to_vec();
        }
        cases.records(table, &drafts);
    }
    add_faults_across_the_end(cases, table);
}

/// A missing value is a fault of the closing brace, so what stands before it
/// comes first and what follows it comes later.
fn add_faults_across_the_end(cases: &mut Cases, table: usize) {
    let Some(field) = fields_of(table).find(|field| !field.nullable) else {
        return;
    };
    let lacking = unclosed(table, &Draft::full(table, 0).without(field.name));
    for more in [&b"x"[..], b",", b" ]", b"[]"] {
        cases.file(table, &joined(&[&lacking, closing(table), more]));
    }
    for inner in [&b","[..], b" ", b"x", b",\"x\"", b",\"\xFF\"", b",\"\":1", b"]"] {
        cases.file(table, &joined(&[&lacking, inner, closing(table)]));
    }
}

// ------------------------------------------------- fields that are missing

/// What a record lacks may be told from all its fields at once.
pub(super) fn add_all_missing(cases: &mut Cases) {
    for table in tables() {
        let required: Vec<&Field> = fields_of(table).filter(|field| !field.nullable).collect();
        for (index, field) in required.iter().enumerate() {
            add_missing_beside_full(cases, field);
            for other in &required[index + 1..] {
                add_two_missing(cases, field, other);
            }
        }
    }
}

/// A record of few fields, and one of all where that is another.
fn few_and_all(table: usize) -> Vec<Draft> {
    let mut drafts = vec![Draft::least(table, 0), Draft::full(table, 0)];
    drafts.dedup_by_key(|draft| draft.members.len());
    drafts
}

/// The field is absent, null or empty.
fn lacking(draft: &Draft, field: &Field) -> Vec<Draft> {
    let mut drafts = vec![draft.without(field.name), draft.with_value(field.name, b"null")];
    if may_be_empty(field.kind) {
        drafts.push(draft.with_value(field.name, b"\"\""));
    }
    drafts
}

/// One record lacks the field, and the one behind or before it has every field;
/// the names of the lacking one stand in the table's order or in reverse.
fn add_missing_beside_full(cases: &mut Cases, field: &Field) {
    let table = field.table;
    let other = Draft::full(table, 1);
    for draft in few_and_all(table) {
        for mut lacking in lacking(&draft, field) {
            cases.records(table, &[lacking.clone(), other.clone()]);
            lacking.members.reverse();
            cases.records(table, &[lacking.clone(), other.clone()]);
            if record_places(table) > 1 {
                cases.records(table, &[other.clone(), lacking.clone()]);
                lacking.members.reverse();
                cases.records(table, &[other.clone(), lacking]);
            }
        }
    }
}

/// Two fields are missing at once, each absent or null, in the first and in the
/// second record, with few of the others or all.
fn add_two_missing(cases: &mut Cases, field: &Field, other: &Field) {
    let table = field.table;
    for draft in few_and_all(table) {
        let null = draft.with_value(field.name, b"null");
        let drafts = [
            draft.without(field.name).without(other.name),
            draft.without(field.name).with_value(other.name, b"null"),
            null.without(other.name),
            null.with_value(other.name, b"null"),
        ];
        for lacking in drafts {
            for at in 0..record_places(table).min(2) {
                cases.among_others(table, &lacking, at);
            }
        }
    }
}

#[cfg(test)]
mod tests {
    use super::*;
    use crate::compare::random::Random;
    use crate::compare::tables::case::TableCase;
    use crate::table::read_file;

    /// What is missing is the only fault of these files.
    #[test]
    fn each_lacks_a_value() {
        let mut cases = Cases { list: Vec::new(), random: Random::new(1) };
        add_all_missing(&mut cases);
        for TableCase { number, contents } in &cases.list {
            let mark = read_file(*number as usize, contents.as_deref()).unwrap_err();
            assert_eq!(mark.kind, 19, "{}", String::from_utf8_lossy(contents.as_deref().unwrap()));
        }
        let is_of_table = |case: &&TableCase| case.number == 19;
        // Two fields: each absent, null and empty, and one pair of them.
        assert_eq!(cases.list.iter().filter(is_of_table).count(), 2 * 2 * 3 * 4 + 2 * 4 * 2);
    }
}
