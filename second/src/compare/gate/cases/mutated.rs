//! The accepted set changed at random in few places or many, and sets whose
//! tables are random altogether, written in any style.

use super::random_tables::{
    random_null, random_outline, random_record, random_records, random_value,
};
use super::Cases;
use crate::bundle::FILES;
use crate::compare::draft::Draft;
use crate::compare::gate::set_draft::{FileDraft, SetDraft};
use crate::compare::gate::styles::{restyled, shuffle};
use crate::compare::random::Random;
use crate::fields::{fields_of, Field};
use crate::table::is_singleton;

const SETS: usize = 6_000;

pub(super) fn add(cases: &mut Cases) {
    let base = cases.base.clone();
    for round in 0..SETS {
        let set = random_set(&base, round, &mut cases.random);
        cases.judge_set(&set);
    }
}

/// Of one of four sorts, by the round.
pub(in crate::compare) fn random_set(
    base: &SetDraft,
    round: usize,
    random: &mut Random,
) -> SetDraft {
    let mut set = match round % 4 {
        0 => mutated(base, 1 + random.below(3), random),
        1 => mutated(base, 4 + random.below(12), random),
        2 => with_random_tables(base, 2, 3, random),
        _ => with_random_tables(base, 19, 5, random),
    };
    if random.below(8) == 0 {
        omit_some(&mut set, random);
    }
    if random.below(3) == 0 {
        set = restyled(&set, random);
    }
    if random.below(10) == 0 {
        damage(&mut set, random);
    }
    set
}

/// The set with so many small changes.
fn mutated(base: &SetDraft, count: usize, random: &mut Random) -> SetDraft {
    let mut set = base.clone();
    for _ in 0..count {
        let table = 1 + random.below(FILES - 1);
        let records = set.records_mut(table);
        mutate_records(table, records, random);
    }
    set
}

/// One small change of a table: of its records, or of a field of one.
pub(super) fn mutate_records(table: usize, records: &mut Vec<Draft>, random: &mut Random) {
    if is_singleton(table) || (!records.is_empty() && random.below(3) > 0) {
        let at = random.below(records.len());
        records[at] = with_mutated_field(table, &records[at], random);
        return;
    }
    let at = random.below(records.len() + 1);
    match random.below(5) {
        0 if at < records.len() => drop(records.remove(at)),
        1 if at < records.len() => records.insert(random.below(at + 1), records[at].clone()),
        2 => shuffle(records, random),
        3 if table == 15 => *records = random_outline(records.len(), random),
        _ => records.insert(at, random_record(table, random)),
    }
}

/// A field taken away, made null, or given another value.
fn with_mutated_field(table: usize, record: &Draft, random: &mut Random) -> Draft {
    let fields: Vec<&Field> = fields_of(table).collect();
    let field = random.pick(&fields);
    match random.below(8) {
        0 if field.nullable => record.without(field.name),
        1 if field.nullable => record.with_value(field.name, random_null(field.kind, random)),
        _ => record.with_value(field.name, &random_value(field, random)),
    }
}

/// About so many of the tables are random, with up to so many records.
fn with_random_tables(
    base: &SetDraft,
    tables: usize,
    most: usize,
    random: &mut Random,
) -> SetDraft {
    let mut set = base.clone();
    for table in 1..FILES {
        if random.below(FILES - 1) < tables {
            set.files[table] = FileDraft::of_records(random_records(table, most, random));
        }
    }
    set
}

fn omit_some(set: &mut SetDraft, random: &mut Random) {
    let often = random.pick(&[2, 6, 12]);
    for file in &mut set.files {
        if random.below(often) == 0 {
            *file = FileDraft::Omitted;
        }
    }
}

/// One file with a byte changed, taken out or put in, or cut short.
fn damage(set: &mut SetDraft, random: &mut Random) {
    let number = random.below(FILES);
    if let Some(bytes) = set.bytes(number) {
        set.files[number] = FileDraft::Bytes(damaged(&bytes, random));
    }
}

pub(in crate::compare) fn damaged(bytes: &[u8], random: &mut Random) -> Vec<u8> {
    let mut bytes = bytes.to_vec();
    if bytes.is_empty() {
        return bytes;
    }
    let at = random.below(bytes.len());
    let byte = random.pick(b"\"\\{}[],: 0e-.xuA\x00\x1F\x7F\x80\xC3\xED\xFF");
    match random.below(4) {
        0 => bytes.truncate(at),
        1 => bytes[at] = byte,
        2 => bytes.insert(at, byte),
        _ => drop(bytes.remove(at)),
    }
    bytes
}
