//! The reading of one file of a set: its own mark, the number of its records,
//! and where each value stands.

use std::collections::BTreeSet;

use crate::fields::{fields_of, Type};
use crate::table::is_singleton;

pub mod case;
pub mod cases;
mod sights;
pub mod standing;

/// Until order 4 the kind of every broken string rule; no mark has it since.
pub const GIVEN_NO_MORE: u32 = 16;

/// The kinds whose mark has the number of the record as its companion; all
/// others of a file have 0 (order 5).
pub fn names_its_record(kind: u32) -> bool {
    (13..=18).contains(&kind) || (30..=34).contains(&kind)
}

/// The kinds of a fault that can stand in a record, or in the place of one. The
/// others are of a whole file, or of one record too many.
pub fn stands_in_record(kind: u32) -> bool {
    (10..=19).contains(&kind) || (30..=34).contains(&kind)
}

/// The kinds that the mark of that file can have, 0 among them.
pub fn possible_kinds(number: usize) -> BTreeSet<u32> {
    if number == 0 {
        return BTreeSet::from([0, 21, 22]);
    }
    let has_type = |types: &[Type]| fields_of(number).any(|field| types.contains(&field.kind));
    let mut kinds: BTreeSet<u32> = (10..=15).chain([0]).collect();
    let others = [
        (17, has_type(&[Type::Date])),
        (18, has_type(&[Type::Decimal, Type::Integer])),
        (19, fields_of(number).any(|field| !field.nullable)),
        // 4,096 records of file 10 are longer than a file may be.
        (20, !is_singleton(number) && number != 10),
        (21, [1, 3].contains(&number)),
        (30, has_type(&[Type::String, Type::StringID, Type::Text])),
        (31, has_type(&[Type::String, Type::StringID])),
        (32, has_type(&[Type::StringID])),
        // In a StringID half a pair is outside the ID set as well: 32.
        (33, has_type(&[Type::String, Type::Text])),
        (34, has_type(&[Type::Integer])),
    ];
    kinds.extend(others.iter().filter(|(_, possible)| *possible).map(|(kind, _)| kind));
    kinds
}
