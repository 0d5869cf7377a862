//! Records of good values, to be changed one by one.

use super::values::good_value;
use crate::fields::fields_of;

pub(super) use crate::compare::draft::{
    closing, file_tokens, quoted, random_gap, spaced, text, unclosed, Draft, Token, FOUR_SPACES,
};

impl Draft {
    /// Every field, with values that vary with the number.
    pub fn full(table: usize, number: usize) -> Draft {
        let mut draft = Draft::default();
        for (index, field) in fields_of(table).enumerate() {
            draft.push(&quoted(field.name), good_value(field.kind, number + index));
        }
        draft
    }

    /// Only the fields that can't be null.
    pub fn least(table: usize, number: usize) -> Draft {
        let mut draft = Draft::default();
        for (index, field) in fields_of(table).enumerate().filter(|(_, field)| !field.nullable) {
            draft.push(&quoted(field.name), good_value(field.kind, number + index));
        }
        draft
    }
}
