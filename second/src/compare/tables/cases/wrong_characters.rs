//! Which string rule is broken and where, in each field that has one, and
//! numbers that aren't whole in each Integer field (order 4).

use super::kinds::add_value_in_field;
use super::Cases;
use crate::compare::wrong_characters::{has_string_rule, EXAMPLES};
use crate::fields::{Type, FIELDS};

pub(super) fn add(cases: &mut Cases) {
    for field in &FIELDS {
        if has_string_rule(field.kind) {
            for example in &EXAMPLES {
                add_value_in_field(cases, field, &example.quoted());
            }
        }
        if field.kind == Type::Integer {
            for (value, _) in IN_INTEGER {
                add_value_in_field(cases, field, value);
            }
        }
    }
}

/// Values of an Integer field and their kinds: 34 if not whole, 15 if no number.
const IN_INTEGER: [(&[u8], u32); 28] = [
    (b"0.5", 34),
    (b"-0.5", 34),
    (b"5e-1", 34),
    (b"1.5", 34),
    (b"15E-1", 34),
    (b"0.50", 34),
    (b"100000000000001e-14", 34),
    (b"99999999999999.9", 34),
    (b"1e-15", 34),
    (b"-0.999999999999999", 34),
    (b"70000000000000000e-17", 34),
    (b"10e-1", 0),
    (b"1.0", 0),
    (b"-0.000", 0),
    (b"70000000000000000e-16", 0),
    (b"1e-16", 18),
    (b"0.5e-15", 18),
    (b"1e15", 18),
    (b"999999999999999.5", 18),
    (b"\"x\"", 15),
    (b"\"0.5\"", 15),
    (b"\"\"", 15),
    (b"\"\\u0000\"", 15),
    (b"\" \"", 15),
    (b"true", 15),
    (b"[0.5]", 15),
    (b"{", 15),
    (b"0.5.5", 34),
];

#[cfg(test)]
mod tests {
    use super::*;
    use crate::compare::draft::{text, Draft};
    use crate::fields::Field;
    use crate::table::read_file;

    /// The kind and place of the file in which a field has that value, and the
    /// place of the value.
    fn mark_of(field: &Field, value: &[u8]) -> (u32, usize, usize) {
        let record = Draft::least(field.table, 0).with_value(field.name, value);
        let file = text(field.table, &[record]);
        let member = [b"\"", field.name.as_bytes(), b"\":"].concat();
        let at = file.windows(member.len()).position(|part| part == member).unwrap();
        let (kind, place) = match read_file(field.table, Some(&file)) {
            Ok(_) => (0, 0),
            Err(mark) => (mark.kind, mark.place as usize),
        };
        (kind, place, at + member.len())
    }

    #[test]
    fn every_field_with_a_string_rule_takes_the_examples_as_they_say() {
        for field in FIELDS.iter().filter(|field| has_string_rule(field.kind)) {
            for example in EXAMPLES.iter().filter(|example| !example.inner.is_empty()) {
                let (kind, place, value) = mark_of(field, &example.quoted());
                let shown = String::from_utf8_lossy(example.inner);
                match example.wrong(field.kind) {
                    None => assert_eq!(kind, 0, "{} {shown}", field.name),
                    Some((wrong, at)) => {
                        assert_eq!((kind, place), (wrong, value + 1 + at), "{} {shown}", field.name)
                    }
                }
            }
        }
    }

    /// At the first byte of the value, all of them.
    #[test]
    fn every_integer_field_takes_the_values_as_they_say() {
        for field in FIELDS.iter().filter(|field| field.kind == Type::Integer) {
            for (written, expected) in IN_INTEGER {
                let (kind, place, value) = mark_of(field, written);
                let at = if expected == 0 { 0 } else { value };
                let shown = String::from_utf8_lossy(written);
                assert_eq!((kind, place), (expected, at), "{} {shown}", field.name);
            }
        }
    }
}
