//! Values as they may be written in a field: good ones, and others.

use crate::fields::Type;

const BOOLEANS: [&[u8]; 2] = [b"true", b"false"];

const DATES: [&[u8]; 5] = [
    b"\"2016-01-31\"",
    b"\"2000-02-29\"",
    b"\"0001-01-01\"",
    b"\"9999-12-31\"",
    b"\"\\u00320\\u00320\\u002d02-29\"",
];

const DECIMALS: [&[u8]; 18] = [
    b"0",
    b"8",
    b"-0",
    b"7.5",
    b"-1e-15",
    b"999999999999999",
    b"1E15",
    b"0.000000000000001",
    b"-0.0e0",
    b"12.50e+3",
    b"-999999999999999e15",
    b"0E-15",
    b"8.0000000000000000",
    b"1000000000000000",
    b"0e99",
    b"-0.0000000000000010",
    b"9999999999999990E-16",
    b"-0.000e-99999999999999999999",
];

const INTEGERS: [&[u8]; 14] = [
    b"1",
    b"0",
    b"-1",
    b"10e-1",
    b"2.0",
    b"999999999999999",
    b"-999999999999999",
    b"0e15",
    b"-0.000",
    b"1200E-2",
    b"1.0000000000000000",
    b"20000000000000000e-16",
    b"0E+99",
    b"-999999999999999.00",
];

const IDS: [&[u8]; 8] = [
    b"\"A\"",
    b"\"T1\"",
    b"\"eng-01 ~!\"",
    b"\"\\u0041\"",
    b"\"\\\"\\\\\\/\"",
    b"\"a b c\"",
    b"\"{[,:]}\"",
    b"\"\\u007E\\u0020x\"",
];

const STRINGS: [&[u8]; 11] = [
    b"\"N\"",
    b"\"Two words\"",
    b"\"\xC3\xA9\"",
    b"\"\\u00e9\\uD83D\\uDE00\"",
    b"\"\xF0\x9F\x98\x80 \xE2\x82\xAC\"",
    b"\"\\\\\"",
    b"\"\xC2\xA1\"",
    b"\"null\"",
    b"\"\\u0086\\uFFFF\"",
    b"\"\xE2\x80\x8BA \\u180e\"",
    b"\"\\uD808\\uDC00\xEF\xBB\xBF\"",
];

const TEXTS: [&[u8]; 11] = [
    b"\"Remark\"",
    b"\" \"",
    b"\"two  spaces \"",
    b"\"\\t\\n\\r\"",
    b"\"\\u0009\\u000a\\u000D\\u0020\"",
    b"\"\xC3\xA9\xE2\x82\xAC\xF0\x9F\x98\x80\"",
    b"\"\\uD83D\\uDE00\"",
    b"\"\xC2\xA0\\u2028\xE3\x80\x80\"",
    b"\"\\u0085 \\u205F\"",
    b"\"\\\"},{\\\"ID\\\":\"",
    b"\"]\"",
];

/// All good values of a type; none of them is null.
pub(super) fn good_values(kind: Type) -> &'static [&'static [u8]] {
    match kind {
        Type::Boolean => &BOOLEANS,
        Type::Date => &DATES,
        Type::Decimal => &DECIMALS,
        Type::Integer => &INTEGERS,
        Type::String => &STRINGS,
        Type::StringID => &IDS,
        Type::Text => &TEXTS,
    }
}

/// One of the good values, the short ones first.
pub(super) fn good_value(kind: Type, number: usize) -> &'static [u8] {
    let values = good_values(kind);
    values[number % values.len()]
}

pub(super) fn may_be_empty(kind: Type) -> bool {
    matches!(kind, Type::String | Type::StringID | Type::Text)
}

/// Every JSON kind, good and bad, and what is no JSON.
pub(super) const VALUES: [&[u8]; 122] = [
    // Strings: read whole, of which some are good for some type.
    b"\"\"",
    b"\"A\"",
    b"\" \"",
    b"\"A  B\"",
    b"\" A\"",
    b"\"A \"",
    b"\"A\\tB\"",
    b"\"\\r\\n\"",
    b"\"\xC3\xA9\"",
    b"\"\xC2\xA0A\"",
    b"\"A\xC2\xA0B\"",
    b"\"A\\u00a0\"",
    b"\"\\u00A0\"",
    b"\"A \xE2\x80\xA8B\"",
    b"\"A\\u3000\"",
    b"\"\xC2\x85A\"",
    b"\"A\xE2\x80\x8BB\"",
    b"\"\\uD80C\\uDC00\"",
    b"\"\\u00e9\"",
    b"\"\\u0000\"",
    b"\"A\\u001F\"",
    b"\"\\b\\f\"",
    b"\"\\u007f\"",
    b"\"\x7F\"",
    b"\"\\uD800\"",
    b"\"\\uDC00\\uD800\"",
    b"\"\\uD83D\\uDE00\"",
    b"\"\xF0\x9F\x98\x80\"",
    b"\"2016-01-31\"",
    b"\"\\u0032016-01-31\"",
    b"\"1900-02-29\"",
    b"\"2016-01-31 \"",
    b"\"2016-1-31\"",
    b"\"0000-01-01\"",
    b"\"true\"",
    b"\"12\"",
    b"\"null\"",
    // Strings that aren't read whole.
    b"\"A",
    b"\"A\\",
    b"\"\\x\"",
    b"\"\\u12G4\"",
    b"\"\\uD800\\u\"",
    b"\"A\nB\"",
    b"\"\x00\"",
    b"\"\xFF\"",
    b"\"\xC3\"",
    b"\"\xED\xA0\x80\"",
    b"\"\xC0\x80\"",
    b"\"\xF4\x90\x80\x80\"",
    b"\"\xE2\x82\"",
    // Numbers.
    b"0",
    b"-0",
    b"1",
    b"-1",
    b"12.5",
    b"10e-1",
    b"0.5",
    b"5e-1",
    b"1.0",
    b"1e15",
    b"1e16",
    b"1e-15",
    b"1e-16",
    b"0e16",
    b"0e99",
    b"-0.000e-99",
    b"0.5e-15",
    b"0.50e-14",
    b"0.5e16",
    b"999999999999999",
    b"-999999999999999",
    b"1000000000000000",
    b"10000000000000000",
    b"1000000000000001",
    b"1000000000000000e-16",
    b"10000000000000010e-16",
    b"100000000000000e1",
    b"10e14",
    b"10e15",
    b"8.0000000000000000",
    b"0.0000000000000010",
    b"0.00000000000000010",
    b"1e99999999999999999999",
    b"1E+2",
    // Numbers that end early, or are none.
    b"01",
    b"-01",
    b"1.",
    b"1.e1",
    b"1e",
    b"1e+",
    b"-",
    b"+1",
    b".5",
    b"1.2.3",
    b"0x10",
    b"1 2",
    b"NaN",
    b"-Infinity",
    // Literals, and words near them.
    b"true",
    b"false",
    b"null",
    b"True",
    b"NULL",
    b"tru",
    b"fals",
    b"nulL",
    b"nullx",
    b"truefalse",
    // Arrays, objects, and single bytes of them.
    b"[]",
    b"{}",
    b"[1]",
    b"{\"ID\":1}",
    b"[",
    b"{",
    b"]",
    b"}",
    // What begins no value.
    b"",
    b",",
    b":",
    b"x",
    b"\xEF\xBB\xBF1",
    b"\x00",
];

#[cfg(test)]
mod tests {
    use super::*;
    use crate::compare::draft::{text, Draft};
    use crate::fields::FIELDS;
    use crate::table::read_file;

    #[test]
    fn every_field_takes_the_good_values_of_its_type() {
        for field in &FIELDS {
            for value in good_values(field.kind) {
                let record = Draft::least(field.table, 0).with_value(field.name, value);
                let reading = read_file(field.table, Some(&text(field.table, &[record])));
                let shown = String::from_utf8_lossy(value);
                assert!(reading.is_ok(), "{} {shown}", field.name);
            }
        }
    }
}
