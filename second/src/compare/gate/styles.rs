//! Other ways to write the same thing: IDs in another case, characters as
//! escapes, numbers with a point or an exponent, members in any order, spaces.

use super::set_draft::{FileDraft, SetDraft};
use crate::compare::cases::{written, Style, STYLES};
use crate::compare::draft::{file_tokens, random_gap, spaced, Draft, Member};
use crate::compare::random::Random;
use crate::fields::{fields_of, Type};
use crate::json::decoded_codes;

/// The set with each table written in another way, by which no mark changes.
pub(in crate::compare) fn restyled(set: &SetDraft, random: &mut Random) -> SetDraft {
    let mut styled = set.clone();
    for (table, file) in styled.files.iter_mut().enumerate() {
        if let FileDraft::Records(records) = file {
            *file = FileDraft::Bytes(restyled_file(table, records, random));
        }
    }
    styled
}

/// The file of these records, written in another way.
pub(in crate::compare) fn restyled_file(
    table: usize,
    records: &[Draft],
    random: &mut Random,
) -> Vec<u8> {
    let records: Vec<Draft> =
        records.iter().map(|record| restyled_record(table, record, random)).collect();
    let often = random.pick(&[3, 8, 1000]);
    spaced(&file_tokens(table, &records), |_| random_gap(random, often))
}

fn restyled_record(table: usize, record: &Draft, random: &mut Random) -> Draft {
    let mut styled = record.clone();
    if random.below(3) == 0 {
        shuffle(&mut styled.members, random);
    }
    for member in &mut styled.members {
        restyle_member(table, member, random);
    }
    styled
}

fn restyle_member(table: usize, member: &mut Member, random: &mut Random) {
    if is_id(table, &member.name) {
        member.value = recased(&member.value, random);
    }
    if member.value.starts_with(b"\"") && random.below(4) == 0 {
        member.value = escaped(&member.value, random);
    }
    if random.below(3) == 0 {
        member.value = renumbered(&member.value, random);
    }
    if random.below(12) == 0 {
        member.name = escaped(&member.name, random);
    }
}

fn is_id(table: usize, name: &[u8]) -> bool {
    let name = &name[1..name.len() - 1];
    fields_of(table).any(|field| field.kind == Type::StringID && field.name.as_bytes() == name)
}

pub(crate) fn shuffle<T>(list: &mut [T], random: &mut Random) {
    for index in (1..list.len()).rev() {
        list.swap(index, random.below(index + 1));
    }
}

/// The string with its letters in lower, upper or mixed case; anything else as
/// it is.
pub(in crate::compare) fn recased(value: &[u8], random: &mut Random) -> Vec<u8> {
    if !value.starts_with(b"\"") {
        return value.to_vec();
    }
    let manner = random.below(4);
    rewritten(value, |code| {
        let upper = match manner {
            0 => return written(code, Style::Raw),
            1 => false,
            2 => true,
            _ => random.below(2) == 0,
        };
        written(with_case(code, upper), Style::Raw)
    })
}

fn with_case(code: u32, upper: bool) -> u32 {
    match char::from_u32(code) {
        Some(c) if upper => c.to_ascii_uppercase().into(),
        Some(c) => c.to_ascii_lowercase().into(),
        None => code,
    }
}

/// The string with some of its characters as escapes.
pub(in crate::compare) fn escaped(value: &[u8], random: &mut Random) -> Vec<u8> {
    let often = random.pick(&[1, 2, 4]);
    rewritten(value, |code| match random.below(often) {
        0 => written(code, random.pick(&STYLES)),
        _ => written(code, Style::Raw),
    })
}

fn rewritten(string: &[u8], character: impl FnMut(u32) -> Vec<u8>) -> Vec<u8> {
    let inner: Vec<u8> = decoded_codes(string, 0).into_iter().flat_map(character).collect();
    [b"\"", &inner[..], b"\""].concat()
}

/// A plain whole number in another form; anything else as it is.
pub(in crate::compare) fn renumbered(value: &[u8], random: &mut Random) -> Vec<u8> {
    let digits = value.strip_prefix(b"-").unwrap_or(value);
    let is_plain = !digits.is_empty() && digits.iter().all(u8::is_ascii_digit);
    if !is_plain {
        return value.to_vec();
    }
    let more: &[u8] = match digits {
        // Another digit behind a zero is no JSON.
        b"0" => random.pick(&MORE_BEHIND_ZERO),
        _ => random.pick(&MORE_BEHIND_DIGITS),
    };
    [value, more].concat()
}

const MORE_BEHIND_ZERO: [&[u8]; 8] =
    [b"", b".0", b"e0", b"E+5", b"e-15", b".000", b"e99", b".0000000000000000E-99"];

const MORE_BEHIND_DIGITS: [&[u8]; 8] = [
    b"",
    b".0",
    b"e0",
    b"0e-1",
    b"0E-1",
    b".00E+0",
    b".0000000000000000",
    b"000000000000000.00000000000000000e-15",
];

/// Integers of one digit and those beside them: with more behind the first digit,
/// a sign before it or white space behind it, and two that are no JSON.
pub(in crate::compare) const SHORT_INTEGERS: [&[u8]; 24] = [
    b"0", b"-0", b"0 ", b"0.0", b"0e1", b"1", b"-1", b"1 ", b"1\n", b"1.0", b"1e0", b"1E0",
    b"10e-1", b"0.1e1", b"01", b"1.", b"2", b"9", b"9\t", b"9.0", b"90e-1", b"10", b"10 ", b"1e1",
];

#[cfg(test)]
mod tests {
    use super::*;
    use crate::gate::judge;
    use crate::json::fold_code;

    #[test]
    fn another_style_changes_no_mark() {
        let mut random = Random::new(3);
        let set = SetDraft::accepted();
        for _ in 0..50 {
            let styled = restyled(&set, &mut random);
            assert_ne!(styled.bundle(), set.bundle());
            assert!(judge(&styled.bundle()).board.is_accepted());
        }
    }

    #[test]
    fn numbers_keep_their_value() {
        let mut random = Random::new(4);
        for plain in ["0", "-0", "7", "-12", "999999999999999"] {
            for _ in 0..40 {
                let form = String::from_utf8(renumbered(plain.as_bytes(), &mut random)).unwrap();
                let value: f64 = form.parse().unwrap();
                assert_eq!(value, plain.parse::<f64>().unwrap(), "{form}");
            }
        }
        for other in ["null", "1.5", "\"1\""] {
            assert_eq!(renumbered(other.as_bytes(), &mut random), other.as_bytes());
        }
    }

    fn folded(string: &[u8]) -> Vec<u32> {
        decoded_codes(string, 0).into_iter().map(fold_code).collect()
    }

    #[test]
    fn strings_keep_their_characters() {
        let mut random = Random::new(5);
        let string = br#""T\/4 \u00e9\uD83D\uDE00 \"b\"""#;
        for _ in 0..20 {
            let other = escaped(string, &mut random);
            assert_eq!(decoded_codes(&other, 0), decoded_codes(string, 0));
            let other = recased(string, &mut random);
            assert_eq!(folded(&other), folded(string));
        }
        assert_eq!(recased(b"null", &mut random), b"null");
    }
}
