//! Dates, and strings that nearly are.

use super::{codes_of, inserted, joined, quoted, removed, replaced, written, Cases, Style, STYLES};
use crate::compare::case::DATE;

pub(super) fn add(cases: &mut Cases) {
    add_days_of_years(cases);
    add_leap_days(cases);
    add_changed_characters(cases);
    add_escapes(cases);
    add_other_strings(cases);
}

impl Cases {
    fn date(&mut self, text: &str) {
        self.one(DATE, 0, &quoted(text.as_bytes()));
    }
}

/// Every day of some years, and a day and a month beyond them.
fn add_days_of_years(cases: &mut Cases) {
    for year in [0, 1, 1900, 1999, 2000, 2004, 2023, 2100, 9999] {
        for month in 0..=13 {
            for day in 0..=32 {
                cases.date(&format!("{year:04}-{month:02}-{day:02}"));
            }
        }
    }
}

fn add_leap_days(cases: &mut Cases) {
    let years = (0..=410).chain(1580..=2110).chain(9890..=9999);
    for year in years {
        cases.date(&format!("{year:04}-02-29"));
    }
    for century in 0..100 {
        cases.date(&format!("{century:02}00-02-29"));
    }
}

/// Each character changed into each printable one and into some bytes.
fn add_changed_characters(cases: &mut Cases) {
    let date = quoted(b"2016-01-31");
    for at in 0..date.len() {
        for byte in 0x20..0x80 {
            cases.one(DATE, 0, &replaced(&date, at, byte));
        }
        for byte in [0x00, 0x0A, 0x80, 0xC2, 0xFF] {
            cases.one(DATE, 0, &replaced(&date, at, byte));
            cases.one(DATE, 0, &inserted(&date, at, byte));
        }
        cases.one(DATE, 0, &removed(&date, at));
        cases.one(DATE, 0, &inserted(&date, at, b'0'));
        cases.one(DATE, 0, &date[..at]);
        cases.one(DATE, at, &date);
    }
    for at in date.len()..=date.len() + 2 {
        cases.one(DATE, at, &date);
    }
}

/// One character, then all of them, written as escapes.
fn add_escapes(cases: &mut Cases) {
    for text in ["2016-01-31", "1900-02-29", "2000-02-29", "0001-01-01", "0000-12-31"] {
        let codes = codes_of(text);
        for style in STYLES {
            for at in 0..codes.len() {
                let inner: Vec<u8> = (0..codes.len())
                    .flat_map(|i| written(codes[i], if i == at { style } else { STYLES[0] }))
                    .collect();
                cases.one(DATE, 0, &quoted(&inner));
            }
            let inner: Vec<u8> = codes.iter().flat_map(|code| written(*code, style)).collect();
            cases.one_placed(DATE, &quoted(&inner));
            for length in 0..inner.len() {
                cases.one(DATE, 0, &joined(&[b"\"", &inner[..length]]));
            }
        }
    }
}

fn add_other_strings(cases: &mut Cases) {
    let texts = [
        "",
        " ",
        "2016",
        "2016-1-31",
        "16-01-31",
        "2016-01-31T00:00:00",
        "2016-01-31 ",
        " 2016-01-31",
        "2016/01/31",
        "20160131",
        "2016--1-31",
        "+016-01-31",
        "-016-01-31",
        "2016-01-3",
        "02016-01-31",
        "2016-01-031",
        "2016-+1-31",
        "2016- 1-31",
        "31-01-2016",
        "２０１６-０１-３１",
        "2016-01-3１",
        "٢٠١٦-٠١-٣١",
        "2016–01–31",
        "2016‐01‐31",
        "\u{FEFF}2016-01-31",
        "2016-01-31\\u0000",
        "2016\\u002D01\\u002d31",
        "\\u0032016-01-31",
        "\\uD835\\uDFD8016-01-31",
        "\\uD800016-01-31",
        "2016-01-31\\x",
        "2016-01-31\\u00",
        "2016-01-3\\x1",
    ];
    for text in texts {
        cases.date(text);
    }
    let long = "2016-01-31".repeat(10_000);
    cases.date(&long);
}

// --------------------------------------------------------- ten bytes at once

/// A date may be taken from its ten bytes as they stand, and others only one
/// character after the other.
pub(super) fn add_ten_bytes(cases: &mut Cases) {
    add_days_of_more_years(cases);
    add_unprintable_bytes(cases);
    for date in DATES {
        add_edges(cases, date);
        add_beside_others(cases, date);
        add_escapes_before_others(cases, date);
    }
    add_two_edges(cases);
    add_other_ten_bytes(cases);
}

/// First and last days, leap days, and one day that there isn't.
const DATES: [&[u8]; 8] = [
    b"0001-01-01",
    b"0999-12-31",
    b"1000-10-10",
    b"1900-02-28",
    b"1900-02-29",
    b"2000-02-29",
    b"2023-09-30",
    b"9999-12-31",
];

/// The bytes on both sides of the digits, the first and the last digit, and
/// those that mean something else within a string.
const EDGES: [u8; 8] = [b'/', b'0', b'9', b':', b'-', b'"', b'\\', 0x80];

fn add_days_of_more_years(cases: &mut Cases) {
    for year in ["0999", "1000", "2024"] {
        for month in 0..=13 {
            for day in 0..=32 {
                cases.date(&format!("{year}-{month:02}-{day:02}"));
            }
        }
    }
}

/// Every byte that is no printable one at each place of a leap day, its quotes
/// included: some of them are digits but for one bit.
fn add_unprintable_bytes(cases: &mut Cases) {
    let date = quoted(b"2024-02-29");
    for at in 0..date.len() {
        for byte in (0x00..0x20).chain(0x80..=0xFF) {
            cases.one(DATE, 0, &replaced(&date, at, byte));
        }
    }
}

/// An edge at each place; the file ends with the date, or it goes on.
fn add_edges(cases: &mut Cases, date: &[u8]) {
    let date = quoted(date);
    for at in 0..date.len() {
        for edge in EDGES {
            let changed = replaced(&date, at, edge);
            cases.one(DATE, 0, &changed);
            cases.one(DATE, 0, &joined(&[&changed, b",\"ID\":\"\"}"]));
        }
    }
}

/// Two edges side by side: one may make up for what the other is short of.
fn add_two_edges(cases: &mut Cases) {
    let date = quoted(b"2019-09-19");
    for at in 0..date.len() - 1 {
        for first in EDGES {
            for second in EDGES {
                let changed = replaced(&replaced(&date, at, first), at + 1, second);
                cases.one(DATE, 0, &changed);
            }
        }
    }
}

/// Behind up to eight bytes and before as many; and the file's end within the
/// date, at each length.
fn add_beside_others(cases: &mut Cases, date: &[u8]) {
    let date = quoted(date);
    for before in 0..=8 {
        let front = vec![b'['; before];
        for behind in 0..=8 {
            let file = joined(&[&front, &date, &vec![b'9'; behind]]);
            cases.one(DATE, before, &file);
        }
        for length in 0..date.len() {
            cases.one(DATE, before, &joined(&[&front, &date[..length]]));
        }
    }
}

/// One character as an escape, in lower and in upper case, and more of the file
/// behind the date.
fn add_escapes_before_others(cases: &mut Cases, date: &[u8]) {
    for at in 0..date.len() {
        for style in [Style::LowerHex, Style::UpperHex] {
            let escape = written(date[at].into(), style);
            let inner = joined(&[&date[..at], &escape, &date[at + 1..]]);
            cases.one(DATE, 0, &joined(&[&quoted(&inner), b",\"ID\":\"\"}"]));
        }
    }
}

/// Ten bytes that are fewer characters, and ten characters that are more bytes.
fn add_other_ten_bytes(cases: &mut Cases) {
    let texts = [
        "\\/16-01-31",
        "2016-01-\\/",
        "2016\\/01-1",
        "\\u0032-01-",
        "2016\\u002d",
        "2016-01-é",
        "é16-01-31",
        "2016é01-3",
        "2016-01-3é",
        "é016-01-31",
        "2016-01\\/31",
        "2016-01-3\\\"",
        "\\\"2016-01-3",
        "\\u00320\\u00316-01-31",
        "2016\\u002d01\\u002D31",
    ];
    for text in texts {
        cases.date(text);
        cases.one(DATE, 0, &joined(&[&quoted(text.as_bytes()), b",\"ID\":\"\"}"]));
    }
}

#[cfg(test)]
mod tests {
    use super::*;
    use crate::compare::answer::answer;
    use crate::compare::random::Random;

    /// A date is one behind and before any bytes, and also where the file ends
    /// right behind its tenth character; one that is cut earlier is none, and
    /// neither is a day that there isn't.
    #[test]
    fn dates_stand_beside_others() {
        for date in DATES {
            let mut cases = Cases { list: Vec::new(), random: Random::new(1) };
            add_beside_others(&mut cases, date);
            let dates = cases.list.iter().filter(|case| answer(case)[0] == 0).count();
            let expected = if date == b"1900-02-29" { 0 } else { 81 + 9 };
            assert_eq!((dates, cases.list.len()), (expected, 81 + 9 * 12));
        }
    }

    /// Each such byte in the place of the closing quote is a fault, which leaves
    /// the ten characters before it.
    #[test]
    fn escapes_are_dates_and_other_bytes_are_not() {
        let mut cases = Cases { list: Vec::new(), random: Random::new(1) };
        add_escapes_before_others(&mut cases, DATES[0]);
        assert!(cases.list.drain(..).all(|case| answer(&case) == [0, 1, 1, 1]));
        add_unprintable_bytes(&mut cases);
        let dates = cases.list.iter().filter(|case| answer(case)[0] == 0).count();
        assert_eq!((dates, cases.list.len()), (160, 12 * 160));
    }
}
