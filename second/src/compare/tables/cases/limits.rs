//! Both sides of the limits of numbers, dates and strings.

use super::draft::{quoted, unclosed, Draft};
use super::{joined, replaced, Cases};
use crate::compare::padded::{padded, padded_forms, SIGNIFICANDS, ZEROS};
use crate::compare::white_space::{
    placed, white_in_low_bits, writings, BESIDE, UNLISTED, WHITE_SPACE,
};

pub(super) fn add(cases: &mut Cases) {
    add_number_limits(cases);
    add_padded_numbers(cases);
    add_wrapping_numbers(cases);
    add_dates(cases);
    add_wrong_dates(cases);
    add_characters(cases);
    add_space_patterns(cases);
    add_white_space(cases);
    add_white_in_low_bits(cases);
    add_surrogates(cases);
}

/// A field by its table and name.
type Spot = (usize, &'static str);

const INTEGER_SPOTS: [Spot; 2] = [(15, "Level"), (7, "Ordinal")];
const DECIMAL_SPOTS: [Spot; 2] = [(8, "WorkHours"), (19, "Budget_AtCompletion_Hours")];
const DATE_SPOTS: [Spot; 2] = [(8, "ExceptionDate"), (13, "ConstraintDate")];
const TEXT_SPOTS: [Spot; 3] = [(6, "Comments"), (4, "Name"), (6, "ID")];

impl Cases {
    fn value(&mut self, spot: Spot, value: &[u8]) {
        let (table, name) = spot;
        self.record(table, &Draft::least(table, 0).with_value(name, value));
    }

    /// The number as an Integer and as a Decimal.
    fn number(&mut self, text: &str) {
        let integer = self.random.pick(&INTEGER_SPOTS);
        self.value(integer, text.as_bytes());
        let decimal = self.random.pick(&DECIMAL_SPOTS);
        self.value(decimal, text.as_bytes());
    }

    fn date(&mut self, inner: &str) {
        let spot = self.random.pick(&DATE_SPOTS);
        self.value(spot, &quoted(inner));
    }

    /// The string as Text, String and StringID.
    fn string(&mut self, inner: &[u8]) {
        for spot in TEXT_SPOTS {
            self.value(spot, &joined(&[b"\"", inner, b"\""]));
        }
    }
}

// --------------------------------------------------------------- numbers

/// c around its limit, p around both of its limits, both signs, and the same
/// number with its point at several places.
fn add_number_limits(cases: &mut Cases) {
    let significands = [
        "0",
        "1",
        "10",
        "100000000000000",
        "999999999999998",
        "999999999999999",
        "1000000000000000",
        "1000000000000001",
        "9999999999999990",
    ];
    for c in significands {
        for p in [-17, -16, -15, -14, -13, -1, 0, 1, 2, 13, 14, 15, 16, 17] {
            let sign = cases.random.pick(&["", "-"]);
            cases.number(&format!("{sign}{c}e{p}"));
            add_pointed(cases, c, p);
        }
    }
    for zeros in 0..18 {
        let zeros = "0".repeat(zeros);
        for text in
            [format!("8.{zeros}"), format!("1{zeros}"), format!("0.{zeros}1"), format!("1e{zeros}")]
        {
            cases.number(&text);
        }
        cases.number(&format!("1{zeros}e-{}", zeros.len()));
        cases.number(&format!("1{zeros}e-{}", zeros.len() + 1));
    }
}

/// c times 10 to the p, written with a point before its last digits.
fn add_pointed(cases: &mut Cases, c: &str, p: i64) {
    for places in [1, 15, 16] {
        cases.number(&padded(c, p, 0, places));
    }
}

/// Values on both sides of each limit, each in many spellings.
fn add_padded_numbers(cases: &mut Cases) {
    for digits in SIGNIFICANDS {
        for p in [-16, -15, -1, 0, 14, 15, 16] {
            for form in padded_forms(digits, p) {
                let sign = cases.random.pick(&["", "-"]);
                cases.number(&format!("{sign}{form}"));
            }
        }
    }
    for zero in ZEROS {
        cases.number(zero);
        cases.number(&format!("-{zero}"));
    }
}

/// Numbers that come back as small ones when they wrap in 32, 64 or 128 bits.
fn add_wrapping_numbers(cases: &mut Cases) {
    let powers = [
        "2147483648",
        "4294967295",
        "4294967296",
        "4294967297",
        "9223372036854775807",
        "9223372036854775808",
        "18446744073709551615",
        "18446744073709551616",
        "18446744073709551617",
        "340282366920938463463374607431768211457",
    ];
    for power in powers {
        for text in [
            power.to_string(),
            format!("-{power}"),
            format!("0.{power}"),
            format!("{power}e-5"),
            format!("1e{power}"),
            format!("1e-{power}"),
            format!("0E+{power}"),
            format!("0e-0{power}"),
        ] {
            cases.number(&text);
        }
    }
}

// ----------------------------------------------------------------- dates

/// The days around both ends of each month, in years with and without a leap
/// day, and months and years just out of range.
fn add_dates(cases: &mut Cases) {
    for year in ["0000", "0001", "0004", "1900", "2000", "2019", "2020", "2100", "2400", "9999"] {
        for month in 0..=13 {
            for day in [0, 1, 28, 29, 30, 31, 32] {
                cases.date(&format!("{year}-{month:02}-{day:02}"));
            }
        }
    }
}

fn add_wrong_dates(cases: &mut Cases) {
    let dates = [
        "",
        " ",
        "2",
        "2016",
        "2016-01",
        "2016-01-3",
        "2016-01-310",
        "02016-01-31",
        "2016-1-31",
        "2016-001-31",
        "16-01-31",
        "20160131",
        "2016-0131",
        "201601-31",
        "2016/01/31",
        "2016.01.31",
        "2016-01/31",
        "2016_01-31",
        "2016-01-31 ",
        " 2016-01-31",
        "2016-01-31\u{a0}",
        "\\u30002016-01-31",
        "2016\\u00a001-31",
        "\u{a0}",
        "2016-01-31Z",
        "2016-01-31T00:00:00",
        "2016-Jan-31",
        "31-01-2016",
        "-016-01-31",
        "+016-01-31",
        "2016--1-31",
        "2016-01--1",
        "2016-+1-31",
        "2016-01-+1",
        "2016- 1-31",
        "2016-01- 1",
        "201a-01-31",
        "2016-0a-31",
        "2016-01-3a",
        "2016-01-99",
        "2016-99-01",
        "2016-01-31\\u0000",
        "\\u00002016-01-31",
        "2016\\u201301\\u201331",
        "2016\u{2013}01\u{2013}31",
        "\u{ff12}016-01-31",
        "\u{661}\u{662}16-01-31",
        "\\u0132016-01-31",
        "2016-01-31\\n",
        "2016-01-31\\ud800",
        "\\u0000",
        "\\ud800",
        "1e01-01-01",
        "0x10-01-01",
        "null",
        "2016-01-31,2016-01-31",
    ];
    for date in dates {
        for spot in DATE_SPOTS {
            cases.value(spot, &quoted(date));
        }
    }
    let good = "2016-02-29";
    for at in 0..good.len() {
        let (front, back) = (&good[..at], &good[at + 1..]);
        let letter = good.as_bytes()[at];
        cases.date(&format!("{front}\\u{letter:04x}{back}"));
        cases.date(&format!("{front}{back}"));
        for other in ["/", ":", "-", "0", "9", "A", " ", "\u{e9}", "\\t", "\\u0130"] {
            cases.date(&format!("{front}{other}{back}"));
        }
    }
}

/// A date may be taken from its ten bytes as they stand. Each of them, and each
/// quote, is one on either side of the digits or means something else within a
/// string; one digit is an escape; and the file ends within the date.
pub(super) fn add_dates_by_bytes(cases: &mut Cases) {
    for (table, name) in DATE_SPOTS {
        for date in ["0001-01-01", "1999-12-31", "2024-02-29"] {
            let date = quoted(date);
            for at in 0..date.len() {
                for byte in [b'/', b'0', b'9', b':', b'-', b'"', b'\\', 0x80] {
                    cases.value((table, name), &replaced(&date, at, byte));
                }
            }
            for at in 1..date.len() - 1 {
                for escape in [format!("\\u{:04x}", date[at]), format!("\\u{:04X}", date[at])] {
                    let (front, back) = (&date[..at], &date[at + 1..]);
                    cases.value((table, name), &joined(&[front, escape.as_bytes(), back]));
                }
            }
            let draft = Draft::least(table, 0).without(name).with_value(name, &date);
            let whole = unclosed(table, &draft);
            for missing in 0..=date.len() {
                cases.file(table, &whole[..whole.len() - missing]);
            }
        }
    }
}

// --------------------------------------------------------------- strings

/// The characters on both sides of each line of the string rules.
fn edge_codes() -> Vec<u32> {
    let mut codes: Vec<u32> = (0x00..=0x22).collect();
    codes.extend([
        0x2F, 0x5B, 0x5C, 0x5D, 0x7D, 0x7E, 0x7F, 0x80, 0x81, 0x85, 0x9F, 0xA0, 0xAD, 0xFF,
    ]);
    codes.extend([
        0x100, 0x120, 0x17F, 0x1680, 0x2000, 0x200B, 0x2028, 0x2029, 0x202F, 0x205F, 0x3000,
    ]);
    codes.extend([
        0x7FF, 0x800, 0xD7FF, 0xD800, 0xDBFF, 0xDC00, 0xDFFF, 0xE000, 0xFEFF, 0xFFFE, 0xFFFF,
    ]);
    codes.extend([0x10000, 0x10020, 0x1F600, 0x10FFFF]);
    codes
}

/// As an escape, and as itself where that can be.
fn escape_and_raw(code: u32) -> Vec<Vec<u8>> {
    let mut units = [0; 2];
    let escape: String = match char::from_u32(code) {
        Some(c) => c.encode_utf16(&mut units).iter().map(|unit| format!("\\u{unit:04X}")).collect(),
        None => format!("\\u{code:04x}"),
    };
    let raw = char::from_u32(code).map(|c| c.to_string().into_bytes());
    [Some(escape.into_bytes()), raw].into_iter().flatten().collect()
}

/// Each alone, first, inside and last.
fn add_characters(cases: &mut Cases) {
    for code in edge_codes() {
        for written in escape_and_raw(code) {
            cases.string(&written);
            cases.string(&joined(&[&written, b"A"]));
            cases.string(&joined(&[b"A", &written, b"B"]));
            cases.string(&joined(&[b"A", &written]));
        }
    }
    for escape in b"\"\\/bfnrtaev0xU" {
        cases.string(&[b'A', b'\\', *escape, b'B']);
    }
}

/// Every short string of letters and spaces, the spaces written in two ways.
fn add_space_patterns(cases: &mut Cases) {
    for length in 1..=5 {
        for pattern in 0..1 << length {
            let is_space = |at: usize| pattern >> at & 1 == 1;
            let plain: Vec<u8> =
                (0..length).map(|at| if is_space(at) { b' ' } else { b'A' }).collect();
            cases.string(&plain);
            let escaped =
                String::from_utf8(plain).expect("letters and spaces").replace(' ', "\\u0020");
            cases.string(escaped.as_bytes());
        }
    }
}

/// Each character of the White_Space list, and each that is near to it or looks
/// so, in every writing at every place.
fn add_white_space(cases: &mut Cases) {
    for code in WHITE_SPACE.into_iter().chain(BESIDE).chain(UNLISTED) {
        for written in writings(code) {
            for inner in placed(&written) {
                cases.string(&inner);
            }
        }
    }
}

fn add_white_in_low_bits(cases: &mut Cases) {
    for code in white_in_low_bits() {
        for written in writings(code) {
            cases.string(&joined(&[b"A", &written, b"B"]));
        }
    }
}

/// High and low surrogates, whole and cut, in every order.
fn add_surrogates(cases: &mut Cases) {
    let pieces: [&[u8]; 9] = [
        b"\\uD83D",
        b"\\uDE00",
        b"\\ud83d",
        b"A",
        b"\\u0041",
        b"\\n",
        b"\xF0\x9F\x98\x80",
        b"\\uD8",
        b"\\x",
    ];
    for first in pieces {
        for second in pieces {
            cases.string(&joined(&[first, second]));
            let third = cases.random.pick(&pieces);
            cases.string(&joined(&[first, second, third]));
        }
    }
}
