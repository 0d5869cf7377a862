//! The cases of the JSON layer: systematic ones, then random mixes.

mod dates;
mod equality;
mod ids;
mod literals;
mod mixed;
mod numbers;
mod strings;
mod texts;
mod utf8;

use super::case::{Case, LONGEST};
use super::random::Random;

/// The same seed always gives the same cases in the same order.
pub fn all_cases(seed: u64) -> Vec<Case> {
    let mut cases = Cases { list: Vec::new(), random: Random::new(seed) };
    literals::add(&mut cases);
    strings::add(&mut cases);
    utf8::add(&mut cases);
    texts::add(&mut cases);
    equality::add(&mut cases);
    ids::add(&mut cases);
    dates::add(&mut cases);
    numbers::add(&mut cases);
    mixed::add(&mut cases);
    // These came later and stand behind the others, which so keep their places and random numbers.
    strings::add_eights(&mut cases);
    strings::add_two_digit_escapes(&mut cases);
    dates::add_ten_bytes(&mut cases);
    strings::add_words(&mut cases);
    equality::add_alike(&mut cases);
    cases.list
}

/// The cases gathered so far, and the numbers to vary them with.
struct Cases {
    list: Vec<Case>,
    random: Random,
}

impl Cases {
    fn push(&mut self, op: u32, at: usize, other: usize, a: &[u8], b: &[u8]) {
        assert!(a.len() <= LONGEST && b.len() <= LONGEST);
        self.list.push(Case {
            op,
            at: at as u32,
            other: other as u32,
            a: a.to_vec(),
            b: b.to_vec(),
        });
    }

    /// A case of one slice.
    fn one(&mut self, op: u32, at: usize, a: &[u8]) {
        self.push(op, at, 0, a, &[]);
    }

    /// A case of one slice, read from some place within a larger one.
    fn one_placed(&mut self, op: u32, a: &[u8]) {
        let before = self.random.below(5);
        let mut placed = vec![b'['; before];
        placed.extend_from_slice(a);
        self.one(op, before, &placed);
    }

    /// A string, its opening quote at `at`, by each of the three text kinds.
    fn text_by_each_kind(&mut self, at: usize, a: &[u8]) {
        for kind in 0..3 {
            self.push(super::case::TEXT, at, kind, a, &[]);
        }
    }

    /// A string by the text kind whose turn it is.
    fn text_in_turn(&mut self, at: usize, a: &[u8]) {
        let kind = self.list.len() % 3;
        self.push(super::case::TEXT, at, kind, a, &[]);
    }

    /// A string by one of the text kinds.
    fn text_by_some_kind(&mut self, at: usize, a: &[u8]) {
        let kind = self.random.below(3);
        self.push(super::case::TEXT, at, kind, a, &[]);
    }
}

/// Bytes that stand on one side or the other of some line of JSON or UTF-8.
const ODD_BYTES: [u8; 34] = [
    0x00, 0x08, 0x09, 0x0A, 0x0B, 0x0D, 0x1F, 0x20, b'"', b'+', b'-', b'.', b'/', b'0', b'9', b':',
    b'A', b'E', b'\\', b'd', b'e', b'g', b'u', 0x7F, 0x80, 0xBF, 0xC1, 0xC2, 0xE0, 0xED, 0xF0,
    0xF4, 0xF5, 0xFF,
];

fn replaced(bytes: &[u8], at: usize, byte: u8) -> Vec<u8> {
    let mut changed = bytes.to_vec();
    changed[at] = byte;
    changed
}

fn inserted(bytes: &[u8], at: usize, byte: u8) -> Vec<u8> {
    let mut changed = bytes.to_vec();
    changed.insert(at, byte);
    changed
}

fn removed(bytes: &[u8], at: usize) -> Vec<u8> {
    let mut changed = bytes.to_vec();
    changed.remove(at);
    changed
}

fn joined(parts: &[&[u8]]) -> Vec<u8> {
    parts.concat()
}

fn quoted(inner: &[u8]) -> Vec<u8> {
    joined(&[b"\"", inner, b"\""])
}

/// How a character is written.
#[derive(Clone, Copy)]
pub(super) enum Style {
    Raw,
    Short,
    LowerHex,
    UpperHex,
    MixedHex,
}

pub(super) const STYLES: [Style; 5] =
    [Style::Raw, Style::Short, Style::LowerHex, Style::UpperHex, Style::MixedHex];

/// The character written in that style, or as an escape if it has to be one.
pub(super) fn written(code: u32, style: Style) -> Vec<u8> {
    match style {
        Style::Raw => match char::from_u32(code) {
            Some(c) if code >= 0x20 && c != '"' && c != '\\' => c.to_string().into_bytes(),
            _ => written(code, Style::LowerHex),
        },
        Style::Short => match short_escape(code) {
            Some(letter) => vec![b'\\', letter],
            None => written(code, Style::Raw),
        },
        Style::LowerHex | Style::UpperHex | Style::MixedHex => {
            utf16_units(code).iter().flat_map(|unit| hex_escape(*unit, style)).collect()
        }
    }
}

fn short_escape(code: u32) -> Option<u8> {
    let letters = [
        (0x22, b'"'),
        (0x5C, b'\\'),
        (0x2F, b'/'),
        (0x08, b'b'),
        (0x0C, b'f'),
        (0x0A, b'n'),
        (0x0D, b'r'),
        (0x09, b't'),
    ];
    letters.iter().find(|(of, _)| *of == code).map(|(_, letter)| *letter)
}

fn utf16_units(code: u32) -> Vec<u32> {
    if code < 0x10000 {
        return vec![code];
    }
    let rest = code - 0x10000;
    vec![0xD800 + (rest >> 10), 0xDC00 + (rest & 0x3FF)]
}

fn hex_escape(unit: u32, style: Style) -> Vec<u8> {
    let lower = format!("\\u{unit:04x}");
    let written = match style {
        Style::UpperHex => format!("\\u{unit:04X}"),
        Style::MixedHex => alternating_case(&lower),
        _ => lower,
    };
    written.into_bytes()
}

/// Every second hex digit in upper case; the `u` stays as it is.
fn alternating_case(escape: &str) -> String {
    let upper = |i: usize| i >= 2 && i % 2 == 1;
    escape
        .chars()
        .enumerate()
        .map(|(i, c)| if upper(i) { c.to_ascii_uppercase() } else { c })
        .collect()
}

fn written_string(codes: &[u32], style: Style) -> Vec<u8> {
    let inner: Vec<u8> = codes.iter().flat_map(|code| written(*code, style)).collect();
    quoted(&inner)
}

fn codes_of(text: &str) -> Vec<u32> {
    text.chars().map(u32::from).collect()
}
