//! Equality of strings, with each other and with fixed ASCII strings.

use super::{codes_of, joined, quoted, written_string, Cases, Style, STYLES};
use crate::compare::case::{EQUAL, EQUAL_FIXED, EQUAL_FIXED_FOLDED, EQUAL_FOLDED};
use crate::fields::{ENUMERATION_VALUES, FIELDS};

pub(super) fn add(cases: &mut Cases) {
    add_all_pairs(cases);
    add_case_folding(cases);
    add_rewritten_strings(cases);
    add_fixed_strings(cases);
    add_places_past_the_end(cases);
    add_long_strings(cases);
}

impl Cases {
    /// Two strings with their opening quotes first, exact and folded.
    pub(super) fn equality(&mut self, a: &[u8], b: &[u8]) {
        self.push(EQUAL, 0, 0, a, b);
        self.push(EQUAL_FOLDED, 0, 0, a, b);
    }

    fn fixed_equality(&mut self, a: &[u8], fixed: &[u8]) {
        self.push(EQUAL_FIXED, 0, 0, a, fixed);
        self.push(EQUAL_FIXED_FOLDED, 0, 0, a, fixed);
    }
}

/// Strings of which some are equal, some only when folded, some fronts of
/// others, and some end in a fault.
fn add_all_pairs(cases: &mut Cases) {
    let strings: [&[u8]; 42] = [
        b"",
        b"\"",
        br#""""#,
        br#""a""#,
        br#""A""#,
        br#""\u0041""#,
        br#""\u0061""#,
        br#""a"#,
        br#""a\"#,
        br#""a\x""#,
        br#""a\u00""#,
        br#""a\u00zz""#,
        b"\"a\xFF\"",
        b"\"a\xE2\x82\"",
        b"\"a\0\"",
        br#""a\u0000""#,
        br#""ab""#,
        br#""aB""#,
        br#""ENG-01""#,
        br#""eng-01""#,
        br#""EN\u0047-01""#,
        br#""ENG-02""#,
        br#""ENG-0""#,
        br#""ENG-01 ""#,
        br#""\uD83D\uDE00""#,
        br#""\ud83d\ude00""#,
        "\"\u{1F600}\"".as_bytes(),
        br#""\uD83D""#,
        br#""\uD83D\uDE0""#,
        br#""\uDE00""#,
        br#""\uDE00\uD83D""#,
        br#""\uD83Dx\uDE00""#,
        "\"é\"".as_bytes(),
        "\"É\"".as_bytes(),
        br#""\u00e9""#,
        br#""\u00C9""#,
        br#""\n\t\/""#,
        br#""\u000a\u0009/""#,
        "\"\u{212A}\"".as_bytes(),
        br#""k""#,
        "\"\u{17F}\"".as_bytes(),
        br#""s""#,
    ];
    for a in strings {
        for b in strings {
            cases.equality(a, b);
        }
    }
}

/// Each ASCII character beside its neighbours and the one of other case.
fn add_case_folding(cases: &mut Cases) {
    for code in 0x20..0x80u32 {
        for other in [code, code ^ 0x20, code.saturating_sub(1), code + 1] {
            let style = cases.random.pick(&STYLES);
            let a = written_string(&[0x78, code], style);
            cases.equality(&a, &written_string(&[0x78, other], Style::Raw));
            if (0x20..0x80).contains(&other) {
                cases.fixed_equality(&a, &[0x78, other as u8]);
            }
        }
    }
    for code in 0xC0..0x100u32 {
        let a = written_string(&[code], Style::Raw);
        cases.equality(&a, &written_string(&[code ^ 0x20], Style::MixedHex));
    }
}

/// The same text written in two ways, then changed in one character.
fn add_rewritten_strings(cases: &mut Cases) {
    for text in ["TASK/0001 \"a\" \\ b", "Zürich €5 \u{1F600}", "a", "Ab\n\tcD", "@[`{AZaz"] {
        let codes = codes_of(text);
        for style in STYLES {
            let a = written_string(&codes, style);
            for other_style in STYLES {
                cases.equality(&a, &written_string(&codes, other_style));
            }
            for at in 0..codes.len() {
                let mut changed = codes.clone();
                changed[at] ^= 0x20;
                cases.equality(&a, &written_string(&changed, Style::LowerHex));
                changed[at] = 0x7E;
                cases.equality(&a, &written_string(&changed, Style::Raw));
                cases.equality(&a, &written_string(&codes[..at], Style::Raw));
                cases.equality(&written_string(&codes[..at], Style::Raw), &a);
            }
        }
    }
}

/// Each name and value of the format, and strings that are nearly so.
fn add_fixed_strings(cases: &mut Cases) {
    let names = FIELDS.iter().map(|field| field.name);
    let values = ENUMERATION_VALUES.iter().map(|(_, value)| *value);
    for name in names.chain(values) {
        let fixed = name.as_bytes();
        let shorter = &name[..name.len() - 1];
        let style = cases.random.pick(&STYLES);
        cases.fixed_equality(&quoted(fixed), fixed);
        cases.fixed_equality(&written_string(&codes_of(name), style), fixed);
        cases.fixed_equality(&quoted(name.to_ascii_lowercase().as_bytes()), fixed);
        cases.fixed_equality(&quoted(name.to_ascii_uppercase().as_bytes()), fixed);
        cases.fixed_equality(&quoted(shorter.as_bytes()), fixed);
        cases.fixed_equality(&quoted(format!("{shorter}~").as_bytes()), fixed);
        cases.fixed_equality(&quoted(format!("{name}s").as_bytes()), fixed);
        cases.fixed_equality(&quoted(format!("{name}\\u0000").as_bytes()), fixed);
    }
    for fixed in ["", "a", "\\", "\"", "\0", "ID"] {
        for a in ["", "\"", r#""""#, r#""a""#, r#""\\""#, r#""\"""#, r#""\u0000""#, r#""I\u0044""#]
        {
            cases.fixed_equality(a.as_bytes(), fixed.as_bytes());
        }
    }
}

fn add_places_past_the_end(cases: &mut Cases) {
    let a = br#"{"ab":"AB","":0}"#;
    for op in [EQUAL, EQUAL_FOLDED] {
        for at in [1, 6, 11, a.len(), a.len() + 1, a.len() + 2] {
            for other in [1, 6, 11, a.len(), a.len() + 2] {
                cases.push(op, at, other, a, a);
            }
        }
    }
    for op in [EQUAL_FIXED, EQUAL_FIXED_FOLDED] {
        for at in [1, 6, 11, a.len(), a.len() + 2] {
            for fixed in ["ab", "AB", ""] {
                cases.push(op, at, 0, a, fixed.as_bytes());
            }
        }
    }
}

/// Two strings may be compared eight bytes at a time as long as both have so many
/// left. One of each length beside itself and beside what differs from it at one
/// place: a letter in other case, another one, an escape for it, a space, the
/// closing quote, the file's end. Either of them goes on behind its quote, or ends
/// with it.
pub(super) fn add_alike(cases: &mut Cases) {
    const LETTERS: &[u8] = b"Quay-wall_7.Mooring-9";
    for length in 0..=LETTERS.len() {
        let whole = quoted(&LETTERS[..length]);
        cases.equality(&whole, &whole);
        for at in 0..length {
            let letter = LETTERS[at];
            let (front, rest) = (&LETTERS[..at], &LETTERS[at + 1..length]);
            let escape = format!("\\u00{letter:02x}");
            for other in [&[letter ^ 0x20][..], b"~", escape.as_bytes(), b" ", b"\"", b""] {
                let changed = quoted(&joined(&[front, other, rest]));
                let longer = joined(&[&changed, b",\"Name\":1}"]);
                let goes_on = joined(&[&whole, b",\"Name\":1}"]);
                cases.equality(&whole, &longer);
                cases.equality(&changed, &goes_on);
                cases.equality(&longer, &goes_on);
            }
            cases.equality(&whole, &whole[..=at]);
        }
    }
}

/// 100,000 characters, equal, or different only at the last one.
fn add_long_strings(cases: &mut Cases) {
    let many = vec![b'q'; 100_000];
    let long = quoted(&many);
    let last_differs = quoted(&joined(&[&many[1..], b"r"]));
    let last_in_other_case = quoted(&joined(&[&many[1..], b"Q"]));
    let last_escaped = quoted(&joined(&[&many[1..], br#"\u0071"#]));
    let shorter = quoted(&many[1..]);
    for other in [&long, &last_differs, &last_in_other_case, &last_escaped, &shorter] {
        cases.equality(&long, other);
    }
    cases.fixed_equality(&long, &many);
    cases.fixed_equality(&last_in_other_case, &many);
    cases.fixed_equality(&last_escaped, &many[1..]);
}
