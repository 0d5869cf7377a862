//! Strings as written: cut at each length, odd bytes at each place, escapes
//! and surrogates.

use std::collections::BTreeSet;

use super::{inserted, joined, quoted, removed, replaced, written, Cases, ODD_BYTES, STYLES};
use crate::compare::case::{CHARACTER, LONGEST, TEXT};

pub(super) fn add(cases: &mut Cases) {
    add_samples(cases);
    add_escape_letters(cases);
    add_hex_digits(cases);
    add_all_hex_codes(cases);
    add_surrogate_pairs(cases);
    add_broken_surrogate_pairs(cases);
    add_places_past_the_end(cases);
    add_long_strings(cases);
    add_plain_runs(cases);
}

/// Whole strings that between them hold every way to write a character.
fn samples() -> Vec<Vec<u8>> {
    let written: [&[u8]; 34] = [
        br#""""#,
        br#""A""#,
        br#""ENG-01""#,
        br#""A B""#,
        br#""A  B""#,
        br#"" A""#,
        br#""A ""#,
        br#"" ""#,
        br#""A B C D""#,
        br#""a\tb\nc\rd""#,
        br#""\"\\\/\b\f\n\r\t""#,
        br#""\u0041\u00e9\u20AC\uFFFF""#,
        br#""\uD83D\uDE00""#,
        br#""x\ud83d\uDe00y\uD800z\uDC00""#,
        br#""\uD800\uD800\uDC00\uDC00""#,
        br#""\uD800\n\uDC00""#,
        br#""\u0000""#,
        br#""a\u001Fb""#,
        br#""a\u007fb""#,
        b"\"a\x7Fb\"",
        br#""\u0020A""#,
        br#""A\u0020""#,
        br#""A\u0020\u0020B""#,
        br#""A \u0020B""#,
        br#""A\u0020 B""#,
        br#""A\u0009B""#,
        br#""A\u00A0B""#,
        br#""\u000b\u000C\u000e""#,
        "\"A\u{A0}B\u{2028}\"".as_bytes(),
        br#""A \u3000\u200B\u205f""#,
        "\"é\"".as_bytes(),
        "\"€ 5\"".as_bytes(),
        "\"a\u{1F600}b\u{10FFFF}\"".as_bytes(),
        "\"\u{80}\u{7FF}\u{800}\u{D7FF}\u{E000}\u{FFFF}\u{10000}\"".as_bytes(),
    ];
    written.iter().map(|sample| sample.to_vec()).collect()
}

fn add_samples(cases: &mut Cases) {
    for sample in samples() {
        cases.text_by_each_kind(0, &sample);
        cases.text_by_each_kind(3, &joined(&[b"{\"x", &sample, b":1}"]));
        for length in 0..sample.len() {
            cases.text_by_each_kind(0, &sample[..length]);
        }
        for at in 0..sample.len() + 2 {
            cases.one(CHARACTER, at, &sample);
            cases.text_by_some_kind(at, &sample);
        }
        for at in 0..sample.len() {
            cases.text_by_some_kind(0, &removed(&sample, at));
            for byte in ODD_BYTES {
                cases.text_by_some_kind(0, &replaced(&sample, at, byte));
            }
        }
        add_random_changes(cases, &sample);
    }
}

fn add_random_changes(cases: &mut Cases, sample: &[u8]) {
    for _ in 0..60 {
        let at = cases.random.below(sample.len() + 1);
        let byte = cases.random.pick(&ODD_BYTES);
        let changed = inserted(sample, at, byte);
        cases.text_by_some_kind(0, &changed);
        let place = cases.random.below(changed.len());
        cases.one(CHARACTER, place, &changed);
    }
}

/// Each byte after a backslash.
fn add_escape_letters(cases: &mut Cases) {
    for byte in 0..=255 {
        cases.one(CHARACTER, 0, &[b'\\', byte, b'0', b'0', b'4', b'1', b'"']);
        cases.one(CHARACTER, 1, &[b'x', b'\\', byte]);
        cases.text_by_some_kind(0, &quoted(&[b'a', b'\\', byte, b'b']));
    }
    cases.one(CHARACTER, 0, b"\\");
}

/// Each byte at each of the four places of a hex digit, also as the last one.
fn add_hex_digits(cases: &mut Cases) {
    for at in 0..4 {
        for byte in 0..=255 {
            let escape = replaced(b"\\u00aF\"", 2 + at, byte);
            cases.one(CHARACTER, 0, &escape);
            cases.one(CHARACTER, 0, &escape[..3 + at]);
            let second = replaced(b"\\uD8ff\\uDc0A\"", 8 + at, byte);
            cases.one(CHARACTER, 0, &second);
        }
    }
}

/// Codes all over the 16 bits, in each way to write hex digits.
fn add_all_hex_codes(cases: &mut Cases) {
    for code in (0..=0xFFFF).step_by(19) {
        let style = STYLES[2 + code as usize % 3];
        cases.one(CHARACTER, 0, &joined(&[&written(code, style), b"\""]));
    }
}

/// Both sides of each line between surrogates and other codes.
const NEAR_SURROGATES: [u32; 10] =
    [0x0041, 0xD7FF, 0xD800, 0xD801, 0xDBFE, 0xDBFF, 0xDC00, 0xDC01, 0xDFFF, 0xE000];

fn add_surrogate_pairs(cases: &mut Cases) {
    for first in NEAR_SURROGATES {
        for second in NEAR_SURROGATES {
            for between in ["", " ", "x", "\\n", "\\", "\"", "\\\\", "é"] {
                let style = STYLES[2 + cases.random.below(3)];
                let inner = joined(&[
                    &written(first, style),
                    between.as_bytes(),
                    &written(second, STYLES[2 + cases.random.below(3)]),
                ]);
                cases.one(CHARACTER, 0, &inner);
                cases.text_by_each_kind(0, &quoted(&inner));
            }
        }
    }
}

/// A pair cut at each length, with odd bytes at each place, and each code of
/// the low half taken as the first of a pair.
fn add_broken_surrogate_pairs(cases: &mut Cases) {
    let pair = br#"\uD83d\uDe00"#;
    for length in 0..=pair.len() {
        cases.one(CHARACTER, 0, &pair[..length]);
        cases.text_by_each_kind(0, &joined(&[b"\"", &pair[..length]]));
        cases.text_by_each_kind(0, &quoted(&pair[..length]));
    }
    for at in 0..pair.len() {
        for byte in ODD_BYTES {
            cases.one(CHARACTER, 0, &replaced(pair, at, byte));
            cases.text_by_some_kind(0, &quoted(&inserted(pair, at, byte)));
        }
    }
    for code in (0xD7F0..=0xE010).step_by(5) {
        let first = written(code, STYLES[3]);
        cases.one(CHARACTER, 0, &joined(&[&first, br#"\uDC07"#]));
        cases.one(CHARACTER, 0, &joined(&[br#"\uDBFF"#, &first]));
    }
}

fn add_places_past_the_end(cases: &mut Cases) {
    for length in 0..3 {
        let bytes = &b"\"\"x"[..length];
        for at in length..=length + 2 {
            cases.one(CHARACTER, at, bytes);
            cases.text_by_each_kind(at, bytes);
        }
    }
}

fn add_long_strings(cases: &mut Cases) {
    let plain = quoted(&vec![b'a'; LONGEST - 2]);
    cases.push(TEXT, 0, 2, &plain, &[]);
    let unclosed = joined(&[b"\"", &vec![b'a'; LONGEST - 1]]);
    cases.push(TEXT, 0, 1, &unclosed, &[]);
    let wide = quoted(&"a\u{20AC} \u{1F600}\\u00e9".repeat(6_000).into_bytes());
    cases.text_by_each_kind(0, &wide);
    let escapes = quoted(&br#"\uD83D\uDE00\n"#.repeat(7_000));
    cases.text_by_each_kind(0, &escapes);
    let last_wrong = quoted(&joined(&[&vec![b'a'; 99_000], b"b "]));
    cases.text_by_each_kind(0, &last_wrong);
    let last_white = quoted(&joined(&[&vec![b'a'; 99_000], "\u{A0}".as_bytes()]));
    cases.text_by_each_kind(0, &last_white);
    let unlisted = quoted("a\u{200B}\\u180E ".repeat(7_000).trim_end().as_bytes());
    cases.text_by_each_kind(0, &unlisted);
    let last_broken = joined(&[b"\"", &vec![b'a'; 99_000], &[0xE2, 0x82]]);
    cases.text_by_each_kind(0, &last_broken);
}

/// A run of so many plain bytes.
fn letters(length: usize) -> Vec<u8> {
    b"Quay-wall_7".iter().copied().cycle().take(length).collect()
}

/// Runs of letters of several lengths, and at each of their places the bytes at
/// which such a run may end, or just not: by themselves and before a closing
/// quote; and the file's end at each place.
fn add_plain_runs(cases: &mut Cases) {
    const ENDS: [u8; 15] =
        [0x1F, 0x20, 0x21, 0x22, 0x23, 0x5B, 0x5C, 0x5D, 0x7E, 0x7F, 0x80, 0xBF, 0xC2, 0xE2, 0xFF];
    for length in [1, 2, 3, 7, 8, 9, 15, 16, 17, 33] {
        let run = quoted(&letters(length));
        for at in 0..=run.len() {
            cases.text_by_some_kind(0, &run[..at]);
            for byte in ENDS {
                cases.text_by_some_kind(0, &inserted(&run, at, byte));
                cases.text_by_some_kind(0, &inserted(&inserted(&run, at, b'"'), at, byte));
            }
        }
        for at in 1..run.len() - 1 {
            for byte in ENDS {
                cases.text_by_each_kind(0, &replaced(&run, at, byte));
            }
            for character in ["\\\\", "\\u0041", "\\u0020", "é", "\u{1F600}"] {
                let written = joined(&[&run[..at], character.as_bytes(), &run[at..]]);
                cases.text_by_each_kind(0, &written);
            }
        }
    }
}

// ---------------------------------------------------- eight bytes at once

/// The bytes at which a run of plain ones ends, those beside them, and those
/// that are one of them but for the highest bit.
const EDGES: [u8; 15] =
    [0x00, 0x1F, 0x20, 0x21, 0x22, 0x23, 0x5B, 0x5C, 0x5D, 0x7E, 0x7F, 0x80, 0xA2, 0xA3, 0xFF];

/// The longest run is of three times eight bytes.
const LONGEST_RUN: usize = 24;

/// Plain bytes may be passed over eight at a time, and others only one by one.
pub(super) fn add_eights(cases: &mut Cases) {
    for length in 0..=LONGEST_RUN {
        for before in 0..=8 {
            add_ended_run(cases, length, before);
        }
    }
    add_each_byte_in_a_run(cases);
    add_two_edges(cases);
}

/// A run of that length, ended by the file, by the closing quote, by an edge or
/// by an escape: behind so many other bytes with no more than a quote behind it,
/// or behind so many letters and an escape, with more than eight bytes behind it
/// or none.
fn add_ended_run(cases: &mut Cases, length: usize, before: usize) {
    let run = letters(length);
    let opened = joined(&[&vec![b'['; before], b"\"", &run]);
    let further = joined(&[b"\"", &letters(before), b"\\/", &run]);
    cases.text_by_each_kind(before, &opened);
    cases.text_by_each_kind(before, &joined(&[&opened, b"\""]));
    let edges = EDGES.iter().map(|edge| vec![*edge]);
    let escapes = [b"\\/".to_vec(), b"\\u006b".to_vec()];
    for end in edges.chain(escapes) {
        cases.text_by_each_kind(before, &joined(&[&opened, &end, b"\""]));
        cases.text_in_turn(0, &joined(&[&further, &end, b"mooring_9\",\"Name\":1"]));
        cases.text_in_turn(0, &joined(&[&further, &end]));
    }
}

/// Every byte in the first eight, in the second, and right behind them; the file
/// ends with the string, or it goes on.
fn add_each_byte_in_a_run(cases: &mut Cases) {
    let run = quoted(&letters(20));
    for byte in 0..=255 {
        for at in 0..17 {
            let changed = replaced(&run, 1 + at, byte);
            let more: &[u8] = if (at + byte as usize) % 2 == 0 { b"" } else { b",\"Name\":1}" };
            cases.text_in_turn(0, &joined(&[&changed, more]));
        }
    }
}

/// Two edges side by side in the first eight, or the second one behind them;
/// also behind the first byte of a character of two.
fn add_two_edges(cases: &mut Cases) {
    let run = quoted(&letters(20));
    for first in EDGES.into_iter().chain([0xC2]) {
        for second in EDGES.into_iter().chain([0xC2]) {
            for at in 1..=8 {
                let changed = replaced(&replaced(&run, at, first), at + 1, second);
                cases.text_in_turn(0, &changed);
            }
        }
    }
}

// ------------------------------------------------- words by eight bytes

/// What may follow a space: the end of the string, an edge, an escape or a
/// character of several bytes.
const BEHIND_A_SPACE: [&str; 8] =
    ["\"", " \"", "\u{1F}", "\u{7F}", "\\u0041", "\\/", "é", "\u{1F600}"];

/// Words and the single spaces between them may be passed over at once, and other
/// spaces not. A space at each place of a run, alone, with a second one at each
/// place behind it, and before each of the bytes above; the file ends with the
/// string, or it goes on.
pub(super) fn add_words(cases: &mut Cases) {
    for length in 1..=LONGEST_RUN {
        let run = quoted(&letters(length));
        for at in 1..=length {
            let spaced = replaced(&run, at, b' ');
            cases.text_by_each_kind(0, &spaced);
            cases.text_in_turn(0, &joined(&[&spaced, b",\"Name\":1}"]));
            for second in at + 1..=length {
                let twice = replaced(&spaced, second, b' ');
                let more: &[u8] = if (at + second) % 2 == 0 { b"" } else { b",\"Name\":1}" };
                cases.text_in_turn(0, &joined(&[&twice, more]));
            }
            for behind in BEHIND_A_SPACE {
                let (front, rest) = spaced.split_at(at + 1);
                cases.text_in_turn(0, &joined(&[front, behind.as_bytes(), rest]));
            }
            cases.text_in_turn(0, &spaced[..=at]);
        }
    }
}

// ------------------------------------------------- escapes of two digits

/// An escape for a plain character may be passed over at once where its digits
/// are in lower case. Each code of two digits in each case of these, at each
/// place of a short string; cut off by the file's end; and one such escape with
/// each byte at each of its places.
pub(super) fn add_two_digit_escapes(cases: &mut Cases) {
    let escapes: Vec<Vec<u8>> = (0..=0xFF).flat_map(spellings).collect();
    for escape in &escapes {
        add_placed_escape(cases, escape);
    }
    let cut: BTreeSet<&[u8]> = escapes
        .iter()
        .flat_map(|escape| (1..=escape.len()).map(|length| &escape[..length]))
        .collect();
    for front in cut {
        cases.text_by_each_kind(0, &joined(&[b"\"", front]));
        cases.text_in_turn(0, &joined(&[b"\"Quay", front]));
    }
    let string = br#""a\u006bz""#;
    for at in 2..8 {
        for byte in 0..=255 {
            cases.text_in_turn(0, &replaced(string, at, byte));
        }
    }
}

/// The escape of a code of two digits, each of them in lower and in upper case.
fn spellings(code: u32) -> BTreeSet<Vec<u8>> {
    let [high, low] =
        [code / 16, code % 16].map(|digit| [format!("{digit:x}"), format!("{digit:X}")]);
    let pairs = high.iter().flat_map(|high| low.iter().map(move |low| (high, low)));
    pairs.map(|(high, low)| format!("\\u00{high}{low}").into_bytes()).collect()
}

/// Alone, first, last, between letters, before and behind a space, and twice.
fn add_placed_escape(cases: &mut Cases, escape: &[u8]) {
    let placed: [&[&[u8]]; 7] = [
        &[escape],
        &[escape, b"b"],
        &[b"a", escape],
        &[b"a", escape, b"b"],
        &[b"a", escape, b" b"],
        &[b"a ", escape, b"b"],
        &[escape, escape],
    ];
    for parts in placed {
        cases.text_by_each_kind(0, &quoted(&joined(parts)));
    }
}

#[cfg(test)]
mod tests {
    use super::*;
    use crate::compare::answer::answer;
    use crate::compare::case::Answer;
    use crate::compare::random::Random;
    use crate::json::decoded_codes;

    /// The answers to the cases that are added so, each with its text kind.
    fn answers(add: fn(&mut Cases)) -> Vec<(u32, Answer)> {
        let mut cases = Cases { list: Vec::new(), random: Random::new(1) };
        add(&mut cases);
        cases.list.iter().map(|case| (case.other, answer(case))).collect()
    }

    /// Strings that hold are of each length; faults of both kinds and wrong
    /// characters are at each place.
    #[test]
    fn runs_end_at_each_place() {
        let answers = answers(add_eights);
        let ends: BTreeSet<u64> =
            answers.iter().filter(|(_, a)| a[0] == 0 && a[2] == 0).map(|(_, a)| a[1]).collect();
        assert!((2..=40).all(|end| ends.contains(&end)));
        for kind in [10, 11] {
            let places: BTreeSet<u64> = answers
                .iter()
                .filter(|(_, a)| a[0] == 1 && a[1] == kind)
                .map(|(_, a)| a[2])
                .collect();
            assert!((1..=33).all(|place| places.contains(&place)), "kind {kind}");
        }
        for (text_kind, rule) in [(0, 1), (1, 1), (2, 1), (1, 2), (2, 2)] {
            let is_broken =
                |(of, a): &&(u32, Answer)| *of == text_kind && a[0] == 0 && a[2] == rule;
            let places: BTreeSet<u64> =
                answers.iter().filter(is_broken).map(|(_, a)| a[3]).collect();
            assert!((1..=33).all(|place| places.contains(&place)), "rule {rule} of {text_kind}");
        }
    }

    #[test]
    fn an_escape_has_as_many_spellings_as_its_letters_have() {
        let counts = [0x41, 0x4A, 0xA4, 0xAB].map(|code| spellings(code).len());
        assert_eq!(counts, [1, 2, 2, 4]);
        for code in 0..=0xFF {
            for escape in spellings(code) {
                assert_eq!(decoded_codes(&quoted(&escape), 0), [code]);
            }
        }
    }
}
