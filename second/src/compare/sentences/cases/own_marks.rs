//! Faults of every kind in every file, and anywhere in it: on the first line, on
//! later ones, behind carriage returns, behind characters of several bytes, at
//! the file's end.

use super::Cases;
use crate::bundle::FILES;
use crate::compare::faulty::faulty_files;
use crate::compare::gate::reason_sights::token_end;
use crate::compare::random::Random;
use crate::fields::{fields_of, Type};
use crate::table::read_file;

pub(super) fn add(cases: &mut Cases) {
    for number in 0..FILES {
        for contents in WHOLE_FILES {
            add_file(cases, number, contents);
        }
        let without = cases.only(&[]).without(number).bundle();
        cases.in_either(without);
    }
    for number in 1..FILES {
        for file in faulty_files(number, 1) {
            add_anyhow(cases, number, &file.contents);
        }
    }
    for kind in 10..=34 {
        add_kind(cases, kind);
    }
    add_cut_off(cases);
}

const WHOLE_FILES: [&[u8]; 12] = [
    b"",
    b"\n",
    b" \r\n",
    b"[",
    b"[\n",
    b"{}",
    b"[{}]",
    b"\r\r null",
    b"\n\n[1]",
    b"\xEF\xBB\xBF[]",
    b" [ {\"x\":1} ]",
    b"\xFF\xFE[\0",
];

fn add_file(cases: &mut Cases, number: usize, contents: &[u8]) {
    let bundle = cases.only(&[]).with_bytes(number, contents).bundle();
    cases.in_either(bundle);
}

// ---------------------------------------------------------------- layouts

/// What stands between the pieces of a file up to its fault: once in so many
/// gaps one of these.
#[derive(Clone, Copy)]
struct Gaps(usize, &'static [&'static [u8]]);

const NONE: Gaps = Gaps(1, &[b""]);
const FEEDS: Gaps = Gaps(1, &[b"\n"]);
const INDENTED: Gaps = Gaps(2, &[b"\n  ", b" ", b"\t"]);
const RETURNS: Gaps = Gaps(3, &[b"\r\n", b"\r\n    "]);
const MIXED: Gaps = Gaps(6, &[b"\n", b"\r", b"\r\n", b"\n\r", b"\t", b" ", b"\n\n\n"]);

/// Nothing, one of each width, and several.
const WIDE: [&str; 5] = ["", "\u{f6}", "\u{20ac}", "\u{1f600}", "\u{e9}\u{4e16}\u{7ff}\u{10ffff}"];

fn add_anyhow(cases: &mut Cases, number: usize, contents: &[u8]) {
    let gaps = cases.random.pick(&[NONE, FEEDS, INDENTED, RETURNS, MIXED]);
    let wide = cases.random.pick(&WIDE);
    let laid_out = laid_out(number, contents, gaps, wide, &mut cases.random);
    add_file(cases, number, &laid_out);
}

/// Faults of that kind in every layout, in a few of the files that can have
/// them: first of all such as have wide characters before the fault.
fn add_kind(cases: &mut Cases, kind: u32) {
    let mut files: Vec<(usize, Vec<u8>)> = Vec::new();
    for number in 1..FILES {
        let of_kind = faulty_files(number, 1).into_iter().filter(|file| file.kind == kind);
        files.extend(of_kind.map(|file| (number, file.contents)));
    }
    let random = &mut cases.random;
    let has_room = |number: usize, file: &[u8], random: &mut Random| {
        laid_out(number, file, NONE, WIDE[1], random) != file
    };
    files.sort_by_cached_key(|(number, file)| !has_room(*number, file, random));
    for (number, file) in files.into_iter().take(3) {
        for gaps in [NONE, FEEDS, RETURNS, MIXED] {
            for wide in WIDE {
                let laid_out = laid_out(number, &file, gaps, wide, &mut cases.random);
                add_file(cases, number, &laid_out);
            }
        }
        // One line feed in front of all, and one in front of the fault.
        let line = laid_out(number, &file, NONE, WIDE[4], &mut cases.random);
        for at in [0, token_with(&line, place_of_fault(number, &line))] {
            add_file(cases, number, &[&line[..at], b"\n", &line[at..]].concat());
        }
    }
}

fn place_of_fault(number: usize, contents: &[u8]) -> usize {
    read_file(number, Some(contents)).expect_err("the file has a fault").place as usize
}

/// Where the piece of the file begins that has this place in it.
fn token_with(contents: &[u8], place: usize) -> usize {
    let mut at = 0;
    while at < contents.len() && token_end(contents, at) <= place {
        at = token_end(contents, at);
    }
    at
}

/// The file with these gaps before the pieces that stand before its fault, and
/// with wide characters in the strings there that may have them.
fn laid_out(
    number: usize,
    contents: &[u8],
    gaps: Gaps,
    wide: &str,
    random: &mut Random,
) -> Vec<u8> {
    let fault = place_of_fault(number, contents);
    let mut laid_out = Vec::new();
    let mut is_wide_field = false;
    let mut at = 0;
    while at < contents.len() && at <= fault {
        let end = token_end(contents, at);
        laid_out.extend_from_slice(gap(gaps, random));
        let token = &contents[at..end];
        match token {
            [b'"', rest @ ..] if is_wide_field && end <= fault => {
                laid_out.extend([b"\"", wide.as_bytes(), rest].concat());
            }
            _ => laid_out.extend_from_slice(token),
        }
        if token != b":" {
            is_wide_field = may_be_wide(number, token);
        }
        at = end;
    }
    laid_out.extend_from_slice(&contents[at..]);
    laid_out
}

fn gap(Gaps(often, choices): Gaps, random: &mut Random) -> &'static [u8] {
    match random.below(often) {
        0 => random.pick(choices),
        _ => b"",
    }
}

/// Whether the token is the name of a String or a Text.
fn may_be_wide(number: usize, token: &[u8]) -> bool {
    let is_named = |name: &str| token == format!("\"{name}\"").as_bytes();
    fields_of(number)
        .any(|field| matches!(field.kind, Type::String | Type::Text) && is_named(field.name))
}

/// A file cut off behind each of its bytes, between lines and inside characters.
fn add_cut_off(cases: &mut Cases) {
    let file = "[\r\n{\"ID\":\"A\",\"Name\":\"\u{f6}\u{20ac}\u{1f600}\"},\n\n{\"Name\":\"\u{f6}\\u00f6\",\r\"ID\":\"B\"}\n]";
    for length in 0..file.len() {
        add_file(cases, 6, &file.as_bytes()[..length]);
    }
    // Whole, with something behind it.
    for behind in [" x", "\n]", "\r\n\r\n,", "\n\u{f6}"] {
        add_file(cases, 6, format!("{file}{behind}").as_bytes());
    }
}

#[cfg(test)]
mod tests {
    use super::*;

    #[test]
    fn a_file_is_laid_out_up_to_its_fault() {
        let mut random = Random::new(1);
        let file = br#"[{"ID":"A","Name":"N"},{"ID":1,"Name":"N"}]"#;
        let lines = laid_out(6, file, FEEDS, "", &mut random);
        let expected = "\n[\n{\n\"ID\"\n:\n\"A\"\n,\n\"Name\"\n:\n\"N\"\n}\n,\n{\n\"ID\"\n:\n1,\"Name\":\"N\"}]";
        assert_eq!(String::from_utf8(lines).unwrap(), expected);
        let wide = laid_out(6, file, NONE, WIDE[2], &mut random);
        let expected = "[{\"ID\":\"A\",\"Name\":\"\u{20ac}N\"},{\"ID\":1,\"Name\":\"N\"}]";
        assert_eq!(String::from_utf8(wide).unwrap(), expected);
    }

    /// The fault is the one that the file had.
    #[test]
    fn another_layout_keeps_the_kind() {
        let mut random = Random::new(2);
        for number in 1..FILES {
            for file in faulty_files(number, 1).into_iter().filter(|file| file.kind != 11) {
                for gaps in [NONE, FEEDS, INDENTED, RETURNS, MIXED] {
                    let laid_out = laid_out(number, &file.contents, gaps, WIDE[4], &mut random);
                    let mark = read_file(number, Some(&laid_out)).unwrap_err();
                    assert_eq!((mark.kind, mark.companion), (file.kind, file.companion));
                }
            }
        }
    }
}
