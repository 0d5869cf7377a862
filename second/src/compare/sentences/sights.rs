//! What the texts have to show, all together: every sentence, values of every
//! length around the one from which they are cut, and places of every sort.

use std::fmt::{self, Display};

use super::case::TextCase;
use crate::bundle::{file_part, files, FILES};
use crate::compare::tables::possible_kinds;
use crate::fields::FILE_NAMES;
use crate::reason::{reason, Reason, Shown};
use crate::rules::{files_read, FIRST_RULE, LAST_RULE};
use crate::sentence::LONGEST_VALUE;

#[derive(Clone, Copy, Debug, PartialEq, Eq, PartialOrd, Ord)]
pub enum Sight {
    Refused {
        refusal: u32,
        grouped: bool,
    },
    Accepted {
        grouped: bool,
    },
    /// The sentence of a broken rule, with a value or with null.
    Rule {
        mark: usize,
        given: bool,
    },
    /// Mark 79 with a parent by Level, or with none.
    Parent {
        named: bool,
    },
    Own {
        number: usize,
        kind: u32,
    },
    /// A line of its own for a mark that is not judged, which names the file.
    NotJudged {
        mark: usize,
        file: usize,
    },
    /// The folder's line for so many marks.
    Kept {
        file: usize,
        marks: usize,
    },
    /// A value of so many bytes.
    Value {
        mark: usize,
        length: usize,
    },
    /// Of the character at which a value is cut, so many of its bytes would
    /// still have fitted.
    Cut {
        mark: usize,
        width: usize,
        fits: usize,
    },
    /// The value is cut inside an escape.
    CutEscape {
        mark: usize,
    },
    Place {
        kind: u32,
        at: Spot,
    },
    Digits {
        of: Number,
        count: usize,
    },
}

/// Where in its file a fault stands.
#[derive(Clone, Copy, Debug, PartialEq, Eq, PartialOrd, Ord)]
pub enum Spot {
    FirstByte,
    FirstLine,
    SecondLine,
    /// Behind several line feeds.
    LaterLine,
    /// Right behind a line feed.
    LineStart,
    BehindCarriageReturn,
    /// Behind a character of so many bytes on the same line.
    BehindWide(usize),
    /// Behind such a character on an earlier line alone.
    BelowWide,
    End,
    EndBehindLineFeed,
}

/// The numbers within a sentence.
#[derive(Clone, Copy, Debug, PartialEq, Eq, PartialOrd, Ord)]
pub enum Number {
    Line,
    Column,
    Record,
    Companion,
    RecordOfFault,
}

impl Display for Sight {
    fn fmt(&self, out: &mut fmt::Formatter) -> fmt::Result {
        write!(out, "{self:?}")
    }
}

// ---------------------------------------------------------------- wanted

/// The kinds whose sentence has a line and a column.
const PLACED: [u32; 15] = [10, 11, 12, 13, 14, 15, 17, 18, 19, 20, 30, 31, 32, 33, 34];

pub(super) fn wanted() -> Vec<Sight> {
    let mut wanted = Vec::new();
    for grouped in [false, true] {
        wanted.push(Sight::Accepted { grouped });
        wanted.extend((1..=3).map(|refusal| Sight::Refused { refusal, grouped }));
    }
    for number in 0..FILES {
        let kinds = possible_kinds(number).into_iter().filter(|kind| *kind != 0);
        wanted.extend(kinds.map(|kind| Sight::Own { number, kind }));
        wanted.extend(wanted_kept(number));
    }
    for mark in FIRST_RULE..=LAST_RULE {
        wanted.extend(files_read(mark).into_iter().map(|file| Sight::NotJudged { mark, file }));
        wanted.extend(wanted_of_rule(mark));
    }
    wanted.extend([false, true].map(|named| Sight::Parent { named }));
    for kind in PLACED {
        wanted.extend(spots_of(kind).into_iter().map(|at| Sight::Place { kind, at }));
    }
    for of in
        [Number::Line, Number::Column, Number::Record, Number::Companion, Number::RecordOfFault]
    {
        wanted.extend((1..=4).map(|count| Sight::Digits { of, count }));
    }
    wanted.push(Sight::Digits { of: Number::Line, count: 6 });
    wanted.push(Sight::Digits { of: Number::Column, count: 6 });
    wanted
}

/// The most and the fewest marks that a file can keep from being judged: those
/// of all rules that read it, and of those that read no lower-numbered one.
fn wanted_kept(file: usize) -> Vec<Sight> {
    let reading: Vec<Vec<usize>> =
        (FIRST_RULE..=LAST_RULE).map(files_read).filter(|read| read.contains(&file)).collect();
    let alone = reading.iter().filter(|read| read.iter().all(|other| *other >= file)).count();
    let counts = [reading.len(), alone].into_iter().filter(|marks| *marks > 0);
    counts.map(|marks| Sight::Kept { file, marks }).collect()
}

fn wanted_of_rule(mark: usize) -> Vec<Sight> {
    let given: &[bool] = match mark {
        71 | 75 | 77 => &[false],
        69 | 79 | 80 => &[false, true],
        _ => &[true],
    };
    let mut wanted: Vec<Sight> =
        given.iter().map(|given| Sight::Rule { mark, given: *given }).collect();
    // A date has at most 62 bytes, all in escapes.
    if given.contains(&true) && mark != 66 {
        wanted.extend((79..=82).map(|length| Sight::Value { mark, length }));
        // Numbers have no escapes.
        if ![68, 69, 70, 78].contains(&mark) {
            wanted.push(Sight::CutEscape { mark });
        }
    }
    // Only a String can have other characters than those of an ID.
    if [65, 72, 76].contains(&mark) {
        for width in 1..=4 {
            wanted.extend((0..width).map(|fits| Sight::Cut { mark, width, fits }));
        }
    }
    wanted
}

fn spots_of(kind: u32) -> Vec<Spot> {
    let mut spots =
        vec![Spot::FirstLine, Spot::SecondLine, Spot::LaterLine, Spot::BehindCarriageReturn];
    // No table with numbers has a String or a Text.
    if ![18, 34].contains(&kind) {
        spots.extend((2..=4).map(Spot::BehindWide));
        spots.push(Spot::BelowWide);
    }
    // A wrong character stands in a string, which has no line feed in it.
    if ![10, 30, 31, 32, 33].contains(&kind) {
        spots.push(Spot::LineStart);
    }
    if [11, 12].contains(&kind) {
        spots.push(Spot::FirstByte);
    }
    if kind == 11 {
        spots.extend([Spot::End, Spot::EndBehindLineFeed]);
    }
    spots
}

// ------------------------------------------------------------------ seen

pub(super) fn sights_of(case: &TextCase, text: &[u8]) -> Vec<Sight> {
    let bundle = &case.bundle;
    let asked = Asked {
        bundle,
        grouped: case.grouped,
        file_names: &FILE_NAMES,
        refusal: files(bundle).err(),
        reason: &|mark| reason(bundle, mark),
        part: &|file| file_part(bundle, file),
        parents: &[79],
    };
    sights_of_gate(&asked, text)
}

/// A bundle of any gate whose text is asked for.
pub(super) struct Asked<'a> {
    pub bundle: &'a [u8],
    pub grouped: bool,
    pub file_names: &'a [&'a str],
    pub refusal: Option<u32>,
    pub reason: &'a dyn Fn(usize) -> Reason,
    pub part: &'a dyn Fn(usize) -> &'a [u8],
    /// The marks that name the parent by Level.
    pub parents: &'a [usize],
}

pub(super) fn sights_of_gate(asked: &Asked, text: &[u8]) -> Vec<Sight> {
    if let Some(refusal) = asked.refusal {
        return vec![Sight::Refused { refusal, grouped: asked.grouped }];
    }
    let text = std::str::from_utf8(text).expect("the right text is UTF-8");
    text.lines().flat_map(|line| of_line(asked, line)).collect()
}

fn of_line(asked: &Asked, line: &str) -> Vec<Sight> {
    if line == "accepted" {
        return vec![Sight::Accepted { grouped: asked.grouped }];
    }
    if let Some((name, rest)) = line.split_once(".json does not hold, so that ") {
        let file = asked.file_names.iter().position(|other| *other == name);
        let marks = rest.split(' ').next().and_then(|count| count.parse().ok());
        return match (file, marks) {
            (Some(file), Some(marks)) => vec![Sight::Kept { file, marks }],
            _ => Vec::new(),
        };
    }
    // The first line and the last have no number in front.
    match line.split(' ').next().and_then(|number| number.parse().ok()) {
        Some(mark) => of_mark(asked, mark),
        None => Vec::new(),
    }
}

fn of_mark(asked: &Asked, mark: usize) -> Vec<Sight> {
    match (asked.reason)(mark) {
        Reason::Refused(_) | Reason::Holds => Vec::new(),
        Reason::NotJudged { file } => vec![Sight::NotJudged { mark, file }],
        Reason::Broken(shown) | Reason::Missing { shown, .. } => {
            let mut sights = of_shown(mark, shown, shown.value(asked.bundle));
            if asked.parents.contains(&mark) {
                sights.push(Sight::Parent { named: shown.companion > 0 });
            }
            sights
        }
        Reason::OwnMark(own) => {
            let mut sights = vec![Sight::Own { number: mark, kind: own.kind }];
            if PLACED.contains(&own.kind) {
                let contents = (asked.part)(mark);
                sights.extend(of_place(own.kind, contents, own.place as usize));
            }
            if own.companion > 0 {
                sights.push(digits(Number::RecordOfFault, own.companion as usize));
            }
            sights
        }
    }
}

fn digits(of: Number, number: usize) -> Sight {
    Sight::Digits { of, count: number.to_string().len() }
}

fn of_shown(mark: usize, shown: Shown, value: &[u8]) -> Vec<Sight> {
    let mut sights = vec![
        Sight::Rule { mark, given: !value.is_empty() },
        Sight::Value { mark, length: value.len() },
        digits(Number::Record, shown.record),
    ];
    if shown.companion > 0 {
        sights.push(digits(Number::Companion, shown.companion));
    }
    if value.len() > LONGEST_VALUE {
        sights.extend(of_cut(mark, value));
    }
    sights
}

/// By the bytes alone: a character begins where no byte from 80 to BF stands.
fn of_cut(mark: usize, value: &[u8]) -> Vec<Sight> {
    let continues = |at: usize| value.get(at).is_some_and(|byte| (0x80..0xC0).contains(byte));
    let begin = (0..=LONGEST_VALUE).rev().find(|at| !continues(*at)).unwrap_or(0);
    let end = (begin + 1..).find(|at| !continues(*at)).unwrap_or(value.len());
    let mut sights = vec![Sight::Cut { mark, width: end - begin, fits: LONGEST_VALUE - begin }];
    if is_inside_escape(value, LONGEST_VALUE) {
        sights.push(Sight::CutEscape { mark });
    }
    sights
}

/// Whether an escape begins before that place and doesn't end there.
fn is_inside_escape(value: &[u8], place: usize) -> bool {
    let mut at = 0;
    while at < place {
        let length = match (value[at], value.get(at + 1)) {
            (b'\\', Some(b'u')) => 6,
            (b'\\', _) => 2,
            _ => 1,
        };
        if at + length > place {
            return true;
        }
        at += length;
    }
    false
}

fn of_place(kind: u32, contents: &[u8], place: usize) -> Vec<Sight> {
    let before = &contents[..place];
    let feeds = before.iter().filter(|byte| **byte == b'\n').count();
    let start = before.iter().rposition(|byte| *byte == b'\n').map_or(0, |feed| feed + 1);
    let mut spots = Vec::new();
    spots.push(match (place, feeds) {
        (0, _) => Spot::FirstByte,
        (_, 0) => Spot::FirstLine,
        (_, 1) => Spot::SecondLine,
        _ => Spot::LaterLine,
    });
    if feeds > 0 && start == place {
        spots.push(Spot::LineStart);
    }
    if before.windows(2).any(|two| two == b"\r\n") {
        spots.push(Spot::BehindCarriageReturn);
    }
    let widths = |part: &[u8]| -> Vec<usize> { part.iter().filter_map(width).collect() };
    let here = widths(&before[start..]);
    if here.is_empty() && !widths(before).is_empty() {
        spots.push(Spot::BelowWide);
    }
    spots.extend(here.into_iter().map(Spot::BehindWide));
    if place == contents.len() && place > 0 {
        spots.push(if start == place { Spot::EndBehindLineFeed } else { Spot::End });
    }
    let characters = before[start..].iter().filter(|byte| !(0x80..0xC0).contains(*byte)).count();
    let mut sights: Vec<Sight> = spots.into_iter().map(|at| Sight::Place { kind, at }).collect();
    sights.extend([digits(Number::Line, feeds + 1), digits(Number::Column, characters + 1)]);
    sights
}

/// The bytes of a character of several, by its first one.
fn width(first: &u8) -> Option<usize> {
    match first {
        0xC0..=0xDF => Some(2),
        0xE0..=0xEF => Some(3),
        0xF0..=0xFF => Some(4),
        _ => None,
    }
}

#[cfg(test)]
mod tests {
    use super::*;
    use crate::compare::gate::sample::{accepted, Set};
    use crate::compare::run::Question;

    fn sights(set: &Set, grouped: bool) -> Vec<Sight> {
        let case = TextCase { bundle: set.bundle().into(), grouped };
        case.sights(&case.answer())
    }

    #[test]
    fn every_sentence_is_wanted() {
        let wanted = wanted();
        for mark in FIRST_RULE..=LAST_RULE {
            let is_rule =
                |sight: &&Sight| matches!(sight, Sight::Rule { mark: of, .. } if *of == mark);
            let expected = if [69, 79, 80].contains(&mark) { 2 } else { 1 };
            assert_eq!(wanted.iter().filter(is_rule).count(), expected, "mark {mark}");
        }
        for kind in PLACED.into_iter().chain([21, 22]) {
            let is_kind =
                |sight: &Sight| matches!(sight, Sight::Own { kind: of, .. } if *of == kind);
            assert!(wanted.iter().any(is_kind), "kind {kind}");
        }
        // One mark, and several.
        assert!(wanted.contains(&Sight::Kept { file: 3, marks: 1 }));
        assert!(wanted.contains(&Sight::Kept { file: 9, marks: 18 }));
        assert!(wanted.contains(&Sight::Kept { file: 15, marks: 7 }));
        assert!(wanted.contains(&Sight::Kept { file: 15, marks: 3 }));
        assert!(!wanted.iter().any(|sight| matches!(sight, Sight::Kept { file: 0 | 2, .. })));
    }

    #[test]
    fn lines_are_told_apart() {
        assert_eq!(sights(&accepted(), true), [Sight::Accepted { grouped: true }]);
        let broken = accepted().with(3, "[");
        let own = [
            Sight::Own { number: 3, kind: 12 },
            Sight::Place { kind: 12, at: Spot::FirstByte },
            digits(Number::Line, 1),
            digits(Number::Column, 1),
        ];
        let kept = Sight::Kept { file: 3, marks: 1 };
        assert_eq!(sights(&broken, true), [&own[..], &[kept]].concat());
        let alone = Sight::NotJudged { mark: 37, file: 3 };
        assert_eq!(sights(&broken, false), [&own[..], &[alone]].concat());
        let case = TextCase { bundle: Vec::new().into(), grouped: false };
        let refused = Sight::Refused { refusal: 1, grouped: false };
        assert_eq!(case.sights(&case.answer()), [refused]);
    }

    #[test]
    fn a_cut_is_found_by_its_bytes() {
        let cut = |value: &str| of_cut(65, value.as_bytes());
        let at = |width, fits| Sight::Cut { mark: 65, width, fits };
        let letters = "x".repeat(79);
        assert_eq!(cut(&format!("{letters}xyz")), [at(1, 0)]);
        assert_eq!(cut(&format!("{letters}é")), [at(2, 1)]);
        assert_eq!(cut(&format!("{letters}x世")), [at(3, 0)]);
        assert_eq!(cut(&format!("{}😀", &letters[1..])), [at(4, 2)]);
        assert_eq!(cut(&format!("{letters}\\n")), [at(1, 0), Sight::CutEscape { mark: 65 }]);
        assert_eq!(cut(&format!("{}\\nn", &letters[1..])), [at(1, 0)]);
        let escape = format!("{}\\u0041", &letters[4..]);
        assert_eq!(cut(&escape), [at(1, 0), Sight::CutEscape { mark: 65 }]);
    }

    #[test]
    fn a_place_is_told_by_what_stands_before_it() {
        let spots = |contents: &str, place| -> Vec<Spot> {
            let sights = of_place(11, contents.as_bytes(), place);
            let spots = sights.into_iter().filter_map(|sight| match sight {
                Sight::Place { at, .. } => Some(at),
                _ => None,
            });
            spots.collect()
        };
        assert_eq!(spots("x", 0), [Spot::FirstByte]);
        assert_eq!(spots("", 0), [Spot::FirstByte]);
        assert_eq!(spots("[x", 1), [Spot::FirstLine]);
        assert_eq!(spots("[\nx", 2), [Spot::SecondLine, Spot::LineStart]);
        assert_eq!(spots("\n[\n", 2), [Spot::SecondLine]);
        assert_eq!(spots("[\r\n\n x", 5), [Spot::LaterLine, Spot::BehindCarriageReturn]);
        assert_eq!(spots("é世x", 5), [Spot::FirstLine, Spot::BehindWide(2), Spot::BehindWide(3)]);
        assert_eq!(spots("😀\n x", 6), [Spot::SecondLine, Spot::BelowWide]);
        assert_eq!(spots("[", 1), [Spot::FirstLine, Spot::End]);
        assert_eq!(spots("[\n", 2), [Spot::SecondLine, Spot::LineStart, Spot::EndBehindLineFeed]);
    }
}
