//! What the questions for reasons have to show, and what none of them may. The
//! value that decides is found here by quotes, commas and braces alone: nothing
//! is told by the reader that answers the cases.

use std::fmt::{self, Display};
use std::ops::Range;

use super::answer::{Nine, BROKEN, HOLDING, MISSING, NOT_JUDGED, OWN_MARK, REFUSED};
use crate::board::MARKS;
use crate::bundle::{file_part, FILES, NO_SUCH_MARK};
use crate::compare::tables::possible_kinds;
use crate::compare::tables::standing::{places_of, records_begun, standing_among, At};
use crate::fields::fields_of;
use crate::json::decoded_codes;
use crate::rules::{files_read, FIRST_RULE, LAST_RULE};
use crate::table::{is_singleton, read_file};

/// Mark numbers far over 80, and such as would be a mark's if some of their
/// bits were lost.
pub(in crate::compare) const LARGE_MARKS: [u32; 12] = [
    127,
    128,
    255,
    256,
    256 + 67,
    (1 << 16) + 23,
    (1 << 24) + 80,
    (1 << 31) - 1,
    1 << 31,
    (1 << 31) + 49,
    u32::MAX - 80,
    u32::MAX,
];

/// All mark numbers that are asked for, known or not.
pub(super) fn asked_marks() -> impl Iterator<Item = u32> {
    (0..=100).chain(LARGE_MARKS.iter().copied())
}

#[derive(Clone, Copy, Debug, PartialEq, Eq, PartialOrd, Ord)]
pub enum Told {
    Asked {
        mark: u32,
    },
    /// A refusal for a mark number that is over 80, or isn't.
    Refused {
        refusal: u32,
        over: bool,
    },
    Holds {
        mark: usize,
    },
    /// The file named is the only unreadable one that the rule reads, or not.
    NotJudged {
        mark: usize,
        file: usize,
        both: bool,
    },
    /// Not judged, and a file with a lower number that the rule doesn't read
    /// has a fault as well.
    PassedOver {
        mark: usize,
    },
    Own {
        number: usize,
        kind: u32,
    },
    /// Broken at such a record, by a value or by null.
    Shown {
        mark: usize,
        at: At,
        given: bool,
    },
    Field {
        mark: usize,
        field: usize,
    },
    Null {
        mark: usize,
        form: Null,
    },
    /// The value has an escape in it.
    Escaped {
        mark: usize,
    },
    /// The value is the first or the last one written in its record of several.
    Written {
        mark: usize,
        last: bool,
    },
    Front {
        mark: usize,
        front: Front,
    },
    /// Another value than the deciding field's, or another place.
    Astray {
        mark: usize,
    },
    /// An answer that this mark can't have.
    Odd {
        mark: usize,
    },
}

/// How a null stands in its record.
#[derive(Clone, Copy, Debug, PartialEq, Eq, PartialOrd, Ord)]
pub enum Null {
    Absent,
    Literal,
    Empty,
}

/// What stands between the header and the file of a value: no file, files
/// without bytes, or some bytes.
#[derive(Clone, Copy, Debug, PartialEq, Eq, PartialOrd, Ord)]
pub enum Front {
    Nothing,
    EmptyFiles,
    Bytes,
}

impl Display for Told {
    fn fmt(&self, out: &mut fmt::Formatter) -> fmt::Result {
        write!(out, "a reason: {self:?}")
    }
}

// ---------------------------------------------------------------- wanted

pub(super) fn wanted() -> Vec<Told> {
    let mut wanted: Vec<Told> = asked_marks().map(|mark| Told::Asked { mark }).collect();
    for refusal in 1..=3 {
        wanted.extend([false, true].map(|over| Told::Refused { refusal, over }));
    }
    wanted.push(Told::Refused { refusal: NO_SUCH_MARK, over: true });
    wanted.extend((0..MARKS).map(|mark| Told::Holds { mark }));
    for number in 0..FILES {
        let kinds = possible_kinds(number).into_iter().filter(|kind| *kind != 0);
        wanted.extend(kinds.map(|kind| Told::Own { number, kind }));
    }
    for mark in FIRST_RULE..=LAST_RULE {
        wanted.extend(wanted_unread(mark));
        wanted.extend(wanted_broken(mark));
    }
    wanted
}

fn wanted_unread(mark: usize) -> Vec<Told> {
    let files = files_read(mark);
    let mut wanted = vec![Told::PassedOver { mark }];
    wanted.extend(files.iter().map(|file| Told::NotJudged { mark, file: *file, both: false }));
    if files.len() > 1 {
        let file = files.iter().copied().min().expect("a rule reads a file");
        wanted.push(Told::NotJudged { mark, file, both: true });
    }
    wanted
}

fn wanted_broken(mark: usize) -> Vec<Told> {
    let mut wanted = Vec::new();
    let places = places_of(files_read(mark)[0]).into_iter();
    // A key needs an earlier record to be broken, and so does a parent.
    let is_late = (20..=35).contains(&mark) || mark == 80;
    for at in places.filter(|at| !(is_late && *at == At::First)) {
        let shown = |given| Told::Shown { mark, at, given };
        wanted.extend([true, false].into_iter().filter(|given| can_be(mark, *given)).map(shown));
    }
    wanted.extend(deciding_fields(mark).into_iter().map(|field| Told::Field { mark, field }));
    wanted.extend(null_forms(mark).iter().map(|form| Told::Null { mark, form: *form }));
    if can_be(mark, true) {
        wanted.extend([false, true].map(|last| Told::Written { mark, last }));
        let fronts = [Front::Nothing, Front::EmptyFiles, Front::Bytes];
        wanted.extend(fronts.map(|front| Told::Front { mark, front }));
        // Numbers have no escapes.
        if ![68, 69, 70, 78].contains(&mark) {
            wanted.push(Told::Escaped { mark });
        }
    }
    wanted
}

/// Whether the mark can be broken by a value, or by null.
fn can_be(mark: usize, given: bool) -> bool {
    match mark {
        69 | 79 | 80 => true,
        71 | 75 | 77 => !given,
        _ => given,
    }
}

/// The fields that decide over the marks that have several, or one alone.
fn deciding_fields(mark: usize) -> Vec<usize> {
    match mark {
        68 => (2..=8).collect(),
        69 | 70 => vec![2],
        75 => (13..=17).collect(),
        _ => Vec::new(),
    }
}

fn null_forms(mark: usize) -> &'static [Null] {
    match mark {
        71 | 79 | 80 => &[Null::Absent, Null::Literal, Null::Empty],
        69 | 75 | 77 => &[Null::Absent, Null::Literal],
        _ => &[],
    }
}

/// What no case may show.
pub(super) fn ruled_out() -> Vec<Told> {
    let astray = (0..MARKS).map(|mark| Told::Astray { mark });
    astray.chain((0..MARKS).map(|mark| Told::Odd { mark })).collect()
}

// ------------------------------------------------------------------ seen

pub(super) fn sights_of(bundle: &[u8], number: u32, nine: &Nine) -> Vec<Told> {
    let mark = number as usize;
    let mut sights = vec![Told::Asked { mark: number }];
    match *nine {
        [REFUSED, refusal, ..] => sights.push(Told::Refused { refusal, over: mark >= MARKS }),
        [HOLDING, ..] => sights.push(Told::Holds { mark }),
        [NOT_JUDGED, file, ..] if mark >= FIRST_RULE => {
            sights.extend(of_unread(bundle, mark, file as usize));
        }
        [OWN_MARK, kind, ..] if mark < FIRST_RULE => sights.push(Told::Own { number: mark, kind }),
        [BROKEN, ..] if mark >= FIRST_RULE && !is_target(mark) => {
            sights.extend(of_shown(bundle, mark, nine));
        }
        [MISSING, .., searched, 0] if is_target(mark) => {
            sights.extend(of_shown(bundle, mark, nine));
            if files_read(mark)[1] != searched as usize {
                sights.push(Told::Odd { mark });
            }
        }
        _ => sights.push(Told::Odd { mark }),
    }
    sights
}

fn is_target(mark: usize) -> bool {
    (48..=64).contains(&mark)
}

fn of_unread(bundle: &[u8], mark: usize, file: usize) -> Vec<Told> {
    let files = files_read(mark);
    let has_fault = |number: &usize| read_file(*number, contents(bundle, *number)).is_err();
    let unread: Vec<usize> = files.iter().copied().filter(has_fault).collect();
    if unread.iter().min() != Some(&file) {
        return vec![Told::Odd { mark }];
    }
    let mut sights = vec![Told::NotJudged { mark, file, both: unread.len() > 1 }];
    if (0..file).any(|lower| !files.contains(&lower) && has_fault(&lower)) {
        sights.push(Told::PassedOver { mark });
    }
    sights
}

/// By the header's own pair of numbers; nothing if both are 0.
fn contents(bundle: &[u8], number: usize) -> Option<&[u8]> {
    let pair = &bundle[4 + 8 * number..12 + 8 * number];
    pair.iter().any(|byte| *byte != 0).then(|| file_part(bundle, number))
}

fn offset(bundle: &[u8], number: usize) -> usize {
    let bytes = &bundle[4 + 8 * number..8 + 8 * number];
    bytes.iter().rev().fold(0, |sum, byte| 256 * sum + usize::from(*byte))
}

fn of_shown(bundle: &[u8], mark: usize, nine: &Nine) -> Vec<Told> {
    let [_, file, record, companion, field, start, length, _, _] = nine.map(|word| word as usize);
    let names_another = (20..=35).contains(&mark) || mark == 80;
    let may_name = names_another || mark == 79;
    if file != files_read(mark)[0]
        || field >= fields_of(file).count()
        || (names_another && companion == 0)
        || (companion > 0 && !may_name)
    {
        return vec![Told::Odd { mark }];
    }
    let contents = file_part(bundle, file);
    let members = members(contents, record);
    let name = fields_of(file).nth(field).map_or("", |field| field.name);
    let is_named = |member: &Member| name.chars().map(u32::from).eq(member.name.iter().copied());
    let at = members.iter().position(is_named);
    let null = match at.map(|at| &contents[members[at].value.clone()]) {
        None => Some(Null::Absent),
        Some(b"null") => Some(Null::Literal),
        Some(b"\"\"") => Some(Null::Empty),
        Some(_) => None,
    };
    let expected = match (at, null) {
        (Some(at), None) => offset(bundle, file) + members[at].value.start,
        _ => 0,
    };
    let written = match (at, null) {
        (Some(at), None) => members[at].value.len(),
        _ => 0,
    };
    if (start, length) != (expected, written) {
        return vec![Told::Astray { mark }];
    }
    let given = null.is_none();
    if !can_be(mark, given) {
        return vec![Told::Odd { mark }];
    }
    let standing = match is_singleton(file) {
        true => At::Only,
        false => standing_among(record, records_begun(contents)),
    };
    let mut sights = vec![Told::Shown { mark, at: standing, given }, Told::Field { mark, field }];
    sights.extend(null.map(|form| Told::Null { mark, form }));
    if given {
        let value = &bundle[start..start + length];
        sights.extend(value.contains(&b'\\').then_some(Told::Escaped { mark }));
        sights.push(Told::Front { mark, front: front(bundle, file) });
        let ends = [Some(0), members.len().checked_sub(1)];
        if members.len() > 1 {
            let written = (0..2).filter(|end| at == ends[*end]);
            sights.extend(written.map(|end| Told::Written { mark, last: end == 1 }));
        }
    }
    sights
}

fn front(bundle: &[u8], file: usize) -> Front {
    let earlier = || (0..file).filter_map(|number| contents(bundle, number));
    match (earlier().count(), earlier().any(|file| !file.is_empty())) {
        (_, true) => Front::Bytes,
        (0, _) => Front::Nothing,
        _ => Front::EmptyFiles,
    }
}

// --------------------------------------------------------------- members

/// A name, decoded, and where its value stands in the file.
pub(in crate::compare) struct Member {
    pub name: Vec<u32>,
    pub value: Range<usize>,
}

/// The members of the record of that number, in the order in which they are
/// written. The file must be readable: no value has parts.
pub(in crate::compare) fn members(bytes: &[u8], record: usize) -> Vec<Member> {
    let mut begun = 0;
    let mut members = Vec::new();
    let mut name = None;
    let mut at = 0;
    while at < bytes.len() {
        let end = token_end(bytes, at);
        match bytes[at] {
            b'{' => begun += 1,
            b' ' | b'\t' | b'\n' | b'\r' | b'}' | b'[' | b']' | b':' | b',' => {}
            _ if begun != record => {}
            _ => match name.take() {
                None => name = Some(decoded_codes(bytes, at)),
                Some(name) => members.push(Member { name, value: at..end }),
            },
        }
        at = end;
    }
    members
}

/// Where the token ends that begins here: a string, one sign, or a run of others.
pub(in crate::compare) fn token_end(bytes: &[u8], at: usize) -> usize {
    let is_sign = |byte: &u8| b" \t\n\r{}[]:,".contains(byte);
    let rest = &bytes[at + 1..];
    let more = match bytes[at] {
        b'"' => {
            let mut is_escaped = false;
            let closes = |byte: &u8| {
                let closes = *byte == b'"' && !is_escaped;
                is_escaped = *byte == b'\\' && !is_escaped;
                closes
            };
            rest.iter().position(closes).map_or(rest.len(), |at| at + 1)
        }
        sign if is_sign(&sign) => 0,
        _ => rest.iter().position(is_sign).unwrap_or(rest.len()),
    };
    at + 1 + more
}

#[cfg(test)]
mod tests {
    use super::*;
    use crate::compare::gate::answer::Answer;
    use crate::compare::gate::case::{Call, GateCase};
    use crate::compare::gate::readings::readings;
    use crate::compare::gate::sample::{accepted, Set};
    use crate::compare::run::Question;
    use std::sync::Arc;

    fn nine(bundle: &[u8], mark: usize) -> Nine {
        let case = GateCase::new(Arc::new(bundle.to_vec()), Call::Reason(mark as u32));
        match case.answer() {
            Answer::Told(nine) => nine,
            other => panic!("{other:?}"),
        }
    }

    fn told(bundle: &[u8], mark: usize) -> Vec<Told> {
        sights_of(bundle, mark as u32, &nine(bundle, mark))
    }

    #[test]
    fn members_are_found_by_signs_alone() {
        let file = br#" [ {"ID" : "{\"" , "N\u0061me":null},{},{"ID":1e5}]"#;
        let shown = |record| -> Vec<(String, String)> {
            let text = |codes: &[u32]| -> String {
                codes.iter().map(|code| char::from_u32(*code).unwrap()).collect()
            };
            let value = |at: Range<usize>| String::from_utf8(file[at].to_vec()).unwrap();
            let all = members(file, record).into_iter();
            all.map(|member| (text(&member.name), value(member.value))).collect()
        };
        let pair = |name: &str, value: &str| (name.to_string(), value.to_string());
        assert_eq!(shown(1), [pair("ID", r#""{\"""#), pair("Name", "null")]);
        assert_eq!(shown(2), []);
        assert_eq!(shown(3), [pair("ID", "1e5")]);
        assert_eq!(shown(4), []);
        assert_eq!(members(br#"{"a":"\\","b":2}"#, 1).len(), 2);
    }

    #[test]
    fn the_readings_are_told() {
        for reading in readings() {
            let sights = told(&reading.bundle, reading.mark);
            assert!(!sights.iter().any(|sight| ruled_out().contains(sight)), "{}", reading.name);
        }
        let of = |name: &str| {
            let all = readings();
            let reading = all.iter().find(|reading| reading.name == name).unwrap();
            told(&reading.bundle, reading.mark)
        };
        assert!(of("6.1").contains(&Told::Front { mark: 67, front: Front::Nothing }));
        assert!(of("6.1b").contains(&Told::Front { mark: 67, front: Front::Bytes }));
        assert!(of("6.2").contains(&Told::Null { mark: 77, form: Null::Literal }));
        assert!(of("6.2b").contains(&Told::Null { mark: 79, form: Null::Empty }));
        assert!(of("6.3").contains(&Told::Escaped { mark: 23 }));
        assert!(of("6.3").contains(&Told::Written { mark: 23, last: true }));
        assert!(of("6.7").contains(&Told::Null { mark: 69, form: Null::Absent }));
        assert!(of("6.9").contains(&Told::Shown { mark: 78, at: At::Last, given: true }));
        assert!(of("6.11").contains(&Told::Own { number: 6, kind: 13 }));
        assert!(of("6.12").contains(&Told::NotJudged { mark: 80, file: 9, both: true }));
        assert!(of("6.12").contains(&Told::PassedOver { mark: 80 }));
        assert!(of("6.13").contains(&Told::Refused { refusal: 1, over: true }));
    }

    #[test]
    fn wrong_answers_are_odd_or_astray() {
        let bundle =
            Set::empty().with(0, "x").with(7, r#"[{"CalendarID":"c","Ordinal":3}]"#).bundle();
        let right = nine(&bundle, 49);
        assert_eq!(right, [5, 7, 1, 0, 0, 180, 3, 6, 0]);
        let astray = [Told::Asked { mark: 49 }, Told::Astray { mark: 49 }];
        // Another field, a place in the file, no quotes, another record, null.
        for (word, value) in [(4, 1), (4, 2), (5, 16), (5, 181), (6, 1), (2, 2), (5, 0)] {
            let mut wrong = right;
            wrong[word] = value;
            assert_eq!(sights_of(&bundle, 49, &wrong), astray, "{wrong:?}");
        }
        let odd = Told::Odd { mark: 49 };
        for (word, value) in [(0, 4), (0, 3), (0, 6), (1, 6), (3, 1), (4, 9), (7, 0), (8, 1)] {
            let mut wrong = right;
            wrong[word] = value;
            assert!(sights_of(&bundle, 49, &wrong).contains(&odd), "{wrong:?}");
        }
        let both = Set::empty().with(15, "[").with(9, "[").bundle();
        let second = [2, 15, 0, 0, 0, 0, 0, 0, 0];
        assert!(sights_of(&both, 80, &second).contains(&Told::Odd { mark: 80 }));
    }

    #[test]
    fn an_accepted_set_holds() {
        let bundle = accepted().bundle();
        for mark in 0..MARKS {
            assert!(told(&bundle, mark).contains(&Told::Holds { mark }));
        }
        let expected = [Told::Asked { mark: 81 }, Told::Refused { refusal: 7, over: true }];
        assert_eq!(told(&bundle, 81), expected);
    }

    #[test]
    fn each_rule_is_wanted_in_all_its_ways() {
        let wanted = wanted();
        assert!(!ruled_out().iter().any(|sight| wanted.contains(sight)));
        for mark in FIRST_RULE..=LAST_RULE {
            let is_shown =
                |sight: &&Told| matches!(sight, Told::Shown { mark: of, .. } if *of == mark);
            let expected = match mark {
                36 | 37 | 65 | 66 => 1,
                20..=35 => 2,
                69 | 79 => 6,
                80 => 4,
                _ => 3,
            };
            assert_eq!(wanted.iter().filter(is_shown).count(), expected, "mark {mark}");
        }
        assert_eq!(wanted.iter().filter(|sight| matches!(sight, Told::Asked { .. })).count(), 113);
    }
}
