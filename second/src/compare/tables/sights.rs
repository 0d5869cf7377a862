//! What the cases of the reading of one file have to show, all together, and
//! what none of them may.

use std::fmt::{self, Display};

use super::case::{TableAnswer, TableCase};
use super::standing::{places_of, standing, At};
use super::{names_its_record, possible_kinds, stands_in_record, GIVEN_NO_MORE};
use crate::bundle::FILES;

#[derive(Clone, Copy, Debug, PartialEq, Eq, PartialOrd, Ord)]
pub enum Sight {
    /// The file's mark has this kind, and a companion or 0.
    Kind { number: usize, kind: u32, named: bool },
    /// The fault of this kind stands in such a record.
    Standing { number: usize, kind: u32, at: At },
    /// The file's mark is at a wrong character, written as an escape or not.
    Character { number: usize, kind: u32, escaped: bool },
}

impl Display for Sight {
    fn fmt(&self, out: &mut fmt::Formatter) -> fmt::Result {
        match self {
            Sight::Kind { number, kind, named } => {
                write!(out, "file {number} of kind {kind}, with a companion {named}")
            }
            Sight::Standing { number, kind, at } => {
                write!(out, "file {number} of kind {kind} in its record {at:?}")
            }
            Sight::Character { number, kind, escaped } => {
                write!(out, "file {number} of kind {kind}, written as an escape {escaped}")
            }
        }
    }
}

/// The kinds of a wrong character.
fn is_of_character(kind: u32) -> bool {
    (30..=33).contains(&kind)
}

pub(super) fn wanted() -> Vec<Sight> {
    (0..FILES).flat_map(wanted_of).collect()
}

/// Half a surrogate pair can only be written as an escape.
fn wanted_of(number: usize) -> Vec<Sight> {
    let mut wanted = Vec::new();
    for kind in possible_kinds(number) {
        wanted.push(Sight::Kind { number, kind, named: names_its_record(kind) });
        if stands_in_record(kind) {
            let places = places_of(number).into_iter();
            wanted.extend(places.map(|at| Sight::Standing { number, kind, at }));
        }
        if is_of_character(kind) {
            wanted.push(Sight::Character { number, kind, escaped: true });
        }
        if is_of_character(kind) && kind != 33 {
            wanted.push(Sight::Character { number, kind, escaped: false });
        }
    }
    wanted
}

/// A kind that is given no more, and each other one with a companion where it
/// has none or without one where it has.
pub(super) fn ruled_out() -> Vec<Sight> {
    (0..FILES).flat_map(ruled_out_of).collect()
}

fn ruled_out_of(number: usize) -> Vec<Sight> {
    let given_no_more =
        [false, true].map(|named| Sight::Kind { number, kind: GIVEN_NO_MORE, named });
    let wrongly_named = possible_kinds(number).into_iter().map(|kind| Sight::Kind {
        number,
        kind,
        named: !names_its_record(kind),
    });
    given_no_more.into_iter().chain(wrongly_named).collect()
}

pub(super) fn sights_of(case: &TableCase, answer: &TableAnswer) -> Vec<Sight> {
    let (number, kind, place) = (case.number as usize, answer.kind as u32, answer.place as usize);
    let mut sights = vec![Sight::Kind { number, kind, named: answer.companion != 0 }];
    let Some(bytes) = &case.contents else {
        return sights;
    };
    if stands_in_record(kind) {
        let at = standing(number, bytes, kind, place);
        sights.extend(at.map(|at| Sight::Standing { number, kind, at }));
    }
    if is_of_character(kind) {
        let escaped = bytes[place] == b'\\';
        sights.push(Sight::Character { number, kind, escaped });
    }
    sights
}

#[cfg(test)]
mod tests {
    use super::*;
    use crate::compare::run::Question;

    fn sights(number: u32, contents: &str) -> Vec<Sight> {
        let case = TableCase { number, contents: Some(contents.as_bytes().to_vec()) };
        case.sights(&case.answer())
    }

    #[test]
    fn each_kind_is_wanted_where_it_can_be() {
        let wanted = wanted();
        let files_of = |kind: u32| -> Vec<usize> {
            (0..FILES)
                .filter(|number| {
                    let sight = |named| Sight::Kind { number: *number, kind, named };
                    wanted.contains(&sight(false)) || wanted.contains(&sight(true))
                })
                .collect()
        };
        assert_eq!(files_of(15), (1..20).collect::<Vec<_>>());
        assert_eq!(files_of(16), []);
        assert_eq!(files_of(30), (1..20).collect::<Vec<_>>());
        assert_eq!(files_of(31), (1..20).collect::<Vec<_>>());
        assert_eq!(files_of(32), [1, 3, 4, 5, 6, 7, 8, 9, 10, 11, 12, 13, 14, 15, 16, 17, 18, 19]);
        assert_eq!(files_of(33), [1, 2, 4, 5, 6, 9, 11, 12, 13, 16, 17, 18]);
        assert_eq!(files_of(34), [7, 15]);
        assert_eq!(files_of(35), []);
        assert!(!wanted.iter().any(|sight| ruled_out().contains(sight)));
        // Two of kind 16, and one for each kind that there can be.
        let kinds: usize = (0..FILES).map(|number| possible_kinds(number).len()).sum();
        assert_eq!(ruled_out().len(), 2 * FILES + kinds);
    }

    /// As order 5 has them.
    #[test]
    fn kinds_are_wanted_with_a_companion_or_without() {
        let wanted = wanted();
        for kind in [13, 14, 15, 17, 18, 30, 31, 32, 33, 34] {
            assert!(
                wanted.contains(&Sight::Kind { number: 7, kind, named: true })
                    || kind == 17
                    || kind == 33
            );
            assert!(!wanted.contains(&Sight::Kind { number: 7, kind, named: false }));
        }
        for kind in [0, 10, 11, 12, 19, 20, 21, 22] {
            for number in 0..FILES {
                assert!(!wanted.contains(&Sight::Kind { number, kind, named: true }));
            }
        }
        for kind in [10, 11, 12, 13, 14, 15, 17, 19, 30, 31, 32] {
            for at in [At::First, At::Middle, At::Last] {
                assert!(wanted.contains(&Sight::Standing { number: 8, kind, at }));
            }
        }
        assert!(wanted.contains(&Sight::Standing { number: 2, kind: 33, at: At::Only }));
        assert!(!wanted.contains(&Sight::Standing { number: 6, kind: 20, at: At::Last }));
    }

    #[test]
    fn a_wrong_character_is_told_by_how_it_is_written() {
        let kind = |kind| Sight::Kind { number: 4, kind, named: kind != 0 };
        let character = |kind, escaped| Sight::Character { number: 4, kind, escaped };
        let plain = sights(4, "[{\"Name\":\"A  B\"}]");
        assert_eq!(plain, [kind(31), character(31, false)]);
        let escape = sights(4, r#"[{"Name":"A\ud800"}]"#);
        assert_eq!(escape, [kind(33), character(33, true)]);
        assert_eq!(sights(4, r#"[{"Name":1}]"#), [kind(15)]);
        assert_eq!(sights(4, "[]"), [kind(0)]);
    }

    #[test]
    fn a_fault_is_told_by_the_record_that_it_stands_in() {
        let record = r#"{"CustomFieldID":"F","Name":"N"}"#;
        let kind = |kind, named| Sight::Kind { number: 4, kind, named };
        let standing = |kind, at| Sight::Standing { number: 4, kind, at };
        let last = sights(4, &format!(r#"[{record},{{"Name":1}}]"#));
        assert_eq!(last, [kind(15, true), standing(15, At::Last)]);
        let middle = sights(4, &format!(r#"[{record},{{"Name":"N"}},{record}]"#));
        assert_eq!(middle, [kind(19, false), standing(19, At::Middle)]);
        let first = sights(4, &format!(r#"[{{"Name":tru}},{record}]"#));
        assert_eq!(first, [kind(11, false), standing(11, At::First)]);
        assert_eq!(sights(4, &format!("[{record}] x")), [kind(11, false)]);
    }
}
