//! What the questions for reasons of both gates have to show, and what none of
//! them may. The value that decides is found by quotes, commas and braces alone.

use std::fmt::{self, Display};

use super::Which;
use crate::bundle::{FileState, NO_SUCH_MARK};
use crate::compare::gate::answer::{Nine, BROKEN, HOLDING, MISSING, NOT_JUDGED, OWN_MARK, REFUSED};
use crate::compare::gate::reason_sights::{members, Front, Member, Null, LARGE_MARKS};
use crate::compare::tables::standing::{records_begun, standing_among, At};
use crate::gates::layout::look_up;
use crate::table::is_singleton;

#[derive(Clone, Copy, Debug, PartialEq, Eq, PartialOrd, Ord)]
pub enum Told {
    Asked {
        mark: u32,
    },
    /// A refusal for a mark number that is too large, or isn't.
    Refused {
        refusal: u32,
        over: bool,
    },
    Holds {
        mark: usize,
    },
    /// The file named is the only unreadable one that the rule reads, or not.
    NotJudged {
        mark: usize,
        file: usize,
        both: bool,
    },
    Own {
        number: usize,
        kind: u32,
    },
    /// Broken at such a record, by a value or by null.
    Shown {
        mark: usize,
        at: At,
        given: bool,
    },
    Field {
        mark: usize,
        field: usize,
    },
    Null {
        mark: usize,
        form: Null,
    },
    /// The value has an escape in it.
    Escaped {
        mark: usize,
    },
    /// The value is the first or the last one written in its record of several.
    Written {
        mark: usize,
        last: bool,
    },
    Front {
        mark: usize,
        front: Front,
    },
    /// Another value than the deciding field's, or another place.
    Astray {
        mark: usize,
    },
    /// An answer that this mark can't have.
    Odd {
        mark: usize,
    },
}

impl Display for Told {
    fn fmt(&self, out: &mut fmt::Formatter) -> fmt::Result {
        write!(out, "a reason: {self:?}")
    }
}

/// All mark numbers that are asked for, known or not.
pub(super) fn asked_marks(which: Which) -> impl Iterator<Item = u32> {
    let limit = which.gate().marks as u32;
    (0..limit + 20).chain(LARGE_MARKS.iter().copied().filter(move |mark| *mark >= limit + 20))
}

// ---------------------------------------------------------------- wanted

pub(super) fn wanted(which: Which) -> Vec<Told> {
    let gate = which.gate();
    let mut wanted: Vec<Told> = asked_marks(which).map(|mark| Told::Asked { mark }).collect();
    for refusal in 1..=3 {
        wanted.extend([false, true].map(|over| Told::Refused { refusal, over }));
    }
    wanted.push(Told::Refused { refusal: NO_SUCH_MARK, over: true });
    wanted.extend((0..gate.marks).map(|mark| Told::Holds { mark }));
    for number in 0..gate.files {
        let kinds = super::sights::wanted_kinds(which, number).into_iter();
        wanted.extend(kinds.filter(|kind| *kind != 0).map(|kind| Told::Own { number, kind }));
    }
    for mark in gate.files..gate.marks {
        let files = gate.files_of_mark(mark);
        wanted.extend(files.iter().map(|file| Told::NotJudged { mark, file: *file, both: false }));
        if files.len() > 1 {
            let file = files.iter().copied().min().expect("a rule reads a file");
            wanted.push(Told::NotJudged { mark, file, both: true });
        }
        wanted.extend(wanted_broken(which, mark));
    }
    wanted
}

/// All about the values of rules that `compare_gate` doesn't have; of the others
/// that they are shown at each place.
fn wanted_broken(which: Which, mark: usize) -> Vec<Told> {
    let mut wanted = Vec::new();
    for at in places(which, mark) {
        for given in [true, false] {
            let is_first = at == At::First && is_parent(which, mark);
            let is_extra = is_of_schedule(which, mark) && can_be(which, mark, true);
            if can_be(which, mark, given) && (given || !(is_first || is_extra)) {
                wanted.push(Told::Shown { mark, at, given });
            }
        }
    }
    if is_of_schedule(which, mark) {
        return wanted;
    }
    wanted.extend(fields(which, mark).into_iter().map(|field| Told::Field { mark, field }));
    wanted.extend(null_forms(which, mark).iter().map(|form| Told::Null { mark, form: *form }));
    if can_be(which, mark, true) {
        wanted.extend([false, true].map(|last| Told::Written { mark, last }));
        let fronts = [Front::Nothing, Front::EmptyFiles, Front::Bytes];
        let can_stand = |front: &Front| match (which, mark) {
            (Which::Contract, 4) => *front == Front::Nothing,
            // The elements stand before their accounts.
            (Which::Contract, 17 | 18) => *front == Front::Bytes,
            _ => true,
        };
        let fronts = fronts.into_iter().filter(can_stand);
        wanted.extend(fronts.map(|front| Told::Front { mark, front }));
        let is_number = match which {
            Which::Baseline => mark == 84,
            Which::Contract => mark == 13 || mark == 14,
        };
        if !is_number {
            wanted.push(Told::Escaped { mark });
        }
    }
    wanted
}

/// A key needs an earlier record to be broken, and so does 80.
fn places(which: Which, mark: usize) -> Vec<At> {
    match super::sights::first_place(which, mark) {
        _ if is_only(which, super::sights::table_of(which, mark)) => vec![At::Only],
        1 => vec![At::First, At::Middle, At::Last],
        _ => vec![At::Middle, At::Last],
    }
}

fn is_only(which: Which, file: usize) -> bool {
    which == Which::Baseline && is_singleton(file)
}

/// A rule that `compare_gate` has as well.
fn is_of_schedule(which: Which, mark: usize) -> bool {
    which == Which::Baseline && mark <= 80
}

fn is_parent(which: Which, mark: usize) -> bool {
    match which {
        Which::Baseline => false,
        Which::Contract => mark == 15 || mark == 16,
    }
}

/// Whether the mark can be broken by a value, or by null.
fn can_be(which: Which, mark: usize, given: bool) -> bool {
    match (which, mark) {
        (Which::Contract, 15 | 16) | (Which::Baseline, 69 | 79 | 80) => true,
        (Which::Baseline, 71 | 75 | 77 | 81) => !given,
        _ => given,
    }
}

/// The fields that decide over the marks that have several, or one alone.
fn fields(which: Which, mark: usize) -> Vec<usize> {
    match (which, mark) {
        (Which::Baseline, 81) => (13..=17).collect(),
        (Which::Baseline, 82) => vec![21, 22],
        (Which::Baseline, 83) => vec![14],
        (Which::Baseline, 84) => vec![6, 7],
        (Which::Contract, 4) => vec![0],
        (Which::Contract, 5 | 6 | 7) => vec![1],
        (Which::Contract, 8 | 9 | 15) => vec![3],
        (Which::Contract, 10 | 16) => vec![4],
        (Which::Contract, 11 | 17) => vec![10],
        (Which::Contract, 12 | 18) => vec![11],
        (Which::Contract, 13 | 14) => vec![0],
        _ => Vec::new(),
    }
}

fn null_forms(which: Which, mark: usize) -> &'static [Null] {
    match (which, mark) {
        (Which::Contract, 15 | 16) => &[Null::Absent, Null::Literal, Null::Empty],
        (Which::Baseline, 81) => &[Null::Absent, Null::Literal],
        _ => &[],
    }
}

/// What no case may show.
pub(super) fn ruled_out(which: Which) -> Vec<Told> {
    let marks = 0..which.gate().marks;
    let astray = marks.clone().map(|mark| Told::Astray { mark });
    astray.chain(marks.map(|mark| Told::Odd { mark })).collect()
}

// ------------------------------------------------------------------ seen

pub(super) fn sights_of(which: Which, bundle: &[u8], number: u32, nine: &Nine) -> Vec<Told> {
    let gate = which.gate();
    let mark = number as usize;
    let is_rule = (gate.files..gate.marks).contains(&mark);
    let is_target = match which {
        Which::Baseline => (48..=64).contains(&mark),
        Which::Contract => (8..=12).contains(&mark),
    };
    let mut sights = vec![Told::Asked { mark: number }];
    match *nine {
        [REFUSED, refusal, ..] => sights.push(Told::Refused { refusal, over: mark >= gate.marks }),
        [HOLDING, ..] => sights.push(Told::Holds { mark }),
        [NOT_JUDGED, file, ..] if is_rule => {
            sights.push(of_unread(which, bundle, mark, file as usize));
        }
        [OWN_MARK, kind, ..] if !is_rule => sights.push(Told::Own { number: mark, kind }),
        [BROKEN, ..] if is_rule && !is_target => sights.extend(of_shown(which, bundle, mark, nine)),
        [MISSING, .., searched, 0] if is_target => {
            sights.extend(of_shown(which, bundle, mark, nine));
            if gate.files_of_mark(mark).last() != Some(&(searched as usize)) {
                sights.push(Told::Odd { mark });
            }
        }
        _ => sights.push(Told::Odd { mark }),
    }
    sights
}

fn of_unread(which: Which, bundle: &[u8], mark: usize, file: usize) -> Told {
    let gate = which.gate();
    let has_fault = |number: &usize| {
        let contents = contents(which, bundle, *number);
        (gate.read)(*number, contents).is_err()
    };
    let unread: Vec<usize> = gate.files_of_mark(mark).into_iter().filter(has_fault).collect();
    match unread.iter().min() == Some(&file) {
        true => Told::NotJudged { mark, file, both: unread.len() > 1 },
        false => Told::Odd { mark },
    }
}

fn contents(which: Which, bundle: &[u8], number: usize) -> Option<&[u8]> {
    match look_up(which.gate(), bundle, number) {
        (FileState::Present, part) => Some(part),
        _ => None,
    }
}

/// By the header's own number.
fn offset(bundle: &[u8], number: usize) -> usize {
    let bytes = &bundle[4 + 8 * number..8 + 8 * number];
    bytes.iter().rev().fold(0, |sum, byte| 256 * sum + usize::from(*byte))
}

fn of_shown(which: Which, bundle: &[u8], mark: usize, nine: &Nine) -> Vec<Told> {
    let [_, file, record, companion, field, start, length, _, _] = nine.map(|word| word as usize);
    let (may_name, must_name) = super::sights::names_another(which, mark);
    let fields = (which.gate().fields)(file.min(which.gate().files - 1));
    if file != super::sights::table_of(which, mark)
        || field >= fields.len()
        || (must_name && companion == 0)
        || (companion > 0 && !may_name)
    {
        return vec![Told::Odd { mark }];
    }
    let contents = contents(which, bundle, file).unwrap_or(&[]);
    let members = members(contents, record);
    let name = fields[field].name;
    let is_named = |member: &Member| name.chars().map(u32::from).eq(member.name.iter().copied());
    let at = members.iter().position(is_named);
    let null = match at.map(|at| &contents[members[at].value.clone()]) {
        None => Some(Null::Absent),
        Some(b"null") => Some(Null::Literal),
        Some(b"\"\"") => Some(Null::Empty),
        Some(_) => None,
    };
    let expected = match (at, null) {
        (Some(at), None) => {
            (offset(bundle, file) + members[at].value.start, members[at].value.len())
        }
        _ => (0, 0),
    };
    if (start, length) != expected {
        return vec![Told::Astray { mark }];
    }
    let given = null.is_none();
    if !can_be(which, mark, given) {
        return vec![Told::Odd { mark }];
    }
    let standing = match is_only(which, file) {
        true => At::Only,
        false => standing_among(record, records_begun(contents)),
    };
    let mut sights = vec![Told::Shown { mark, at: standing, given }, Told::Field { mark, field }];
    sights.extend(null.map(|form| Told::Null { mark, form }));
    if given {
        let value = &bundle[start..start + length];
        sights.extend(value.contains(&b'\\').then_some(Told::Escaped { mark }));
        sights.push(Told::Front { mark, front: front(which, bundle, file) });
        let ends = [Some(0), members.len().checked_sub(1)];
        let written = (0..2).filter(|end| members.len() > 1 && at == ends[*end]);
        sights.extend(written.map(|end| Told::Written { mark, last: end == 1 }));
    }
    sights
}

fn front(which: Which, bundle: &[u8], file: usize) -> Front {
    let earlier = || (0..file).filter_map(|number| contents(which, bundle, number));
    match (earlier().count(), earlier().any(|file| !file.is_empty())) {
        (_, true) => Front::Bytes,
        (0, _) => Front::Nothing,
        _ => Front::EmptyFiles,
    }
}
