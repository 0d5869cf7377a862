//! What the cases of both gates have to show, all together: a run that doesn't
//! meet each of these once has not asked enough.

use std::fmt::{self, Display};

use super::answer::Answer;
use super::case::{Call, Change, GatesCase};
use super::told::{self, Told};
use super::{Which, BOTH};
use crate::board::{Mark, HOLDS};
use crate::bundle::FileState;
use crate::compare::gate::case::{JUDGE, LOOK_UP, MAKE, REASON, TRY};
use crate::compare::tables::standing::{record_of_fault, records_begun, standing_among, At};
use crate::compare::tables::{names_its_record, stands_in_record, GIVEN_NO_MORE};
use crate::fields::Type;
use crate::gates::layout::look_up;
use crate::table::{is_singleton, Record, MOST_RECORDS};

const BROKEN: u32 = 1;
const NOT_JUDGED: u32 = 2;

#[derive(Clone, Copy, Debug, PartialEq, Eq, PartialOrd, Ord)]
pub enum Sight {
    /// A file's mark has this kind.
    File {
        which: Which,
        number: usize,
        kind: u32,
    },
    /// A fault of this kind in such a record of a file of the contract side.
    Standing {
        number: usize,
        kind: u32,
        at: At,
    },
    Holds {
        which: Which,
        mark: usize,
    },
    /// First is the first record at which the rule can be broken.
    Broken {
        which: Which,
        mark: usize,
        at: At,
    },
    /// Not judged, and because of this file alone.
    NotJudged {
        which: Which,
        mark: usize,
        file: usize,
    },
    /// A mark has this kind after a change of this file, which it reads.
    Rejudged {
        which: Which,
        mark: usize,
        file: usize,
        kind: u32,
    },
    /// A mark was handed in with a companion and is judged to have none.
    Cleared {
        which: Which,
        mark: usize,
    },
    /// A companion beyond all records comes back as it was handed in.
    Kept {
        which: Which,
        mark: usize,
        refused: bool,
    },
    /// A call with this refusal, or with none.
    Refusal {
        which: Which,
        op: u32,
        refusal: u32,
    },
    /// A lookup of an omitted file.
    Omitted {
        which: Which,
    },
    Changed {
        which: Which,
        number: usize,
        before: bool,
        after: bool,
    },
    /// A companion where there is none to name, or none where there is one, or
    /// one that isn't earlier.
    Astray {
        which: Which,
        mark: usize,
    },
    /// A key of the contract side by the record that it copies.
    Copied {
        mark: usize,
        from: Earlier,
    },
    /// A broken 15 or 16 by its parent and where the child stands.
    Child {
        mark: usize,
        parent: Parent,
        at: At,
    },
    Outline {
        mark: usize,
        odd: Odd,
    },
    Link {
        mark: usize,
        odd: Match,
    },
    Reason {
        which: Which,
        told: Told,
    },
}

#[derive(Clone, Copy, Debug, PartialEq, Eq, PartialOrd, Ord)]
pub enum Earlier {
    Above,
    Start,
    Between,
}

/// What the companion of a child stands for.
#[derive(Clone, Copy, Debug, PartialEq, Eq, PartialOrd, Ord)]
pub enum Parent {
    /// It is the first element, which has none.
    First,
    Missing,
    Above,
    Further,
    /// The child has Level 1 and a parent all the same.
    AboveLevelOne,
}

/// How a run of levels goes wrong.
#[derive(Clone, Copy, Debug, PartialEq, Eq, PartialOrd, Ord)]
pub enum Odd {
    NotOne,
    Jump,
    SecondOne,
    BelowOne,
}

/// What an account's link matches.
#[derive(Clone, Copy, Debug, PartialEq, Eq, PartialOrd, Ord)]
pub enum Match {
    /// Nothing, and the leaf rule holds.
    Nothing,
    /// An ID in another case.
    OtherCase,
    /// A leaf first and then an element with a child, or the other way round.
    LeafThenParent,
    ParentThenLeaf,
}

impl Display for Sight {
    fn fmt(&self, out: &mut fmt::Formatter) -> fmt::Result {
        write!(out, "{self:?}")
    }
}

// ---------------------------------------------------------------- wanted

pub(super) fn wanted() -> Vec<Sight> {
    let mut wanted = Vec::new();
    for which in BOTH {
        let gate = which.gate();
        wanted.push(Sight::Omitted { which });
        for number in 0..gate.files {
            let kinds = wanted_kinds(which, number).into_iter();
            wanted.extend(kinds.map(|kind| Sight::File { which, number, kind }));
            let states = [(false, false), (false, true), (true, false), (true, true)];
            wanted.extend(states.map(|(before, after)| Sight::Changed {
                which,
                number,
                before,
                after,
            }));
        }
        for mark in 0..gate.marks {
            wanted.push(Sight::Cleared { which, mark });
            wanted.extend([false, true].map(|refused| Sight::Kept { which, mark, refused }));
        }
        for mark in gate.files..gate.marks {
            wanted.extend(wanted_of_rule(which, mark));
        }
        wanted.extend(wanted_refusals(which));
        wanted.extend(told::wanted(which).into_iter().map(|told| Sight::Reason { which, told }));
    }
    wanted.extend(wanted_of_contract());
    wanted
}

pub(super) fn ruled_out() -> Vec<Sight> {
    let mut ruled_out = Vec::new();
    for which in BOTH {
        let gate = which.gate();
        let kind = GIVEN_NO_MORE;
        ruled_out.extend((0..gate.files).map(|number| Sight::File { which, number, kind }));
        ruled_out.extend((0..gate.marks).map(|mark| Sight::Astray { which, mark }));
        let told = told::ruled_out(which).into_iter();
        ruled_out.extend(told.map(|told| Sight::Reason { which, told }));
    }
    let which = Which::Contract;
    for kind in [21, 22] {
        ruled_out.extend((0..4).map(|number| Sight::File { which, number, kind }));
    }
    ruled_out
}

/// Of the schedule's files that they hold and that they are cut off, `compare_gate`
/// has the rest; of the contract side's every kind that they can have.
pub(in crate::compare) fn wanted_kinds(which: Which, number: usize) -> Vec<u32> {
    match (which, number) {
        (Which::Baseline, 0) => vec![0, 21, 22],
        (Which::Baseline, 1 | 3) => vec![0, 11, 21],
        (Which::Baseline, _) => vec![0, 11],
        (Which::Contract, _) => {
            let fields = (which.gate().fields)(number);
            let has = |kind: Type| fields.iter().any(|field| field.kind == kind);
            let mut kinds = vec![0, 10, 11, 12, 13, 14, 15, 19, 20, 30, 31, 32, 33];
            if has(Type::Date) {
                kinds.push(17);
            }
            if has(Type::Integer) {
                kinds.extend([18, 34]);
            }
            kinds
        }
    }
}

fn wanted_of_rule(which: Which, mark: usize) -> Vec<Sight> {
    let files = which.gate().files_of_mark(mark);
    let mut wanted = vec![Sight::Holds { which, mark }];
    let only = which == Which::Baseline && is_singleton(files[0]);
    let places = [At::First, At::Middle, At::Last].into_iter().take(if only { 1 } else { 3 });
    wanted.extend(places.map(|at| Sight::Broken { which, mark, at }));
    for file in files {
        wanted.push(Sight::NotJudged { which, mark, file });
        let kinds = [HOLDS.kind, BROKEN, NOT_JUDGED];
        wanted.extend(kinds.map(|kind| Sight::Rejudged { which, mark, file, kind }));
    }
    wanted
}

fn wanted_refusals(which: Which) -> Vec<Sight> {
    let refusals: [(u32, &[u32]); 5] = [
        (JUDGE, &[0, 1, 2, 3]),
        (TRY, &[0, 1, 2, 3, 4, 6]),
        (MAKE, &[0, 1, 2, 3, 4, 5, 6]),
        (LOOK_UP, &[0, 1, 2, 3, 4]),
        (REASON, &[0, 1, 2, 3, 7]),
    ];
    let of_op = |(op, refusals): (u32, &'static [u32])| {
        refusals.iter().map(move |refusal| Sight::Refusal { which, op, refusal: *refusal })
    };
    refusals.into_iter().flat_map(of_op).collect()
}

fn wanted_of_contract() -> Vec<Sight> {
    let mut wanted = Vec::new();
    for number in 0..4 {
        let kinds = wanted_kinds(Which::Contract, number).into_iter();
        for kind in kinds.filter(|kind| stands_in_record(*kind)) {
            let places = [At::First, At::Middle, At::Last];
            wanted.extend(places.map(|at| Sight::Standing { number, kind, at }));
        }
    }
    for mark in 4..=7 {
        let from = [Earlier::Above, Earlier::Start, Earlier::Between];
        wanted.extend(from.map(|from| Sight::Copied { mark, from }));
    }
    for mark in [13, 14] {
        let odd = [Odd::NotOne, Odd::Jump, Odd::SecondOne, Odd::BelowOne];
        wanted.extend(odd.map(|odd| Sight::Outline { mark, odd }));
    }
    for mark in [15, 16] {
        wanted.push(Sight::Child { mark, parent: Parent::First, at: At::First });
        let parents =
            [Parent::Missing, Parent::Above, Parent::Further, Parent::AboveLevelOne].into_iter();
        for parent in parents {
            wanted.extend([At::Middle, At::Last].map(|at| Sight::Child { mark, parent, at }));
        }
    }
    for mark in [17, 18] {
        let odd = [Match::Nothing, Match::OtherCase, Match::LeafThenParent, Match::ParentThenLeaf];
        wanted.extend(odd.map(|odd| Sight::Link { mark, odd }));
    }
    wanted
}

// ------------------------------------------------------------------ seen

pub(super) fn sights_of(case: &GatesCase, expected: &Answer) -> Vec<Sight> {
    let which = case.which;
    let mut sights = vec![Sight::Refusal { which, op: case.op(), refusal: expected.refusal() }];
    match (&case.call, expected) {
        (Call::Judge, Answer::Judged { refusal: 0, board }) => {
            sights.extend(of_board(which, &case.bundle, board));
        }
        (Call::Try(change), Answer::Tried { .. }) => {
            sights.extend(of_changed_board(case, change, expected));
        }
        (Call::Make(change, _), Answer::Made { refusal, .. }) => {
            if *refusal == 0 {
                let number = change.file as usize;
                let (state, _) = look_up(which.gate(), &case.bundle, number);
                let before = state == FileState::Present;
                sights.push(Sight::Changed { which, number, before, after: change.new.is_some() });
            }
            sights.extend(of_changed_board(case, change, expected));
        }
        (Call::LookUp(_), Answer::Found(part)) if part.state == 1 => {
            sights.push(Sight::Omitted { which });
        }
        (Call::Reason(mark), Answer::Told(nine)) => {
            let told = told::sights_of(which, &case.bundle, *mark, nine).into_iter();
            sights.extend(told.map(|told| Sight::Reason { which, told }));
        }
        _ => {}
    }
    sights
}

/// No mark of a refused change is judged: all are handed back.
fn of_changed_board(case: &GatesCase, change: &Change, expected: &Answer) -> Vec<Sight> {
    let which = case.which;
    let file = change.file as usize;
    let refused = expected.refusal() != 0;
    let touched = if refused { Vec::new() } else { which.gate().touched_marks(file) };
    let mut sights = Vec::new();
    for (mark, (handed, judged)) in change.board.iter().zip(expected.board()).enumerate() {
        if touched.contains(&mark) {
            sights.extend(of_companion(which, mark, *judged));
            sights.push(Sight::Rejudged { which, mark, file, kind: judged.kind });
            if handed.companion > 0 && judged.companion == 0 {
                sights.push(Sight::Cleared { which, mark });
            }
        } else if judged == handed && handed.companion as usize > MOST_RECORDS {
            sights.push(Sight::Kept { which, mark, refused });
        }
    }
    sights
}

fn of_board(which: Which, bundle: &[u8], board: &[Mark]) -> Vec<Sight> {
    let gate = which.gate();
    let mut sights = Vec::new();
    for (mark, judged) in board.iter().enumerate() {
        sights.extend(of_companion(which, mark, *judged));
        match judged.kind {
            kind if mark < gate.files => {
                sights.push(Sight::File { which, number: mark, kind });
                sights.extend(of_fault(which, bundle, mark, *judged));
            }
            BROKEN => sights.extend(of_broken(which, bundle, mark, *judged)),
            NOT_JUDGED => {
                let mut unread = gate.files_of_mark(mark);
                unread.retain(|file| board[*file] != HOLDS);
                if let [file] = unread[..] {
                    sights.push(Sight::NotJudged { which, mark, file });
                }
            }
            _ => sights.push(Sight::Holds { which, mark }),
        }
    }
    if which == Which::Contract {
        sights.extend([17, 18].into_iter().flat_map(|mark| of_matches(bundle, board, mark)));
    }
    sights
}

fn of_fault(which: Which, bundle: &[u8], number: usize, judged: Mark) -> Option<Sight> {
    if which == Which::Baseline || !stands_in_record(judged.kind) {
        return None;
    }
    let contents = look_up(which.gate(), bundle, number).1;
    let place = judged.place as usize;
    let more = contents[place..].windows(3).any(|three| three == b",{\"");
    let at = match (record_of_fault(contents, judged.kind, place), more) {
        (0, _) | (1, false) => return None,
        (1, true) => At::First,
        (_, true) => At::Middle,
        (_, false) => At::Last,
    };
    Some(Sight::Standing { number, kind: judged.kind, at })
}

/// The table whose records the mark counts.
pub(super) fn table_of(which: Which, mark: usize) -> usize {
    which.gate().files_of_mark(mark)[0]
}

/// A key needs an earlier record to be broken, and so does the parent of 80.
pub(super) fn first_place(which: Which, mark: usize) -> u32 {
    match (which, mark) {
        (Which::Baseline, 20..=35 | 80) | (Which::Contract, 4..=7) => 2,
        _ => 1,
    }
}

/// Whether a broken mark may name another record, and whether it must.
pub(super) fn names_another(which: Which, mark: usize) -> (bool, bool) {
    match (which, mark) {
        (Which::Baseline, 20..=35 | 80) | (Which::Contract, 4..=7) => (true, true),
        (Which::Baseline, 79) | (Which::Contract, 15 | 16) => (true, false),
        _ => (false, false),
    }
}

fn of_companion(which: Which, mark: usize, judged: Mark) -> Option<Sight> {
    let Mark { kind, place, companion } = judged;
    let is_right = match mark < which.gate().files {
        true => (companion > 0) == names_its_record(kind),
        false => {
            let (may_name, must_name) = names_another(which, mark);
            match companion {
                0 => !(must_name && kind == BROKEN),
                _ => may_name && kind == BROKEN && companion < place,
            }
        }
    };
    (!is_right).then_some(Sight::Astray { which, mark })
}

fn of_broken(which: Which, bundle: &[u8], mark: usize, judged: Mark) -> Vec<Sight> {
    let contents = look_up(which.gate(), bundle, table_of(which, mark)).1;
    let at = standing_among(judged.place as usize, records_begun(contents));
    let mut sights = vec![match at {
        _ if judged.place == first_place(which, mark) => {
            Sight::Broken { which, mark, at: At::First }
        }
        At::Last => Sight::Broken { which, mark, at },
        _ => Sight::Broken { which, mark, at: At::Middle },
    }];
    match (which, mark) {
        (Which::Contract, 4..=7) => {
            let from = match judged.companion {
                companion if companion + 1 == judged.place => Earlier::Above,
                1 => Earlier::Start,
                _ => Earlier::Between,
            };
            sights.push(Sight::Copied { mark, from });
        }
        (Which::Contract, 13..=16) => {
            let elements = elements(bundle, table_of(which, mark));
            sights.push(of_outline(mark, judged, at, &elements));
        }
        _ => {}
    }
    sights
}

fn elements(bundle: &[u8], file: usize) -> Vec<Record> {
    let gate = Which::Contract.gate();
    match look_up(gate, bundle, file) {
        (FileState::Present, part) => (gate.read)(file, Some(part)).unwrap_or_default(),
        _ => Vec::new(),
    }
}

fn of_outline(mark: usize, judged: Mark, at: At, elements: &[Record]) -> Sight {
    let index = judged.place as usize - 1;
    let level = |index: usize| elements[index].integer("Level").unwrap_or(0);
    if mark <= 14 {
        let odd = match level(index) {
            _ if index == 0 => Odd::NotOne,
            1 => Odd::SecondOne,
            here if here < 1 => Odd::BelowOne,
            _ => Odd::Jump,
        };
        return Sight::Outline { mark, odd };
    }
    let parent = match judged.companion {
        0 if index == 0 => Parent::First,
        0 => Parent::Missing,
        _ if level(index) == 1 => Parent::AboveLevelOne,
        companion if companion == judged.place - 1 => Parent::Above,
        _ => Parent::Further,
    };
    let at = if index == 0 { At::First } else { at };
    Sight::Child { mark, parent, at }
}

/// What the accounts of a set match whose leaf rule could be judged.
fn of_matches(bundle: &[u8], board: &[Mark], mark: usize) -> Vec<Sight> {
    let (field, file) = if mark == 17 { ("WBSElementID", 1) } else { ("OBSElementID", 2) };
    if board[mark].kind == NOT_JUDGED {
        return Vec::new();
    }
    let elements = elements(bundle, file);
    if elements.len() > 20 {
        return Vec::new();
    }
    let ids: Vec<Option<String>> = elements.iter().map(|element| element.id("ID")).collect();
    let text = |record: &Record, name: &str| format!("{:?}", record.value(name));
    let mut sights = Vec::new();
    let next_is_lower = |at: usize| {
        elements
            .get(at + 1)
            .map_or(false, |next| next.integer("Level") > elements[at].integer("Level"))
    };
    for account in self::elements(bundle, 3) {
        let matches: Vec<usize> =
            (0..ids.len()).filter(|at| ids[*at] == account.id(field)).collect();
        let odd = match matches[..] {
            [] if board[mark].kind == 0 => Match::Nothing,
            [one] if text(&elements[one], "ID") != text(&account, field) => Match::OtherCase,
            [first, second] => match (next_is_lower(first), next_is_lower(second)) {
                (false, true) => Match::LeafThenParent,
                (true, false) => Match::ParentThenLeaf,
                _ => continue,
            },
            _ => continue,
        };
        sights.push(Sight::Link { mark, odd });
    }
    sights
}
