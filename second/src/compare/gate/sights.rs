//! What the cases of the gate have to show, all together: a run that doesn't
//! meet each of these once has not asked enough.

use std::fmt::{self, Display};

use super::answer::Answer;
use super::case::{Call, Change, GateCase, JUDGE, LENT, LOOK_UP, MAKE, REASON, REASON_LENT, TRY};
use super::reason_sights::{self, Told};
use crate::board::{Board, Mark, HOLDS};
use crate::bundle::{file_part, file_state, FileState, FILES};
use crate::compare::tables::standing::{places_of, records_begun, standing, standing_among, At};
use crate::compare::tables::{names_its_record, possible_kinds, stands_in_record, GIVEN_NO_MORE};
use crate::gate::touched_marks;
use crate::rules::{files_read, FIRST_RULE, LAST_RULE};
use crate::table::{is_singleton, read_file, MOST_RECORDS};

const BROKEN: u32 = 1;
const NOT_JUDGED: u32 = 2;

/// 79 and 80, which name the parent.
const PARENT_GIVEN: usize = 79;
const PARENT_IS_SUMMARY: usize = 80;

const OUTLINE: usize = 15;

#[derive(Clone, Copy, Debug, PartialEq, Eq, PartialOrd, Ord)]
pub enum Sight {
    /// A file's mark has this kind.
    File {
        number: usize,
        kind: u32,
    },
    /// A file's fault of this kind stands in such a record.
    Standing {
        number: usize,
        kind: u32,
        at: At,
    },
    Holds {
        mark: usize,
    },
    /// Broken at the first record at which the rule can be broken.
    BrokenFirst {
        mark: usize,
    },
    BrokenMiddle {
        mark: usize,
    },
    /// Broken at the last record, and that isn't the first either.
    BrokenLast {
        mark: usize,
    },
    /// A broken key by where the copied record stands.
    Copied {
        mark: usize,
        from: Earlier,
    },
    /// A broken 79 or 80 by its parent and where the child stands.
    Child {
        mark: usize,
        parent: Parent,
        at: At,
    },
    /// A companion where there is none to name.
    Needless {
        mark: usize,
    },
    /// No companion where there is one to name, or one that isn't earlier.
    Lacking {
        mark: usize,
    },
    /// Not judged, and because of this file alone.
    NotJudged {
        mark: usize,
        file: usize,
    },
    /// A rule's mark has this kind after a change of this file, which it reads.
    Rejudged {
        mark: usize,
        file: usize,
        kind: u32,
    },
    /// A mark has a companion after a change of this file.
    Renamed {
        mark: usize,
        file: usize,
    },
    /// A mark was handed in with a companion and is judged to have none.
    Cleared {
        mark: usize,
    },
    /// A companion beyond all records comes back as it was handed in, from a
    /// change that is accepted or refused.
    Kept {
        mark: usize,
        refused: bool,
    },
    /// A call with this refusal, or with none.
    Refusal {
        op: u32,
        refusal: u32,
    },
    /// A lookup of an omitted file.
    Omitted,
    /// An accepted change of this file, present or not before and after it.
    Changed {
        number: usize,
        before: bool,
        after: bool,
    },
    /// What the question for a reason shows.
    Reason(Told),
}

/// Where the earliest record of the same key stands: right above, else at the
/// very start, else between.
#[derive(Clone, Copy, Debug, PartialEq, Eq, PartialOrd, Ord)]
pub enum Earlier {
    Above,
    Start,
    Between,
}

/// What a child's companion stands for: nothing because its Level is 1 or
/// because no earlier record has a lower one, the record above, or another.
#[derive(Clone, Copy, Debug, PartialEq, Eq, PartialOrd, Ord)]
pub enum Parent {
    LevelOne,
    Missing,
    Above,
    Further,
}

impl Display for Sight {
    fn fmt(&self, out: &mut fmt::Formatter) -> fmt::Result {
        match self {
            Sight::File { number, kind } => write!(out, "file {number} of kind {kind}"),
            Sight::Standing { number, kind, at } => {
                write!(out, "file {number} of kind {kind} in its record {at:?}")
            }
            Sight::Holds { mark } => write!(out, "mark {mark} holds"),
            Sight::BrokenFirst { mark } => write!(out, "mark {mark} broken at once"),
            Sight::BrokenMiddle { mark } => write!(out, "mark {mark} broken in the middle"),
            Sight::BrokenLast { mark } => write!(out, "mark {mark} broken at the last record"),
            Sight::Copied { mark, from } => write!(out, "mark {mark}, a copy of {from:?}"),
            Sight::Child { mark, parent, at } => {
                write!(out, "mark {mark} broken at {at:?}, its parent {parent:?}")
            }
            Sight::Needless { mark } => write!(out, "mark {mark} with a companion it can't have"),
            Sight::Lacking { mark } => write!(out, "mark {mark} without its companion"),
            Sight::NotJudged { mark, file } => {
                write!(out, "mark {mark} not judged because of file {file}")
            }
            Sight::Rejudged { mark, file, kind } => {
                write!(out, "mark {mark} of kind {kind} after a change of file {file}")
            }
            Sight::Renamed { mark, file } => {
                write!(out, "mark {mark} with a companion after a change of file {file}")
            }
            Sight::Cleared { mark } => write!(out, "mark {mark} without its handed companion"),
            Sight::Kept { mark, refused } => {
                write!(out, "mark {mark} with its handed companion, refused {refused}")
            }
            Sight::Refusal { op, refusal } => write!(out, "op {op} with refusal {refusal}"),
            Sight::Omitted => write!(out, "an omitted file looked up"),
            Sight::Changed { number, before, after } => {
                write!(out, "file {number} changed, present before {before}, after {after}")
            }
            Sight::Reason(told) => write!(out, "{told}"),
        }
    }
}

// ---------------------------------------------------------------- wanted

pub(super) fn wanted() -> Vec<Sight> {
    let mut wanted = vec![Sight::Omitted];
    for number in 0..FILES {
        wanted.extend(wanted_of_file(number));
        wanted.extend(wanted_changes(number));
    }
    for mark in FIRST_RULE..=LAST_RULE {
        wanted.extend(wanted_of_rule(mark));
        wanted.extend(wanted_companions(mark));
    }
    for mark in 0..=LAST_RULE {
        wanted.extend(wanted_of_handed(mark));
    }
    wanted.extend(wanted_refusals());
    wanted.extend(reason_sights::wanted().into_iter().map(Sight::Reason));
    wanted
}

/// What no case may show.
pub(super) fn ruled_out() -> Vec<Sight> {
    let kinds = (0..FILES).map(|number| Sight::File { number, kind: GIVEN_NO_MORE });
    let needless = (0..=LAST_RULE).map(|mark| Sight::Needless { mark });
    let lacking = (0..=LAST_RULE).map(|mark| Sight::Lacking { mark });
    let reasons = reason_sights::ruled_out().into_iter().map(Sight::Reason);
    kinds.chain(needless).chain(lacking).chain(reasons).collect()
}

fn wanted_of_file(number: usize) -> Vec<Sight> {
    let mut wanted = Vec::new();
    for kind in possible_kinds(number) {
        wanted.push(Sight::File { number, kind });
        if stands_in_record(kind) {
            let places = places_of(number).into_iter();
            wanted.extend(places.map(|at| Sight::Standing { number, kind, at }));
        }
    }
    wanted
}

fn wanted_changes(number: usize) -> [Sight; 4] {
    [(false, false), (false, true), (true, false), (true, true)]
        .map(|(before, after)| Sight::Changed { number, before, after })
}

fn wanted_of_rule(mark: usize) -> Vec<Sight> {
    let files = files_read(mark);
    let mut wanted = vec![Sight::Holds { mark }, Sight::BrokenFirst { mark }];
    if !is_singleton(files[0]) {
        wanted.extend([Sight::BrokenMiddle { mark }, Sight::BrokenLast { mark }]);
    }
    for file in files {
        wanted.push(Sight::NotJudged { mark, file });
        let kinds = [HOLDS.kind, BROKEN, NOT_JUDGED];
        wanted.extend(kinds.map(|kind| Sight::Rejudged { mark, file, kind }));
    }
    wanted
}

/// The first record of an outline has no parent, so 79 names none there, and 80
/// isn't broken there.
fn wanted_companions(mark: usize) -> Vec<Sight> {
    let anywhere = [At::First, At::Middle, At::Last];
    let child = |parent: Parent, places: &[At]| -> Vec<Sight> {
        places.iter().map(|at| Sight::Child { mark, parent, at: *at }).collect()
    };
    let mut wanted = Vec::new();
    if is_key(mark) {
        let from = [Earlier::Above, Earlier::Start, Earlier::Between];
        wanted.extend(from.map(|from| Sight::Copied { mark, from }));
    }
    if mark == PARENT_GIVEN {
        wanted.extend(child(Parent::LevelOne, &anywhere));
        wanted.extend(child(Parent::Missing, &anywhere));
    }
    if names_parent(mark) {
        wanted.extend(child(Parent::Above, &anywhere[1..]));
        wanted.extend(child(Parent::Further, &anywhere[1..]));
    }
    wanted
}

/// File 0 has no records, and most rules name none.
fn wanted_of_handed(mark: usize) -> Vec<Sight> {
    let mut wanted = vec![Sight::Cleared { mark }];
    wanted.extend([false, true].map(|refused| Sight::Kept { mark, refused }));
    if (1..FILES).contains(&mark) {
        wanted.push(Sight::Renamed { mark, file: mark });
    }
    if is_key(mark) || names_parent(mark) {
        let files = files_read(mark).into_iter();
        wanted.extend(files.map(|file| Sight::Renamed { mark, file }));
    }
    wanted
}

/// A judgement asks for no file and writes nothing, a try writes nothing, and
/// a lookup changes nothing. A lent workspace changes no refusal. A reason that is
/// told is refusal 0.
fn wanted_refusals() -> Vec<Sight> {
    let refusals: [(u32, &[u32]); 9] = [
        (JUDGE, &[0, 1, 2, 3]),
        (TRY, &[0, 1, 2, 3, 4, 6]),
        (MAKE, &[0, 1, 2, 3, 4, 5, 6]),
        (LOOK_UP, &[0, 1, 2, 3, 4]),
        (JUDGE + LENT, &[0, 1, 2, 3]),
        (TRY + LENT, &[0, 1, 2, 3, 4, 6]),
        (MAKE + LENT, &[0, 1, 2, 3, 4, 5, 6]),
        (REASON, &[0, 1, 2, 3, 7]),
        (REASON_LENT, &[0, 1, 2, 3, 7]),
    ];
    let of_op = |(op, refusals): (u32, &'static [u32])| {
        refusals.iter().map(move |refusal| Sight::Refusal { op, refusal: *refusal })
    };
    refusals.into_iter().flat_map(of_op).collect()
}

// ------------------------------------------------------------------ seen

/// Marks are looked at only where they were judged: a change hands back others
/// that may stand for nothing.
pub(super) fn sights_of(case: &GateCase, expected: &Answer) -> Vec<Sight> {
    let mut sights = vec![Sight::Refusal { op: case.op(), refusal: expected.refusal() }];
    match (&case.call, expected) {
        (Call::Judge, Answer::Judged { refusal: 0, board }) => {
            sights.extend(of_board(&case.bundle, board));
        }
        (Call::Try(change), Answer::Judged { refusal, board }) => {
            sights.extend(of_changed_board(change, *refusal, board));
        }
        (Call::Make(change, _), Answer::Made { refusal, board, .. }) => {
            if *refusal == 0 {
                sights.push(of_change(&case.bundle, change));
            }
            sights.extend(of_changed_board(change, *refusal, board));
        }
        (Call::LookUp(_), Answer::Found(part)) if part.state == 1 => sights.push(Sight::Omitted),
        (Call::Reason(mark), Answer::Told(nine)) => {
            let told = reason_sights::sights_of(&case.bundle, *mark, nine);
            sights.extend(told.into_iter().map(Sight::Reason));
        }
        _ => {}
    }
    sights
}

fn of_change(bundle: &[u8], change: &Change) -> Sight {
    let number = change.number as usize;
    let before = file_state(bundle, number) == FileState::Present;
    Sight::Changed { number, before, after: change.new.is_some() }
}

/// No mark of a refused change is judged: all are handed back.
fn of_changed_board(change: &Change, refusal: u32, board: &Board) -> Vec<Sight> {
    let refused = refusal != 0;
    let touched = if refused { Vec::new() } else { touched_marks(change.number as usize) };
    let mut sights = Vec::new();
    for mark in 0..=LAST_RULE {
        let (handed, judged) = (change.board.marks[mark], board.marks[mark]);
        if touched.contains(&mark) {
            sights.extend(of_touched(mark, change.number as usize, handed, judged));
        } else if judged == handed && handed.companion as usize > MOST_RECORDS {
            sights.push(Sight::Kept { mark, refused });
        }
    }
    sights
}

fn of_touched(mark: usize, file: usize, handed: Mark, judged: Mark) -> Vec<Sight> {
    let mut sights: Vec<Sight> = of_companion(mark, judged).into_iter().collect();
    if mark >= FIRST_RULE {
        sights.push(Sight::Rejudged { mark, file, kind: judged.kind });
    }
    match (handed.companion, judged.companion) {
        (0, 0) => {}
        (_, 0) => sights.push(Sight::Cleared { mark }),
        _ => sights.push(Sight::Renamed { mark, file }),
    }
    sights
}

fn of_board(bundle: &[u8], board: &Board) -> Vec<Sight> {
    let mut sights = Vec::new();
    for number in 0..FILES {
        let Mark { kind, place, .. } = board.marks[number];
        sights.push(Sight::File { number, kind });
        if stands_in_record(kind) {
            let at = standing(number, file_part(bundle, number), kind, place as usize);
            sights.extend(at.map(|at| Sight::Standing { number, kind, at }));
        }
    }
    for mark in FIRST_RULE..=LAST_RULE {
        sights.extend(of_rule(bundle, board, mark));
    }
    for (mark, judged) in board.marks.iter().enumerate() {
        sights.extend(of_companion(mark, *judged));
    }
    sights
}

fn of_rule(bundle: &[u8], board: &Board, mark: usize) -> Vec<Sight> {
    match board.marks[mark].kind {
        BROKEN => of_broken_rule(bundle, mark, board.marks[mark]),
        NOT_JUDGED => {
            let unread = only_unread(board, mark).into_iter();
            unread.map(|file| Sight::NotJudged { mark, file }).collect()
        }
        _ => vec![Sight::Holds { mark }],
    }
}

fn of_broken_rule(bundle: &[u8], mark: usize, judged: Mark) -> Vec<Sight> {
    let count = records_begun(file_part(bundle, files_read(mark)[0]));
    let at = standing_among(judged.place as usize, count);
    let mut sights = vec![match at {
        _ if judged.place == first_place(mark) => Sight::BrokenFirst { mark },
        At::Last => Sight::BrokenLast { mark },
        _ => Sight::BrokenMiddle { mark },
    }];
    if is_key(mark) {
        sights.push(Sight::Copied { mark, from: earlier(judged) });
    }
    if names_parent(mark) {
        let parent = parent(bundle, judged);
        sights.push(Sight::Child { mark, parent, at });
        if parent == Parent::LevelOne && judged.companion != 0 {
            sights.push(Sight::Needless { mark });
        }
    }
    sights
}

/// A key needs an earlier record to be broken, and so does a parent.
fn first_place(mark: usize) -> u32 {
    match mark {
        20..=35 | 80 => 2,
        _ => 1,
    }
}

/// The only file with a fault among those that the rule reads.
fn only_unread(board: &Board, mark: usize) -> Option<usize> {
    let has_fault = |file: &usize| board.marks[*file] != HOLDS;
    let unread: Vec<usize> = files_read(mark).into_iter().filter(has_fault).collect();
    match unread[..] {
        [file] => Some(file),
        _ => None,
    }
}

// ------------------------------------------------------------ companions

fn is_key(mark: usize) -> bool {
    (20..=35).contains(&mark)
}

fn names_parent(mark: usize) -> bool {
    [PARENT_GIVEN, PARENT_IS_SUMMARY].contains(&mark)
}

/// What is wrong with the companion of a mark, as far as order 5 says it by the
/// mark's numbers alone.
fn of_companion(mark: usize, judged: Mark) -> Option<Sight> {
    let Mark { kind, place, companion } = judged;
    let is_broken = kind == BROKEN;
    let (may_name, must_name) = match mark {
        0..=19 => (names_its_record(kind), names_its_record(kind)),
        20..=35 | PARENT_IS_SUMMARY => (is_broken, is_broken),
        PARENT_GIVEN => (is_broken, false),
        _ => (false, false),
    };
    let is_late = mark >= FIRST_RULE && companion >= place;
    match companion {
        0 if must_name => Some(Sight::Lacking { mark }),
        0 => None,
        _ if !may_name => Some(Sight::Needless { mark }),
        _ if is_late => Some(Sight::Lacking { mark }),
        _ => None,
    }
}

fn earlier(judged: Mark) -> Earlier {
    match judged.companion {
        companion if companion + 1 == judged.place => Earlier::Above,
        1 => Earlier::Start,
        _ => Earlier::Between,
    }
}

fn parent(bundle: &[u8], judged: Mark) -> Parent {
    if level_at(bundle, judged.place as usize) == Some(1) {
        return Parent::LevelOne;
    }
    match judged.companion {
        0 => Parent::Missing,
        companion if companion + 1 == judged.place => Parent::Above,
        _ => Parent::Further,
    }
}

/// The Level of the outline's record of that number.
fn level_at(bundle: &[u8], number: usize) -> Option<i64> {
    let outline = read_file(OUTLINE, Some(file_part(bundle, OUTLINE))).ok()?;
    outline.get(number - 1)?.integer("Level")
}

#[cfg(test)]
mod tests {
    use super::*;
    use crate::compare::gate::sample::{accepted, array, Set};
    use crate::compare::run::Question;
    use std::collections::BTreeSet;
    use std::sync::Arc;

    fn sights(case: &GateCase) -> BTreeSet<Sight> {
        case.sights(&case.answer()).into_iter().collect()
    }

    fn judged(bundle: Vec<u8>) -> BTreeSet<Sight> {
        sights(&GateCase::new(Arc::new(bundle), Call::Judge))
    }

    #[test]
    fn each_mark_is_wanted_holding_broken_and_not_judged() {
        let wanted: BTreeSet<Sight> = wanted().into_iter().collect();
        for mark in 20..=80 {
            assert!(wanted.contains(&Sight::Holds { mark }));
            assert!(wanted.contains(&Sight::BrokenFirst { mark }));
            for file in files_read(mark) {
                assert!(wanted.contains(&Sight::NotJudged { mark, file }));
            }
        }
        for kind in (10..=22).chain(30..=34).filter(|kind| *kind != GIVEN_NO_MORE) {
            assert!((0..20).any(|number| wanted.contains(&Sight::File { number, kind })));
        }
        for mark in 0..=80 {
            assert!(wanted.contains(&Sight::Kept { mark, refused: true }));
            let is_named = wanted
                .iter()
                .any(|sight| matches!(sight, Sight::Renamed { mark: named, .. } if *named == mark));
            assert_eq!(is_named, (1..=35).contains(&mark) || mark == 79 || mark == 80);
        }
        assert!(!ruled_out().iter().any(|sight| wanted.contains(sight)));
        for refusal in 1..=6 {
            assert!(wanted.contains(&Sight::Refusal { op: MAKE, refusal }));
        }
    }

    #[test]
    fn an_accepted_set_shows_what_holds() {
        let seen = judged(accepted().bundle());
        assert!((20..=80).all(|mark| seen.contains(&Sight::Holds { mark })));
        assert!((0..20).all(|number| seen.contains(&Sight::File { number, kind: 0 })));
        assert_eq!(seen.len(), 61 + 20 + 1);
    }

    #[test]
    fn a_rule_is_not_judged_because_of_one_file() {
        let seen = judged(accepted().with(9, "").bundle());
        assert!(seen.contains(&Sight::File { number: 9, kind: 11 }));
        assert!(seen.contains(&Sight::NotJudged { mark: 80, file: 9 }));
        let both = judged(accepted().with(9, "").with(15, "").bundle());
        assert!(!both.contains(&Sight::NotJudged { mark: 80, file: 9 }));
        assert!(both.contains(&Sight::NotJudged { mark: 79, file: 15 }));
    }

    #[test]
    fn a_rule_is_broken_at_once_or_later() {
        let set = accepted().with(15, r#"[{"Level":2,"TaskID":"S1"},{"Level":3,"TaskID":"s1"}]"#);
        let seen = judged(set.bundle());
        assert!(seen.contains(&Sight::BrokenFirst { mark: 78 }));
        assert!(seen.contains(&Sight::BrokenFirst { mark: 31 }));
        assert!(seen.contains(&Sight::BrokenMiddle { mark: 74 }));
    }

    fn calendars(ids: &[&str]) -> BTreeSet<Sight> {
        let records: Vec<String> =
            ids.iter().map(|id| format!(r#"{{"ID":"{id}","Name":"{{"}}"#)).collect();
        judged(Set::empty().with(6, &array(&records)).bundle())
    }

    #[test]
    fn a_key_is_told_by_the_record_that_it_copies() {
        let mark = 22;
        let copied = |from| Sight::Copied { mark, from };
        let seen = calendars(&["A", "B", "a", "C"]);
        assert!(seen.contains(&copied(Earlier::Start)));
        assert!(seen.contains(&Sight::BrokenMiddle { mark }));
        let seen = calendars(&["A", "B", "C", "b"]);
        assert!(seen.contains(&copied(Earlier::Between)));
        assert!(seen.contains(&Sight::BrokenLast { mark }));
        let seen = calendars(&["A", "A"]);
        assert!(seen.contains(&copied(Earlier::Above)));
        assert!(seen.contains(&Sight::BrokenFirst { mark }));
    }

    #[test]
    fn a_child_is_told_by_its_parent() {
        let child = |rows: &[(i64, &str)]| {
            let row = |(at, (level, parent)): (usize, &(i64, &str))| {
                let level = format!(r#""Level":{level},"TaskID":"{}""#, at + 1);
                format!(r#"{{{level},"ParentTaskID":"{parent}"}}"#)
            };
            let rows: Vec<String> = rows.iter().enumerate().map(row).collect();
            let seen = judged(Set::empty().with(15, &array(&rows)).bundle());
            let of_79 = |sight: &Sight| match sight {
                Sight::Child { mark: 79, parent, at } => Some((*parent, *at)),
                _ => None,
            };
            seen.iter().find_map(of_79).unwrap()
        };
        assert_eq!(child(&[(1, "1"), (1, "")]), (Parent::LevelOne, At::First));
        assert_eq!(child(&[(1, ""), (0, "")]), (Parent::Missing, At::Last));
        assert_eq!(child(&[(1, ""), (2, ""), (1, "")]), (Parent::Above, At::Middle));
        assert_eq!(child(&[(1, ""), (2, "1"), (2, "2")]), (Parent::Further, At::Last));
    }

    fn companion(mark: usize, kind: u32, place: u32, companion: u32) -> Option<Sight> {
        of_companion(mark, Mark { kind, place, companion })
    }

    #[test]
    fn companions_are_told_from_others_that_cannot_be() {
        for mark in 0..=80 {
            assert_eq!(companion(mark, 0, 0, 1), Some(Sight::Needless { mark }));
            assert_eq!(companion(mark, 0, 0, 0), None);
        }
        for mark in 20..=80 {
            assert_eq!(companion(mark, 2, 0, 1), Some(Sight::Needless { mark }));
        }
        for mark in 36..=78 {
            assert_eq!(companion(mark, 1, 3, 1), Some(Sight::Needless { mark }));
            assert_eq!(companion(mark, 1, 3, 0), None);
        }
        for mark in (20..=35).chain([80]) {
            assert_eq!(companion(mark, 1, 3, 0), Some(Sight::Lacking { mark }));
            assert_eq!(companion(mark, 1, 3, 3), Some(Sight::Lacking { mark }));
            assert_eq!(companion(mark, 1, 3, 2), None);
        }
        assert_eq!(companion(79, 1, 3, 0), None);
        assert_eq!(companion(79, 1, 3, 2), None);
        for kind in [13, 14, 15, 17, 18, 30, 31, 32, 33, 34] {
            assert_eq!(companion(6, kind, 2, 0), Some(Sight::Lacking { mark: 6 }));
            assert_eq!(companion(6, kind, 2, 9), None);
        }
        for kind in [10, 11, 12, 19, 20, 21, 22] {
            assert_eq!(companion(6, kind, 2, 1), Some(Sight::Needless { mark: 6 }));
            assert_eq!(companion(6, kind, 2, 0), None);
        }
    }

    #[test]
    fn a_refused_judgement_shows_its_refusal_only() {
        let refused = Sight::Refusal { op: JUDGE, refusal: 1 };
        assert_eq!(judged(Vec::new()), BTreeSet::from([refused]));
    }

    #[test]
    fn a_change_shows_the_marks_that_it_touches() {
        let board = Board::fresh();
        let change = Change { board, number: 1, new: Some(Arc::new(b"{}".to_vec())) };
        let bundle = Arc::new(accepted().bundle());
        let seen = sights(&GateCase::new(bundle, Call::Try(change)));
        let not_judged = |mark| Sight::Rejudged { mark, file: 1, kind: 2 };
        let none = Sight::Refusal { op: TRY, refusal: 0 };
        let expected = [not_judged(36), not_judged(65), not_judged(66), none];
        assert_eq!(seen, BTreeSet::from(expected));
    }

    #[test]
    fn a_change_shows_what_becomes_of_handed_companions() {
        let mut board = Board::fresh();
        for mark in [1, 2, 36] {
            board.marks[mark].companion = 5000;
        }
        let bundle = Arc::new(accepted().bundle());
        let new = Some(Arc::new(br#"{"x":1}"#.to_vec()));
        let put = |number| Change { board, number, new: new.clone() };
        let seen = sights(&GateCase::new(bundle.clone(), Call::Try(put(1))));
        assert!(seen.contains(&Sight::Renamed { mark: 1, file: 1 }));
        assert!(seen.contains(&Sight::Cleared { mark: 36 }));
        assert!(seen.contains(&Sight::Kept { mark: 2, refused: false }));
        assert!(!seen.contains(&Sight::Kept { mark: 36, refused: false }));
        let seen = sights(&GateCase::new(bundle, Call::Try(put(20))));
        let kept = [1, 2, 36].map(|mark| Sight::Kept { mark, refused: true });
        let refused = Sight::Refusal { op: TRY, refusal: 4 };
        assert_eq!(seen, kept.into_iter().chain([refused]).collect());
    }

    #[test]
    fn lookups_of_omitted_files_are_told_apart() {
        let look_up = |number| {
            let bundle = Arc::new(accepted().without(8).bundle());
            sights(&GateCase::new(bundle, Call::LookUp(number)))
        };
        let none = Sight::Refusal { op: LOOK_UP, refusal: 0 };
        assert_eq!(look_up(7), BTreeSet::from([none]));
        assert_eq!(look_up(8), BTreeSet::from([none, Sight::Omitted]));
    }
}
