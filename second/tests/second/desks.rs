//! The readings of order 10, each with its case, and the laws of the desks.

use std::collections::HashMap;

use crate::sample::{accepted, Set};
use second::board::{Board, Mark};
use second::bundle::LARGEST_BUNDLE;
use second::compare::desks::case::{Call, DesksCase, BOARDS, REFUSALS};
use second::compare::desks::cases::all_cases;
use second::compare::run::Question;
use second::desks::Whose::{Calendars, DeskA, DeskB};
use second::desks::{change_desks, judge_joined, try_desks, Answers, Lent, Whose};
use second::gate::{judge, touched_marks};

const HANDED: Board = Board { marks: [Mark { kind: 9, place: 9, companion: 9 }; 81] };

fn none() -> Set {
    Set::empty()
}

/// What stands in an output before a call.
const FILLER: u8 = b'~';

/// A made change into an output of that length, and the output.
fn made(
    [a, b, shared]: [&[u8]; 3],
    whose: Whose,
    number: usize,
    new: Option<&str>,
    length: usize,
) -> (Answers, Vec<u8>) {
    let boards = [HANDED; 2];
    let lent = Lent { desks: [a, b], shared, boards: &boards };
    let new = new.map(str::as_bytes);
    let mut output = vec![FILLER; length];
    let answers = change_desks(lent, whose, number, new, &mut output);
    assert!(output[answers.size..].iter().all(|byte| *byte == FILLER));
    let tried = try_desks(lent, whose, number, new);
    if !answers.desks.iter().any(|desk| desk.refusal == 5) {
        assert_eq!(tried, answers);
    }
    (answers, output)
}

fn refusals(answers: &Answers) -> [u32; 2] {
    [answers.desks[0].refusal, answers.desks[1].refusal]
}

fn refused(three: [&[u8]; 3], whose: Whose, number: usize, new: Option<&str>) -> [u32; 2] {
    refusals(&made(three, whose, number, new, 500).0)
}

fn with_count(set: &Set, count: u8) -> Vec<u8> {
    let mut bundle = set.bundle();
    bundle[0] = count;
    bundle
}

#[test]
fn reading_1_nine_comes_after_both_layouts() {
    let a = none().with(6, "[]").bundle();
    let b = none().bundle();
    assert_eq!(refused([&a, &b, &b[..163]], Calendars, 8, Some("[]")), [1, 1]);
    assert_eq!(refused([&a, &b, &b[..163]], DeskA, 9, Some("[]")), [1, 1]);
    assert_eq!(refused([&a, &b, &b], DeskA, 9, Some("[]")), [9, 0]);
}

#[test]
fn reading_2_a_desks_own_refusal_comes_first() {
    let b = none().bundle();
    let a = with_count(&none(), 1);
    assert_eq!(refused([&a, &b, &b[..163]], Calendars, 8, Some("[]")), [2, 1]);
    let shared = none().with(9, "[]").bundle();
    assert_eq!(refused([&b, &b, &shared], Calendars, 8, Some("[]")), [9, 9]);
    assert_eq!(refused([&b, &b, &shared], DeskB, 4, Some("[]")), [9, 9]);
}

#[test]
fn reading_3_the_other_desk_is_tested_too() {
    let a = none().bundle();
    let b = with_count(&none(), 1);
    let (answers, output) = made([&a, &b, &a], DeskA, 9, Some("[]"), 166);
    assert_eq!((refusals(&answers), answers.size), ([0, 2], 166));
    assert_eq!(output, none().with(9, "[]").bundle());
    assert_eq!(answers.desks[1].board, HANDED);
    let (answers, _) = made([&a, &a, &a], DeskA, 9, Some("[]"), 166);
    assert_eq!((refusals(&answers), answers.desks[1].board), ([0, 0], HANDED));
}

#[test]
fn reading_4_an_empty_file_is_held() {
    let right = none().bundle();
    let holds = none().with(7, "").bundle();
    assert_eq!(refused([&right, &holds, &right], DeskA, 9, None), [0, 9]);
    assert_eq!(refused([&right, &right, &none().with(0, "").bundle()], DeskA, 9, None), [9, 9]);
    assert_eq!(refused([&right, &right, &holds], DeskA, 9, None), [0, 0]);
}

#[test]
fn reading_5_nine_of_the_change() {
    let none = none().bundle();
    let three = [&none[..]; 3];
    assert_eq!(refused(three, DeskA, 8, None), [9, 0]);
    assert_eq!(refused(three, Calendars, 9, Some("[]")), [9, 9]);
    assert_eq!(refused(three, Calendars, 9, None), [9, 9]);
    assert_eq!(refused(three, Calendars, 20, Some("[]")), [4, 4]);
    assert_eq!(refused(three, DeskB, 20, None), [0, 4]);
}

#[test]
fn reading_6_five_and_six_are_of_the_changed_bundle() {
    let bundle = none().bundle();
    let three = [&bundle[..]; 3];
    let (answers, _) = made(three, Calendars, 8, Some("[]"), 165);
    assert_eq!((refusals(&answers), answers.size), ([5, 5], 0));
    let (answers, _) = made(three, DeskA, 9, Some("[]"), 165);
    assert_eq!((refusals(&answers), answers.size), ([5, 0], 0));
    let long = " ".repeat(LARGEST_BUNDLE - 163);
    assert_eq!(refused(three, Calendars, 8, Some(&long)), [6, 6]);
    assert_eq!(refused(three, DeskB, 9, Some(&long)), [0, 6]);
}

#[test]
fn reading_7_calendars_are_written_unless_both_are_refused() {
    let right = none().bundle();
    let a = with_count(&none(), 1);
    let (answers, output) = made([&a, &right, &right], Calendars, 8, Some("[]"), 166);
    assert_eq!((refusals(&answers), answers.size), ([2, 0], 166));
    assert_eq!(output, none().with(8, "[]").bundle());
    assert_eq!(answers.desks[0].board, HANDED);
    let anew = |mark: &usize| answers.desks[1].board.marks[*mark] != HANDED.marks[*mark];
    assert_eq!((0..81).filter(anew).collect::<Vec<_>>(), [8, 24, 50, 70]);
    let nine = none().with(6, "").bundle();
    let (answers, _) = made([&a, &nine, &right], Calendars, 8, Some("[]"), 166);
    assert_eq!((refusals(&answers), answers.size), ([2, 9], 0));
}

#[test]
fn reading_8_the_join_is_judged_in_full() {
    let right = none().bundle();
    let nine = none().with(6, "").bundle();
    assert_eq!(judge_joined(&nine, &right[..163]).refusal, 1);
    assert_eq!(judge_joined(&right[..163], &with_count(&none(), 3)).refusal, 1);
    assert_eq!(judge_joined(&nine, &right).refusal, 9);
    assert_eq!(judge_joined(&nine, &right).board, Board::fresh());
    let (mut desk, mut calendars) = (accepted(), none());
    for number in 6..=8 {
        calendars.files[number] = desk.files[number].take();
    }
    assert!(judge_joined(&desk.bundle(), &calendars.bundle()).board.is_accepted());
    assert!(!judge_joined(&desk.bundle(), &right).board.is_accepted());
}

#[test]
fn reading_9_the_join_has_no_limit() {
    let table = format!("[{}]", " ".repeat(LARGEST_BUNDLE - 166));
    let desk = none().with(9, &table).bundle();
    let shared = none().with(6, &table).bundle();
    assert_eq!(desk.len(), LARGEST_BUNDLE);
    assert_eq!(judge_joined(&desk, &shared).refusal, 0);
    assert_eq!(refused([&desk, &desk, &shared], DeskA, 9, Some("[]")), [0, 0]);
}

/// The files of the join as one bundle, judged by the plain gate.
fn join(desk: &[u8], shared: &[u8]) -> Vec<u8> {
    let mut files = second::bundle::files(desk).unwrap();
    let calendars = second::bundle::files(shared).unwrap();
    files[6..=8].copy_from_slice(&calendars[6..=8]);
    second::bundle::build(&files)
}

/// An accepted change judges exactly the marks that it touches, on the join
/// after it; the other desk's board comes back.
#[test]
fn a_change_judges_the_join_after_it() {
    let mut changes = 0;
    for case in all_cases(7).iter().filter(|case| case.three.desks[0].len() < 50_000) {
        let change = match &case.call {
            Call::Make(change, _) => change,
            _ => continue,
        };
        let answer = case.answer();
        let size = answer.number_of("size") as usize;
        let written = &answer.bytes_of("output")[..size];
        for desk in 0..2 {
            let board = *answer.board_of(BOARDS[desk]).unwrap();
            let mut expected = change.boards[desk];
            let concerned = [DeskA, DeskB][desk] == change.whose || change.whose == Calendars;
            if concerned && answer.number_of(REFUSALS[desk]) == 0 {
                changes += 1;
                let joined = match change.whose {
                    Calendars => join(&case.three.desks[desk], written),
                    _ => join(written, &case.three.shared),
                };
                let judged = judge(&joined).board;
                for mark in touched_marks(change.number as usize) {
                    expected.marks[mark] = judged.marks[mark];
                }
            }
            assert_eq!(board, expected);
        }
    }
    assert!(changes > 2_000, "{changes}");
}

/// What a desk is answered hangs on its own bundle and board, the calendars and
/// the change to these with its output's length, and on nothing else.
#[test]
fn a_desk_is_answered_by_its_own_things() {
    let mut answered: HashMap<Vec<u8>, (u32, Board)> = HashMap::new();
    let mut again = 0;
    for case in all_cases(8).iter().filter(|case| case.three.desks[0].len() < 5_000) {
        if case.change().is_none_or(|change| change.new.as_ref().map_or(0, |n| n.len()) > 5000) {
            continue;
        }
        for desk in 0..2 {
            let mut same_board = case.clone();
            if let Call::Try(change) | Call::Make(change, _) = &mut same_board.call {
                *change.boards = [HANDED; 2];
            }
            let reply = same_board.answer();
            let value = (reply.number_of(REFUSALS[desk]), *reply.board_of(BOARDS[desk]).unwrap());
            if let Some(earlier) = answered.insert(own_things(&same_board, desk), value) {
                again += 1;
                assert_eq!(earlier, value);
            }
        }
    }
    assert!(again > 3_000, "{again}");
}

fn own_things(case: &DesksCase, desk: usize) -> Vec<u8> {
    let change = case.change().unwrap();
    let concerned = [DeskA, DeskB][desk] == change.whose || change.whose == Calendars;
    let mut things = format!("{:?}|{:?}", case.three.desks[desk], case.three.shared);
    if concerned {
        let length = match case.call {
            Call::Make(_, output) => output.length as usize,
            _ => usize::MAX,
        };
        let is_shared = change.whose == Calendars;
        things += &format!("|{is_shared}|{}|{:?}|{length}", change.number, change.new);
    }
    things.into_bytes()
}

/// Programs that are wrong in one respect differ in some case.
#[test]
fn lazy_desks_are_caught() {
    let cases = all_cases(9);
    let small = || cases.iter().filter(|case| case.three.shared.len() < 50_000);
    let answers = |case: &DesksCase| {
        let reply = case.answer();
        (REFUSALS.map(|name| reply.number_of(name)), reply.number_of("size"))
    };
    let changes = || small().filter_map(|case| Some((case, case.change()?)));
    // One that writes nothing where a desk is refused, and one that writes then
    // whatever happens.
    let held_back = changes().filter(|(case, change)| {
        let ([a, b], size) = answers(case);
        change.whose == Calendars && size > 0 && (a == 0) != (b == 0)
    });
    assert!(held_back.count() > 300);
    let written = changes().filter(|(case, change)| {
        let ([a, b], size) = answers(case);
        change.whose == Calendars && size == 0 && a > 0 && b > 0 && a != b
    });
    assert!(written.count() > 100);
    // One that hands the other desk's board back without looking at its bundle.
    let not_looked = changes().filter(|(case, change)| {
        let (refusals, _) = answers(case);
        match change.whose {
            DeskA => refusals[1] != 0,
            DeskB => refusals[0] != 0,
            Calendars => false,
        }
    });
    assert!(not_looked.count() > 300);
    // One that judges a calendar change anew in full.
    let whole = changes().filter(|(case, change)| {
        let reply = case.answer();
        let touched = touched_marks(change.number as usize);
        let board = reply.board_of(BOARDS[0]).unwrap();
        let judged = judge_joined(&case.three.desks[0], &case.three.shared).board;
        change.whose == Calendars
            && reply.number_of(REFUSALS[0]) == 0
            && (0..81)
                .any(|mark| !touched.contains(&mark) && board.marks[mark] != judged.marks[mark])
    });
    assert!(whole.count() > 300);
}
