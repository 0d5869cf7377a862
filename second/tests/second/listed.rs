//! Order 7: the readings of the list, and the comparison of the second engine.

use std::process::{Command, Output};
use std::sync::OnceLock;

use crate::sample::Set;
use second::board::{Board, Mark, NOT_JUDGED};
use second::compare::listed::case::{list_before, Answer, Call, ListedCase};
use second::compare::listed::cases::all_cases;
use second::compare::run::Question;
use second::gate::judge;
use second::listed::{judge_listed, make_listed, sum_of, try_listed, Entry};

type Four = (u32, u32, u32, u32);

fn four(entry: &Entry) -> Four {
    (entry.start, entry.length, entry.sum, entry.record)
}

const X: Entry = Entry { start: 9, length: 9, sum: 9, record: 9 };

/// The refusal, and the whole list after a judgement.
fn listed(set: &Set, length: usize) -> (u32, Vec<Four>) {
    let mut list = vec![X; length];
    let judged = judge_listed(&set.bundle(), &mut list);
    let expected = match judged.refusal {
        0 => judge(&set.bundle()).board,
        _ => Board::fresh(),
    };
    assert_eq!(judged.board, expected);
    (judged.refusal, list.iter().map(four).collect())
}

const THREE: &str = r#"[{"Name":"n","ID":"b["},{"ID":"\u0041Z","Name":"n"},{"ID":"C","Name":"n"}]"#;
const TWO_SHIFTS: &str = r#"[{"CalendarID":"c","MondayWorkHours":8},{"MondayWorkHours":8,"Ordinal":0.0,"CalendarID":"\u0043"}]"#;

#[test]
fn the_readings_have_their_answers() {
    // 7.1
    let three = Set::empty().with(6, THREE);
    let entries = vec![(59, 1, 99, 3), (19, 2, 3129, 1), (31, 7, 3129, 2)];
    assert_eq!(listed(&three, 3), (0, entries));
    // 7.2 and 7.2b
    assert_eq!(three.mark(22), (0, 0, 0));
    let other =
        Set::empty().with(6, r#"[{"ID":"b[","Name":"n"}]"#).with(7, r#"[{"CalendarID":"az"}]"#);
    let mut list = [X; 2];
    let mark = judge_listed(&other.bundle(), &mut list).board.marks[49];
    assert_eq!((mark.kind, mark.place, mark.companion), (1, 1, 0));
    // 7.3
    assert_eq!(sum_of("zzzzzzz"), 215_481_018);
    // 7.4
    let mixed = Set::empty()
        .with(6, r#"[{"ID":"z","Name":"n"}]"#)
        .with(7, "[")
        .with(16, r#"[{"ID":"a","Name":"n","ElementOfCostID":"x"}]"#);
    let entries = vec![(8, 1, 122, 1), (8, 1, 97, 1), four(&X)];
    assert_eq!(listed(&mixed, 3), (0, entries));
    // 7.5
    assert_eq!(listed(&three, 2), (8, vec![four(&X); 2]));
    assert_eq!(judge_listed(&three.bundle(), &mut [X; 2]).board.marks, [NOT_JUDGED; 81]);
    // 7.6
    let shifts = Set::empty().with(7, TWO_SHIFTS);
    assert_eq!(listed(&shifts, 2), (0, vec![(16, 1, 99, 1), (89, 6, 99, 2)]));
}

/// After a change the list has the files that were read, as they then stand.
#[test]
fn a_change_lists_the_files_that_it_reads() {
    let set = Set::empty().with(6, THREE).with(9, "[]").with(16, "[");
    let board = Board { marks: [Mark { kind: 9, place: 9, companion: 9 }; 81] };
    let new = TWO_SHIFTS.as_bytes();
    let mut list = [X; 6];
    let tried = try_listed(&set.bundle(), &board, 7, Some(new), &mut list);
    let expected: Vec<Four> =
        vec![(59, 1, 99, 3), (19, 2, 3129, 1), (31, 7, 3129, 2), (16, 1, 99, 1), (89, 6, 99, 2)];
    assert_eq!((tried.refusal, tried.length), (0, set.bundle().len() + new.len()));
    assert_eq!(list[..5].iter().map(four).collect::<Vec<Four>>(), expected);
    assert_eq!(list[5], X);
    assert_eq!(tried.board.marks[6], board.marks[6]);
    // One entry too few: all as it was, and an output that is too short comes first.
    for (length, refusal) in [(tried.length, 8), (tried.length - 1, 5)] {
        let (mut list, mut output) = ([X; 4], vec![7; length]);
        let made = make_listed(&set.bundle(), &board, 7, Some(new), &mut output, &mut list);
        assert_eq!((made.refusal, made.length, made.board), (refusal, 0, board));
        assert_eq!((list, output), ([X; 4], vec![7; length]));
    }
    // A file without a key reads none that has one.
    let mut list = [];
    assert_eq!(try_listed(&set.bundle(), &board, 2, None, &mut list).refusal, 0);
    assert_eq!(try_listed(&set.bundle(), &board, 20, None, &mut list).refusal, 4);
}

// ------------------------------------------------------------- comparison

const SEED: u64 = 11;

fn cases() -> &'static [ListedCase] {
    static CASES: OnceLock<Vec<ListedCase>> = OnceLock::new();
    CASES.get_or_init(|| all_cases(SEED))
}

fn compare(arguments: &[&str]) -> Output {
    let program = env!("CARGO_BIN_EXE_compare_listed");
    Command::new(program).args(arguments).output().unwrap()
}

fn last_line(output: &Output) -> String {
    let text = String::from_utf8(output.stdout.clone()).unwrap();
    text.lines().last().unwrap_or("").to_string()
}

#[test]
fn it_passes_beside_itself() {
    let program = env!("CARGO_BIN_EXE_compare_listed");
    for arguments in [&["--self"][..], &["--seed", "3", program, "--serve"]] {
        let output = compare(arguments);
        assert!(output.status.success(), "{}", String::from_utf8_lossy(&output.stdout));
        assert!(last_line(&output).ends_with(" passed, 0 failed"));
    }
    let output = compare(&["true"]);
    assert_eq!(output.status.code(), Some(1));
}

#[test]
fn a_case_comes_back_from_its_bytes() {
    assert_eq!(list_before(3)[2].record, 0xA5A5_A5A5);
    for case in cases().iter().step_by(23) {
        let mut bytes = Vec::new();
        case.write(&mut bytes).unwrap();
        assert_eq!(bytes.len(), case.sent_length());
        assert_eq!(bytes[24..28], case.list.to_le_bytes());
        assert_eq!(ListedCase::read(&mut &bytes[..]).unwrap().as_ref(), Some(case));
        assert!(ListedCase::read(&mut &bytes[..bytes.len() - 1]).is_err());
        let answer = case.answer();
        let mut answered = Vec::new();
        ListedCase::write_answer(&answer, &mut answered).unwrap();
        assert_eq!(answered.len(), answered_length(case));
        assert_eq!(case.read_answer(&mut &answered[..]), Some(answer));
    }
}

fn answered_length(case: &ListedCase) -> usize {
    let output = match case.call {
        Call::Make(_, output) => output as usize,
        _ => 0,
    };
    12 + 972 + output + 16 * case.list as usize
}

/// Programs that are wrong in one respect: each differs from the right answers.
#[test]
fn wrong_lists_are_caught() {
    let answers: Vec<(&ListedCase, Answer)> =
        cases().iter().step_by(3).map(|case| (case, case.answer())).collect();
    let caught = |spoil: fn(&mut Vec<Entry>)| {
        let differs = |(_, right): &&(&ListedCase, Answer)| {
            let mut list = right.list.clone();
            spoil(&mut list);
            right.refusal == 0 && list != right.list
        };
        answers.iter().filter(differs).count()
    };
    // One order over the whole list; order by record; sums alone.
    assert!(caught(|list| list.sort_by_key(|entry| (entry.sum, entry.record))) > 200);
    assert!(caught(|list| list.sort_by_key(|entry| entry.record)) > 200);
    // A list that is too short is only refused in its case.
    let refused = answers.iter().filter(|(_, answer)| answer.refusal == 8).count();
    assert!(refused > 200, "{refused}");
    let filled = answers
        .iter()
        .filter(|(case, answer)| answer.refusal == 0 && answer.list != list_before(case.list));
    assert!(filled.count() > 500);
}
