//! The comparison of the whole gate: right programs pass, others are caught.

use std::process::{Command, Output};
use std::sync::OnceLock;

use second::board::{Board, Mark};
use second::compare::gate::answer::Answer;
use second::compare::gate::case::{Call, Change, GateCase, LONGEST};
use second::compare::gate::cases::all_cases;
use second::compare::run::Question;
use second::gate::{judge, make_change};

/// Of cases and answers together.
const MOST_BYTES: usize = 440_000_000;
const LARGE: usize = 500_000;
const MOST_LARGE: usize = 70;

const SEED: u64 = 9;

/// Made once for all tests: it takes its time.
pub(crate) fn cases() -> &'static [GateCase] {
    static CASES: OnceLock<Vec<GateCase>> = OnceLock::new();
    CASES.get_or_init(|| all_cases(SEED))
}

/// The small ones with their right answers, made once as well.
pub(crate) fn small_cases() -> &'static [(&'static GateCase, Answer)] {
    static SMALL: OnceLock<Vec<(&'static GateCase, Answer)>> = OnceLock::new();
    SMALL.get_or_init(|| {
        let small = cases().iter().filter(|case| case.sent_length() < 20_000);
        small.map(|case| (case, case.answer())).collect()
    })
}

pub(crate) fn compare(arguments: &[&str]) -> Output {
    let program = env!("CARGO_BIN_EXE_compare_gate");
    Command::new(program).args(arguments).output().unwrap()
}

pub(crate) fn text(output: &Output) -> String {
    String::from_utf8(output.stdout.clone()).unwrap()
}

pub(crate) fn last_line(output: &Output) -> String {
    text(output).lines().last().unwrap_or("").to_string()
}

fn answered_length(case: &GateCase) -> usize {
    match case.call {
        Call::Judge | Call::Try(_) => 976,
        Call::Make(_, output) => 980 + output.length as usize,
        Call::LookUp(_) => match case.answer() {
            Answer::Found(part) => 12 + part.bytes.len(),
            _ => unreachable!("a lookup finds a part"),
        },
        Call::Reason(_) => 36,
    }
}

/// Lengths are within what a program under test has to take.
fn is_sound(case: &GateCase) -> bool {
    let new = case.change().and_then(|change| change.new.as_ref());
    let output = match case.call {
        Call::Make(_, output) => output.length as usize,
        _ => 0,
    };
    case.bundle.len() <= LONGEST && new.is_none_or(|new| new.len() <= LONGEST) && output <= LONGEST
}

#[test]
fn the_cases_are_many_and_small_enough() {
    let cases = cases();
    assert!(cases.len() >= 50_000);
    let bytes: usize = cases.iter().map(|case| case.sent_length() + answered_length(case)).sum();
    assert!(bytes < MOST_BYTES, "{bytes}");
    assert!(cases.iter().filter(|case| case.sent_length() > LARGE).count() < MOST_LARGE);
    assert!(cases.iter().all(is_sound));
    for op in 0..=8 {
        assert!(cases.iter().filter(|case| case.op() == op).count() > 2_000, "op {op}");
    }
}

#[test]
fn one_seed_gives_the_same_cases() {
    assert!(cases() == all_cases(SEED));
    assert!(cases() != all_cases(SEED + 1));
}

/// With every wanted sight, as the run itself counts them.
#[test]
fn it_passes_beside_itself() {
    let program = env!("CARGO_BIN_EXE_compare_gate");
    for arguments in [&["--self"][..], &["--seed", "3", program, "--serve"]] {
        let output = compare(arguments);
        assert!(output.status.success(), "{}", text(&output));
        assert!(last_line(&output).ends_with(" passed, 0 failed"));
    }
    let output = compare(&["--only", "7", program, "--serve"]);
    assert_eq!(last_line(&output), "1 passed, 0 failed");
}

#[test]
fn programs_that_answer_too_little_fail() {
    for arguments in [&["true"][..], &["head", "-c", "1000"]] {
        let output = compare(arguments);
        assert_eq!(output.status.code(), Some(1));
        assert!(!last_line(&output).ends_with(" 0 failed"));
    }
}

#[test]
fn programs_that_answer_wrong_fail() {
    let serve = format!("'{}' --serve", env!("CARGO_BIN_EXE_compare_gate"));
    for script in [&format!("{serve} | tr '\\0' '\\1'"), "cat"] {
        let output = compare(&["--only", "7", "sh", "-c", script]);
        assert_eq!(output.status.code(), Some(1), "{script}");
        assert!(!last_line(&output).ends_with(" 0 failed"));
    }
}

#[test]
fn programs_that_answer_too_much_or_hang_or_fail_are_caught() {
    let serve = format!("'{}' --serve", env!("CARGO_BIN_EXE_compare_gate"));
    for script in [&format!("{serve}; echo more"), &format!("{serve}; exit 3"), "yes"] {
        let output = compare(&["--only", "7", "sh", "-c", script]);
        assert_eq!(output.status.code(), Some(1), "{script}");
        assert!(!last_line(&output).ends_with(" 0 failed"));
    }
    let output = compare(&["--time", "1", "sleep", "100"]);
    assert_eq!(output.status.code(), Some(1));
}

#[test]
fn one_wrong_byte_behind_the_new_bundle_is_caught_and_shown() {
    let has_more = |case: &GateCase| match case.answer() {
        Answer::Made { refusal: 0, length, output, .. } => output.len() > length as usize,
        _ => false,
    };
    let cases = cases();
    let made = |case: &&GateCase| matches!(case.call, Call::Make(..)) && case.bundle.len() < 1000;
    let case = cases.iter().filter(made).find(|case| has_more(case)).unwrap();
    let number = cases.iter().position(|other| other == case).unwrap().to_string();
    let serve = format!("'{}' --serve", env!("CARGO_BIN_EXE_compare_gate"));
    let script = format!("{serve} | head -c -1; printf '\\377'");
    let output = compare(&["--seed", "9", "--only", &number, "sh", "-c", &script]);
    assert_eq!(output.status.code(), Some(1));
    assert_eq!(last_line(&output), "0 passed, 1 failed");
    let shown = format!("case {number} (--seed 9 --only {number}): make, file ");
    assert!(text(&output).starts_with(&shown));
    assert!(text(&output).contains("\n  byte "));
}

#[test]
fn unsound_input_is_not_served() {
    let program = env!("CARGO_BIN_EXE_compare_gate");
    let zeros = r"\0".repeat(24);
    for (input, sound) in [
        (String::new(), true),
        (format!(r"\0\0\0\0{zeros}"), true),
        (format!(r"\003\0\0\0{zeros}"), true),
        (format!(r"\004\0\0\0{zeros}"), true),
        (format!(r"\007\0\0\0{zeros}"), true),
        (format!(r"\010\0\0\0{zeros}"), true),
        (format!(r"\011\0\0\0{zeros}"), false),
        (format!(r"\001\0\0\0{zeros}"), false),
        (r"\0\0\0".to_string(), false),
    ] {
        let script = format!("printf '{input}' | '{program}' --serve");
        let output = Command::new("sh").args(["-c", &script]).output().unwrap();
        assert_eq!(output.status.success(), sound, "{input}");
    }
}

#[test]
fn wrong_use_is_told() {
    for arguments in
        [&[][..], &["--seed"], &["--seed", "x", "--self"], &["--what"], &["--only", "x", "--self"]]
    {
        assert_eq!(compare(arguments).status.code(), Some(2));
    }
}

// ------------------------------------------------------------ lazy builds

/// How many cases such a program answers wrongly. It is told the right answer,
/// to be wrong in one respect only.
fn caught(
    cases: &[(&GateCase, Answer)],
    mut program: impl FnMut(&GateCase, &Answer) -> Answer,
) -> usize {
    cases.iter().filter(|(case, right)| program(case, right) != *right).count()
}

fn with_board(answer: &Answer, new_board: Board) -> Answer {
    let mut changed = answer.clone();
    match &mut changed {
        Answer::Judged { board, .. } | Answer::Made { board, .. } => *board = new_board,
        Answer::Found(_) | Answer::Told(_) => {}
    }
    changed
}

/// Judges the new bundle in full, whatever board was handed in.
fn judged_again(case: &GateCase, right: &Answer) -> Answer {
    let Some(Change { board, number, new }) = case.change() else {
        return right.clone();
    };
    if right.refusal() != 0 {
        return right.clone();
    }
    let new = new.as_deref().map(Vec::as_slice);
    let old_length = case.bundle.len();
    let mut output = vec![0; old_length + new.map_or(0, <[u8]>::len)];
    make_change(&case.bundle, board, *number as usize, new, &mut output);
    let old = second::bundle::file_part(&case.bundle, *number as usize);
    output.truncate(output.len() - old.len());
    with_board(right, judge(&output).board)
}

fn refused_always(_: &GateCase, right: &Answer) -> Answer {
    match right {
        Answer::Judged { .. } => Answer::Judged { refusal: 1, board: Board::fresh() },
        other => other.clone(),
    }
}

/// The output stays as it was filled.
fn written_nothing(case: &GateCase, right: &Answer) -> Answer {
    match (&case.call, right) {
        (Call::Make(_, filled), Answer::Made { refusal, length, board, .. }) => Answer::Made {
            refusal: *refusal,
            length: *length,
            board: *board,
            output: filled.filled(),
        },
        _ => right.clone(),
    }
}

/// The right answer with other companions.
fn with_companions(right: &Answer, companion_of: impl Fn(usize, Mark) -> u32) -> Answer {
    let mut changed = right.clone();
    if let Answer::Judged { board, .. } | Answer::Made { board, .. } = &mut changed {
        for (number, mark) in board.marks.iter_mut().enumerate() {
            mark.companion = companion_of(number, *mark);
        }
    }
    changed
}

/// The companions of the touched marks stay as they were handed in.
fn kept_companions(case: &GateCase, right: &Answer) -> Answer {
    match case.change() {
        None => right.clone(),
        Some(change) => with_companions(right, |number, _| change.board.marks[number].companion),
    }
}

/// How many judgements a program answers wrongly that gets companions so.
fn caught_judging(
    cases: &[(&GateCase, Answer)],
    companion_of: impl Fn(usize, Mark) -> u32,
) -> usize {
    caught(cases, |case, right| match case.call {
        Call::Judge => with_companions(right, &companion_of),
        _ => right.clone(),
    })
}

#[test]
fn lazy_companions_are_caught() {
    let cases = small_cases();
    assert!(caught(cases, |_, right| with_companions(right, |_, _| 0)) > 10_000);
    assert!(caught(cases, kept_companions) > 3_000);
    // Counted from 0, and cut to a byte.
    assert!(caught_judging(cases, |_, mark| mark.companion.saturating_sub(1)) > 3_000);
    assert!(caught_judging(cases, |_, mark| mark.companion % 256) > 0);
    // The record of a fault that names none; 20 is only met in large files.
    for kind in [10, 11, 12, 19, 21, 22] {
        let named = |_, mark: Mark| if mark.kind == kind { 1 } else { mark.companion };
        assert!(caught_judging(cases, named) > 10, "kind {kind}");
    }
}

/// The row above in place of the copied row or the parent. Where a parent is no
/// SUMMARY, its first child stands right below it, but for Levels under 1.
#[test]
fn the_row_above_is_no_companion() {
    let cases = small_cases();
    for (number, least) in (20..=35).map(|key| (key, 50)).chain([(79, 1_000), (80, 10)]) {
        let above = |at: usize, mark: Mark| match (at == number, mark.kind) {
            (true, 1) => mark.place - 1,
            _ => mark.companion,
        };
        let wrong = caught_judging(cases, above);
        assert!(wrong > least, "mark {number}: {wrong}");
    }
}

#[test]
fn lazy_builds_are_caught() {
    let cases = small_cases();
    assert_eq!(caught(cases, |_, right| right.clone()), 0);
    assert!(caught(cases, refused_always) > 10_000);
    assert!(caught(cases, written_nothing) > 1_000);
    assert!(caught(cases, judged_again) > 1_000);
    let one_board = judge(&second::compare::gate::sample::accepted().bundle()).board;
    assert!(caught(cases, |_, right| with_board(right, one_board)) > 10_000);
    let mut changes = 0;
    let only_the_first = |case: &GateCase, right: &Answer| match case.change() {
        Some(change) if changes > 0 => with_board(right, change.board),
        Some(_) => {
            changes += 1;
            right.clone()
        }
        None => right.clone(),
    };
    assert!(caught(cases, only_the_first) > 1_000);
}
