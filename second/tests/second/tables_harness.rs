//! The comparison of readings: right programs pass, others are caught.

use std::collections::BTreeSet;
use std::process::{Command, Output};

use second::compare::run::Question;
use second::compare::tables::case::TableCase;
use second::compare::tables::cases::all_cases;
use second::compare::tables::possible_kinds;
use second::compare::wire::LONGEST;

const MOST_BYTES: usize = 70_000_000;
const LARGE: usize = 20_000;
const MOST_LARGE: usize = 120;

fn compare(arguments: &[&str]) -> Output {
    let program = env!("CARGO_BIN_EXE_compare_tables");
    Command::new(program).args(arguments).output().unwrap()
}

fn text(output: &Output) -> String {
    String::from_utf8(output.stdout.clone()).unwrap()
}

fn last_line(output: &Output) -> String {
    text(output).lines().last().unwrap_or("").to_string()
}

fn length(case: &TableCase) -> usize {
    case.contents.as_deref().map_or(0, <[u8]>::len)
}

#[test]
fn the_cases_are_many_and_small_enough() {
    let cases = all_cases(1);
    assert!(cases.len() >= 30_000);
    let sent = cases.iter().map(|case| 12 + length(case)).sum::<usize>();
    assert!(sent < MOST_BYTES, "{sent}");
    assert!(cases.iter().filter(|case| length(case) > LARGE).count() < MOST_LARGE);
    assert!(cases.iter().all(|case| case.number < 20 && length(case) <= LONGEST));
    for number in 0..20 {
        assert!(cases.iter().any(|case| case.number == number && case.contents.is_none()));
    }
}

#[test]
fn one_seed_gives_the_same_cases() {
    assert!(all_cases(5) == all_cases(5));
    assert!(all_cases(5) != all_cases(6));
}

#[test]
fn every_kind_that_can_be_is_met_in_every_file() {
    let mut met = vec![BTreeSet::new(); 20];
    for case in all_cases(2) {
        met[case.number as usize].insert(case.answer().kind as u32);
    }
    for (number, kinds) in met.iter().enumerate() {
        assert_eq!(*kinds, possible_kinds(number), "file {number}");
    }
}

#[test]
fn it_passes_beside_itself() {
    let program = env!("CARGO_BIN_EXE_compare_tables");
    for arguments in [&["--self"][..], &["--seed", "3", "--self"], &[program, "--serve"]] {
        let output = compare(arguments);
        assert!(output.status.success());
        assert!(last_line(&output).ends_with(" passed, 0 failed"));
    }
    let output = compare(&["--only", "7", program, "--serve"]);
    assert_eq!(last_line(&output), "1 passed, 0 failed");
}

#[test]
fn programs_that_answer_too_little_fail() {
    for arguments in [&["true"][..], &["head", "-c", "100"], &["cat", "/dev/null"]] {
        let output = compare(arguments);
        assert_eq!(output.status.code(), Some(1));
        assert!(!last_line(&output).ends_with(" 0 failed"));
    }
}

#[test]
fn programs_that_answer_wrong_fail() {
    let serve = format!("'{}' --serve", env!("CARGO_BIN_EXE_compare_tables"));
    for script in [&format!("{serve} | tr '\\013' '\\014'"), "cat"] {
        let output = compare(&["sh", "-c", script]);
        assert_eq!(output.status.code(), Some(1), "{script}");
        assert!(!last_line(&output).ends_with(" 0 failed"));
    }
}

#[test]
fn programs_that_answer_too_much_or_hang_or_fail_are_caught() {
    let serve = format!("'{}' --serve", env!("CARGO_BIN_EXE_compare_tables"));
    for script in [&format!("{serve}; echo more"), &format!("{serve}; exit 3"), "yes"] {
        let output = compare(&["--only", "7", "sh", "-c", script]);
        assert_eq!(output.status.code(), Some(1), "{script}");
        assert!(!last_line(&output).ends_with(" 0 failed"));
    }
    let output = compare(&["--time", "1", "sleep", "100"]);
    assert_eq!(output.status.code(), Some(1));
    let output = compare(&["no-such-program-anywhere"]);
    assert_eq!(output.status.code(), Some(1));
}

#[test]
fn one_wrong_byte_of_the_last_place_is_caught_and_shown() {
    let has_cells = |case: &TableCase| case.answer().records == 2;
    let number = all_cases(9).iter().position(has_cells).unwrap().to_string();
    let serve = format!("'{}' --serve", env!("CARGO_BIN_EXE_compare_tables"));
    let script = format!("{serve} | head -c -1; printf '\\001'");
    let output = compare(&["--seed", "9", "--only", &number, "sh", "-c", &script]);
    assert_eq!(output.status.code(), Some(1));
    assert_eq!(last_line(&output), "0 passed, 1 failed");
    let shown = format!("case {number} (--seed 9 --only {number}): file ");
    assert!(text(&output).starts_with(&shown));
    assert!(text(&output).contains("\n  record 2 "));
}

#[test]
fn unsound_input_is_not_served() {
    let program = env!("CARGO_BIN_EXE_compare_tables");
    for (input, sound) in
        [("", true), (r"\006\0\0\0\0\0\0\0\0\0\0\0", true), (r"\006\0\0", false), (r"\024", false)]
    {
        let script = format!("printf '{input}' | '{program}' --serve");
        let output = Command::new("sh").args(["-c", &script]).output().unwrap();
        assert_eq!(output.status.success(), sound, "{input}");
    }
}

#[test]
fn wrong_use_is_told() {
    for arguments in [
        &[][..],
        &["--seed"],
        &["--seed", "x", "--self"],
        &["--what"],
        &["--only", "99999999", "--self"],
    ] {
        assert_eq!(compare(arguments).status.code(), Some(2));
    }
}
