//! The comparison itself: right programs pass, others are caught.

use second::compare::case::{Case, LONGEST, OPS, TEXT};
use second::compare::cases::all_cases;
use second::json::decoded_codes;
use std::collections::BTreeSet;
use std::process::{Command, Output};

const MOST_BYTES: usize = 60_000_000;

fn compare(arguments: &[&str]) -> Output {
    let program = env!("CARGO_BIN_EXE_compare_json");
    Command::new(program).args(arguments).output().unwrap()
}

fn last_line(output: &Output) -> String {
    let text = String::from_utf8(output.stdout.clone()).unwrap();
    text.lines().last().unwrap_or("").to_string()
}

#[test]
fn the_cases_are_many_and_small_enough() {
    let cases = all_cases(1);
    assert!(cases.len() >= 40_000);
    let bytes: usize = cases.iter().map(|case| 20 + case.a.len() + case.b.len()).sum();
    assert!(bytes < MOST_BYTES);
    for op in 1..=OPS {
        assert!(cases.iter().filter(|case| case.op == op).count() > 500, "op {op}");
    }
    assert!(cases.iter().all(is_sound));
}

/// Slices and places are within what a program under test has to take.
fn is_sound(case: &Case) -> bool {
    let short = case.a.len() <= LONGEST && case.b.len() <= LONGEST;
    let fixed = [7, 8].contains(&case.op);
    short
        && case.at as usize <= case.a.len() + 2
        && (case.op == 3 || case.other as usize <= case.b.len() + 2)
        && (case.op != 3 || case.other <= 2)
        && (!fixed || case.b.is_ascii())
}

/// A program that takes one code more for whitespace, or one fewer, is caught
/// by a case in which nothing else decides.
#[test]
fn whether_a_code_is_white_decides_a_case() {
    let code_inside = |case: &Case| match decoded_codes(&case.a, case.at as usize)[..] {
        [0x61, code, 0x62] if case.op == TEXT && case.other == 1 => Some(code),
        _ => None,
    };
    let asked: BTreeSet<u32> = all_cases(4).iter().filter_map(code_inside).collect();
    assert!((0..0x3100).all(|code| asked.contains(&code)));
}

#[test]
fn one_seed_gives_the_same_cases() {
    assert!(all_cases(5) == all_cases(5));
    assert!(all_cases(5) != all_cases(6));
}

#[test]
fn it_passes_beside_itself() {
    let program = env!("CARGO_BIN_EXE_compare_json");
    for arguments in [&["--self"][..], &["--seed", "3", "--self"], &[program, "--serve"]] {
        let output = compare(arguments);
        assert!(output.status.success());
        assert!(last_line(&output).ends_with(" passed, 0 failed"));
    }
    let output = compare(&["--only", "7", program, "--serve"]);
    assert_eq!(last_line(&output), "1 passed, 0 failed");
}

#[test]
fn programs_that_answer_too_little_fail() {
    for arguments in [&["true"][..], &["head", "-c", "100"], &["cat", "/dev/null"]] {
        let output = compare(arguments);
        assert_eq!(output.status.code(), Some(1));
        assert!(last_line(&output).starts_with("0 passed, ") || arguments[0] == "head");
        assert!(!last_line(&output).ends_with(" 0 failed"));
    }
}

#[test]
fn programs_that_answer_too_much_or_wrong_or_hang_fail() {
    let serve = format!("'{}' --serve", env!("CARGO_BIN_EXE_compare_json"));
    let scripts = [
        format!("{serve}; echo more"),
        format!("{serve}; exit 3"),
        format!("{serve} | tr '\\001' '\\002'"),
    ];
    for script in &scripts {
        let output = compare(&["sh", "-c", script]);
        assert_eq!(output.status.code(), Some(1), "{script}");
        assert!(!last_line(&output).ends_with(" 0 failed"));
    }
    let output = compare(&["--time", "1", "sleep", "100"]);
    assert_eq!(output.status.code(), Some(1));
    let output = compare(&["no-such-program-anywhere"]);
    assert_eq!(output.status.code(), Some(1));
}

#[test]
fn wrong_use_is_told() {
    for arguments in [
        &[][..],
        &["--seed"],
        &["--seed", "x", "--self"],
        &["--what"],
        &["--only", "99999999", "--self"],
    ] {
        assert_eq!(compare(arguments).status.code(), Some(2));
    }
}
