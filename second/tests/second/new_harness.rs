//! The comparisons of orders 10 to 14: a run passes beside itself with all that
//! it has to show, and programs that answer otherwise are caught.

use std::process::{Command, Output};

/// Each comparison with the argument that has to come first, if any.
fn programs() -> Vec<(&'static str, &'static [&'static str])> {
    let either = env!("CARGO_BIN_EXE_compare_either");
    vec![
        (env!("CARGO_BIN_EXE_compare_drawer"), &[]),
        (env!("CARGO_BIN_EXE_compare_desks"), &[]),
        (env!("CARGO_BIN_EXE_compare_quarter"), &[]),
        (env!("CARGO_BIN_EXE_compare_loops"), &[]),
        (either, &["bundle"]),
        (either, &["drawer"]),
        (either, &["desks"]),
    ]
}

fn compare(program: &str, first: &[&str], arguments: &[&str]) -> Output {
    Command::new(program).args(first).args(arguments).output().unwrap()
}

fn last_line(output: &Output) -> String {
    let text = String::from_utf8(output.stdout.clone()).unwrap();
    text.lines().last().unwrap_or("").to_string()
}

fn serve(program: &str, first: &[&str]) -> String {
    format!("'{program}' {} --serve", first.join(" "))
}

#[test]
fn each_passes_beside_itself() {
    for (program, first) in programs() {
        let served = serve(program, first);
        let output = compare(program, first, &["sh", "-c", &served]);
        assert!(output.status.success(), "{program}: {}", last_line(&output));
        assert!(last_line(&output).ends_with(" passed, 0 failed"));
        let output = compare(program, first, &["--only", "7", "sh", "-c", &served]);
        assert_eq!(last_line(&output), "1 passed, 0 failed");
    }
}

#[test]
fn each_catches_programs_that_answer_otherwise() {
    for (program, first) in programs() {
        let served = serve(program, first);
        let scripts = [
            "cat".to_string(),
            format!("{served} | tr '\\0' '\\1'"),
            format!("{served} | head -c -1"),
        ];
        for script in scripts {
            let output = compare(program, first, &["--only", "7", "sh", "-c", &script]);
            assert_eq!(output.status.code(), Some(1), "{program}: {script}");
            assert!(!last_line(&output).ends_with(" 0 failed"));
        }
    }
}

#[test]
fn wrong_use_is_told() {
    for (program, first) in programs() {
        for arguments in [&[][..], &["--what"], &["--seed", "x", "--self"]] {
            assert_eq!(compare(program, first, arguments).status.code(), Some(2), "{program}");
        }
    }
}
