//! Compares the text of a program that tells the reasons of a bundle's marks with
//! this one's. Its options are those of `second::compare::command`; with `--gates`
//! in front of them the cases are of all three gates, each with the gate's number.

use std::process::ExitCode;

use second::compare::command::{run, run_with};
use second::compare::sentences::{cases, gates};

fn main() -> ExitCode {
    let mut words = std::env::args().skip(1).peekable();
    if words.peek().map(String::as_str) == Some("--gates") {
        words.next();
        return run_with("compare_reasons --gates", words, gates::cases::all_cases);
    }
    run("compare_reasons", cases::all_cases)
}
