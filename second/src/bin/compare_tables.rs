//! Compares a program that reads one file of a set, alone, with this one. Its
//! options are those of `second::compare::command`.

use std::process::ExitCode;

use second::compare::command::run;
use second::compare::tables::cases::all_cases;

fn main() -> ExitCode {
    run("compare_tables", all_cases)
}
