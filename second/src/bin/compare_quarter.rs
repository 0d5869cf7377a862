//! Compares a program that adds up a quarter with this one. Its options are
//! those of `second::compare::command`.

use std::process::ExitCode;

use second::compare::command::run;
use second::compare::quarter::cases::all_cases;

fn main() -> ExitCode {
    run("compare_quarter", all_cases)
}
