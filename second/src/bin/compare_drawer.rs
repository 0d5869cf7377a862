//! Compares a program that keeps sets in drawers with this one. Its options are
//! those of `second::compare::command`.

use std::process::ExitCode;

use second::compare::command::run;
use second::compare::drawer::cases::all_cases;

fn main() -> ExitCode {
    run("compare_drawer", all_cases)
}
