//! Compares a program that shows loops of links with this one. Its options are
//! those of `second::compare::command`.

use std::process::ExitCode;

use second::compare::command::run;
use second::compare::loops::cases::all_cases;

fn main() -> ExitCode {
    run("compare_loops", all_cases)
}
