//! Compares a program that answers for the calls with a lent list with this one.
//! Its options are those of `second::compare::command`.

use std::process::ExitCode;

use second::compare::command::run;
use second::compare::listed::cases::all_cases;

fn main() -> ExitCode {
    run("compare_listed", all_cases)
}
