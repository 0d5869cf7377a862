//! Compares a program that answers two desks with shared calendars with this one. Its options are
//! those of `second::compare::command`.

use std::process::ExitCode;

use second::compare::command::run;
use second::compare::desks::cases::all_cases;

fn main() -> ExitCode {
    run("compare_desks", all_cases)
}
