//! Compares a program that judges and changes whole sets with this one. Its
//! options are those of `second::compare::command`.

use std::process::ExitCode;

use second::compare::command::run;
use second::compare::gate::cases::all_cases;

fn main() -> ExitCode {
    run("compare_gate", all_cases)
}
