//! Compares a program that answers for the gate with the baseline profile and
//! for the contract side's gate with this one. Its options are those of
//! `second::compare::command`.

use std::process::ExitCode;

use second::compare::command::run;
use second::compare::gates::cases::all_cases;

fn main() -> ExitCode {
    run("compare_gates", all_cases)
}
