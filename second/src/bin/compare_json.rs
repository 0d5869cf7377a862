//! Compares a program that answers cases of the JSON layer with this one. Its
//! options are those of `second::compare::command`.

use std::process::ExitCode;

use second::compare::cases::all_cases;
use second::compare::command::run;

fn main() -> ExitCode {
    run("compare_json", all_cases)
}
