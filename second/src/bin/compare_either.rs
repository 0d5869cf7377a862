//! Compares a program with this one on pairs of changes in both orders and on
//! changes undone at once. The first argument says in what: `bundle`, `drawer`
//! or `desks`; the program answers the cases of `compare_gate`, of
//! `compare_drawer` or of `compare_desks`. The other options are those of
//! `second::compare::command`.

use std::process::ExitCode;

use second::compare::command::run_with;
use second::compare::either::{bundles, desks, drawers};

const WRONG_USE: u8 = 2;

fn main() -> ExitCode {
    let mut words = std::env::args().skip(1);
    match words.next().as_deref() {
        Some("bundle") => run_with("compare_either bundle", words, bundles::all_cases),
        Some("drawer") => run_with("compare_either drawer", words, drawers::all_cases),
        Some("desks") => run_with("compare_either desks", words, desks::all_cases),
        _ => {
            eprintln!("compare_either: say bundle, drawer or desks first");
            ExitCode::from(WRONG_USE)
        }
    }
}
