//! Judges one bundle from standard input and prints its marks, each with its
//! reason, as the program `reasons` does; with `--grouped` as `reasons_folder`
//! does, which takes larger sets. With `--gate baseline` or `--gate contract` it
//! is the bundle of another gate.

use std::io::{self, Read, Write};
use std::process::ExitCode;

use second::baseline::BASELINE;
use second::bundle::LARGEST_BUNDLE;
use second::contract::CONTRACT;
use second::gates::{self, Gate};
use second::print::{reasons, reasons_of_input};

fn main() -> ExitCode {
    let mut grouped = false;
    let mut gate: Option<&'static Gate> = None;
    let mut words = std::env::args().skip(1);
    while let Some(word) = words.next() {
        match word.as_str() {
            "--grouped" => grouped = true,
            "--gate" => match words.next().as_deref() {
                Some("baseline") => gate = Some(&BASELINE),
                Some("contract") => gate = Some(&CONTRACT),
                _ => return wrong_use(),
            },
            _ => return wrong_use(),
        }
    }
    match answer(gate, grouped) {
        Ok(()) => ExitCode::SUCCESS,
        Err(error) => {
            eprintln!("second_reasons: {error}");
            ExitCode::FAILURE
        }
    }
}

fn wrong_use() -> ExitCode {
    eprintln!("usage: second_reasons [--gate baseline|contract] [--grouped] < BUNDLE");
    ExitCode::from(2)
}

fn answer(gate: Option<&Gate>, grouped: bool) -> io::Result<()> {
    // One byte more than the longest bundle is enough to know it is too long.
    let mut input = Vec::new();
    io::stdin().take(LARGEST_BUNDLE as u64 + 1).read_to_end(&mut input)?;
    let text = match (gate, grouped) {
        (None, true) => reasons(&input, true),
        (None, false) => reasons_of_input(&input),
        (Some(gate), true) => gates::print::reasons(gate, &input, true),
        (Some(gate), false) => gates::print::reasons_of_input(gate, &input),
    };
    io::stdout().write_all(text.as_bytes())
}
