//! Judges one bundle from standard input and prints its marks; with
//! `--gate baseline` or `--gate contract` those of another gate.

use std::io::{self, Read, Write};
use std::process::ExitCode;

use second::baseline::BASELINE;
use second::contract::CONTRACT;
use second::gates;
use second::print::{report, LARGEST_INPUT};

fn main() -> ExitCode {
    let words: Vec<String> = std::env::args().skip(1).collect();
    let words: Vec<&str> = words.iter().map(String::as_str).collect();
    let text: fn(&[u8]) -> String = match words[..] {
        [] => report,
        ["--gate", "baseline"] => |input| gates::print::report(&BASELINE, input),
        ["--gate", "contract"] => |input| gates::print::report(&CONTRACT, input),
        _ => {
            eprintln!("usage: second_judge [--gate baseline|contract] < BUNDLE");
            return ExitCode::from(2);
        }
    };
    match answer(text) {
        Ok(()) => ExitCode::SUCCESS,
        Err(error) => {
            eprintln!("second_judge: {error}");
            ExitCode::FAILURE
        }
    }
}

fn answer(text: fn(&[u8]) -> String) -> io::Result<()> {
    // One byte more than the longest bundle is enough to know it is too long.
    let mut input = Vec::new();
    io::stdin().take(LARGEST_INPUT as u64 + 1).read_to_end(&mut input)?;
    io::stdout().write_all(text(&input).as_bytes())
}
