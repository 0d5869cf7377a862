//! The command line that every comparison has.
//!
//! ```text
//! PROGRAM [--seed N] [--only N] [--time SECONDS] CMD ARG...
//! PROGRAM [--seed N] [--only N] --self
//! PROGRAM --serve
//! ```
//!
//! `--only N` asks just the case of that number, `--self` asks this program
//! itself, and `--serve` answers the cases on standard input, as a program
//! under test does. The last line is `N passed, M failed`.

use std::io::{self, BufReader, BufWriter};
use std::process::{Command, ExitCode};
use std::time::Duration;

use super::run::{compare_with_program, compare_with_self, serve, Question, Run, Tally};

const DEFAULT_SEED: u64 = 20_200_312;
const DEFAULT_SECONDS: u64 = 600;
const WRONG_USE: u8 = 2;

struct Options {
    seed: u64,
    only: Option<usize>,
    time: Duration,
    mode: Mode,
}

enum Mode {
    Compare(Vec<String>),
    Itself,
    Serve,
}

/// Runs the comparison that the arguments of this program ask for, over the
/// cases that `all_cases` makes of a seed.
pub fn run<Q: Question>(name: &str, all_cases: fn(u64) -> Vec<Q>) -> ExitCode {
    run_with(name, std::env::args().skip(1), all_cases)
}

/// The same with these arguments.
pub fn run_with<Q: Question>(
    name: &str,
    arguments: impl Iterator<Item = String>,
    all_cases: fn(u64) -> Vec<Q>,
) -> ExitCode {
    let asked = parse(arguments);
    let status = asked.and_then(|options| match &options.mode {
        Mode::Serve => Ok(serve_standard_input::<Q>()),
        Mode::Itself => compare(&options, &all_cases(options.seed), compare_with_self),
        Mode::Compare(command) => compare(&options, &all_cases(options.seed), |run| {
            let mut program = Command::new(&command[0]);
            program.args(&command[1..]);
            compare_with_program(&mut program, run, options.time)
        }),
    });
    status.unwrap_or_else(|message| {
        eprintln!("{name}: {message}");
        ExitCode::from(WRONG_USE)
    })
}

/// Options come first; what follows is the command under test.
fn parse(mut words: impl Iterator<Item = String>) -> Result<Options, String> {
    let time = Duration::from_secs(DEFAULT_SECONDS);
    let mut options =
        Options { seed: DEFAULT_SEED, only: None, time, mode: Mode::Compare(Vec::new()) };
    while let Some(word) = words.next() {
        match word.as_str() {
            "--seed" => options.seed = number(words.next(), "--seed")?,
            "--only" => options.only = Some(number(words.next(), "--only")? as usize),
            "--time" => options.time = Duration::from_secs(number(words.next(), "--time")?),
            "--self" => options.mode = Mode::Itself,
            "--serve" => options.mode = Mode::Serve,
            option if option.starts_with("--") => return Err(format!("what is {option}?")),
            _ => {
                options.mode = Mode::Compare(std::iter::once(word).chain(words).collect());
                return Ok(options);
            }
        }
    }
    match options.mode {
        Mode::Compare(_) => Err("give a command, or --self".to_string()),
        _ => Ok(options),
    }
}

fn number(word: Option<String>, option: &str) -> Result<u64, String> {
    let number = word.and_then(|word| word.parse().ok());
    number.ok_or(format!("{option} takes a number"))
}

fn serve_standard_input<Q: Question>() -> ExitCode {
    let mut input = BufReader::new(io::stdin().lock());
    let mut output = BufWriter::new(io::stdout().lock());
    match serve::<Q>(&mut input, &mut output) {
        Ok(()) => ExitCode::SUCCESS,
        Err(_) => ExitCode::FAILURE,
    }
}

fn compare<Q: Question>(
    options: &Options,
    cases: &[Q],
    ask: impl Fn(&Run<Q>) -> Tally,
) -> Result<ExitCode, String> {
    let run = Run { seed: options.seed, cases, only: options.only };
    if run.count() == 0 {
        return Err(format!("there are only {} cases", cases.len()));
    }
    Ok(report(&ask(&run)))
}

fn report(tally: &Tally) -> ExitCode {
    for message in &tally.messages {
        println!("{message}");
    }
    println!("{}", tally.last_line());
    if tally.failed > 0 {
        return ExitCode::FAILURE;
    }
    ExitCode::SUCCESS
}
