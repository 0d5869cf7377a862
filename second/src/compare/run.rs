//! Feeds cases to a program, or to this one, and compares every answer.

use std::collections::BTreeSet;
use std::fmt::Display;
use std::io::{self, BufReader, BufWriter, Read, Write};
use std::process::{Child, ChildStdin, Command, ExitStatus, Stdio};
use std::sync::mpsc::{channel, Receiver, RecvTimeoutError};
use std::sync::{Mutex, MutexGuard};
use std::thread;
use std::time::Duration;

const MOST_SHOWN: usize = 20;
const MOST_LEFT: u64 = 1_048_576;
const POLL: Duration = Duration::from_millis(5);

/// A case of some layer: how it and its answer are sent, and what this program
/// answers to it.
pub trait Question: Sized + Sync {
    type Answer: PartialEq;

    /// Something that a case and its answer can show; `Infallible` where no
    /// sight is wanted.
    type Sight: Ord + Display;

    fn write(&self, out: &mut impl Write) -> io::Result<()>;

    /// The next case, or nothing at the end of the input.
    fn read(input: &mut impl Read) -> io::Result<Option<Self>>;

    fn answer(&self) -> Self::Answer;

    fn write_answer(answer: &Self::Answer, out: &mut impl Write) -> io::Result<()>;

    /// The next answer, or nothing if no whole answer is left.
    fn read_answer(&self, input: &mut impl Read) -> Option<Self::Answer>;

    /// Whether an answer is right: the one that this program gives, or, where
    /// several are right, any of these.
    fn agrees(&self, expected: &Self::Answer, answered: &Self::Answer) -> bool {
        answered == expected
    }

    /// The case and what is wrong with its answer, in lines.
    fn describe(&self, expected: &Self::Answer, answered: &Self::Answer) -> String;

    /// What all cases together have to show: a run that misses a sight would
    /// pass without having asked what it is there to ask.
    fn wanted() -> Vec<Self::Sight> {
        Vec::new()
    }

    /// What no case may show.
    fn ruled_out() -> Vec<Self::Sight> {
        Vec::new()
    }

    /// What this case and its right answer show.
    fn sights(&self, _expected: &Self::Answer) -> Vec<Self::Sight> {
        Vec::new()
    }
}

/// The cases of a seed, and which of them are asked: all, or one.
pub struct Run<'a, Q> {
    pub seed: u64,
    pub cases: &'a [Q],
    pub only: Option<usize>,
}

impl<'a, Q> Run<'a, Q> {
    /// The cases that are asked, each with its number among all.
    fn asked(&self) -> impl Iterator<Item = (usize, &'a Q)> {
        let only = self.only;
        let numbered = self.cases.iter().enumerate();
        numbered.filter(move |(number, _)| only.map_or(true, |only| only == *number))
    }

    pub fn count(&self) -> usize {
        self.asked().count()
    }
}

/// How many answers were right, and what to say of those that were not.
#[derive(Debug, Default)]
pub struct Tally {
    pub passed: usize,
    pub failed: usize,
    pub messages: Vec<String>,
}

impl Tally {
    fn fail(&mut self, count: usize, message: String) {
        self.failed += count;
        if self.messages.len() < MOST_SHOWN {
            self.messages.push(message);
        }
    }

    pub fn last_line(&self) -> String {
        format!("{} passed, {} failed", self.passed, self.failed)
    }
}

/// Compares this program with itself, by way of the bytes that would be sent.
pub fn compare_with_self<Q: Question>(run: &Run<Q>) -> Tally {
    compare_answers(run, answer_by_bytes)
}

fn answer_by_bytes<Q: Question>(case: &Q) -> Option<Q::Answer> {
    let mut bytes = Vec::new();
    case.write(&mut bytes).ok()?;
    let mut answered = Vec::new();
    serve::<Q>(&mut &bytes[..], &mut answered).ok()?;
    case.read_answer(&mut &answered[..])
}

/// Answers every case of the input: what a program under test does.
pub fn serve<Q: Question>(input: &mut impl Read, output: &mut impl Write) -> io::Result<()> {
    while let Some(case) = Q::read(input)? {
        Q::write_answer(&case.answer(), output)?;
    }
    output.flush()
}

/// Compares a program with this one. A program that still runs when the time
/// is over is ended, and so has answered too little.
pub fn compare_with_program<Q: Question>(
    command: &mut Command,
    run: &Run<Q>,
    time: Duration,
) -> Tally {
    match command.stdin(Stdio::piped()).stdout(Stdio::piped()).spawn() {
        Ok(child) => compare_with_child(child, run, time),
        Err(error) => {
            let mut tally = Tally::default();
            tally.fail(run.count(), format!("the program can't be started: {error}"));
            tally
        }
    }
}

fn compare_with_child<Q: Question>(mut child: Child, run: &Run<Q>, time: Duration) -> Tally {
    let input = child.stdin.take().expect("standard input is piped");
    let mut output = BufReader::new(child.stdout.take().expect("standard output is piped"));
    let child = Mutex::new(child);
    let (done, is_done) = channel::<()>();
    thread::scope(|scope| {
        // Written beside the reading, so that neither pipe can fill up.
        scope.spawn(|| send_all(input, run));
        scope.spawn(|| end_when_late(&child, is_done, time));
        let mut tally = compare_answers(run, |case| case.read_answer(&mut output));
        check_nothing_is_left(output, &mut tally);
        check_status(wait_for(&child), &mut tally);
        drop(done);
        tally
    })
}

/// A program that stops reading is found out by its missing answers, so an
/// error here only ends the writing. Dropping the pipe is the end of input.
fn send_all<Q: Question>(input: ChildStdin, run: &Run<Q>) {
    let mut input = BufWriter::with_capacity(1 << 16, input);
    for (_, case) in run.asked() {
        if case.write(&mut input).is_err() {
            return;
        }
    }
    // The error, if any, is found out in the same way.
    let _ = input.flush();
}

fn end_when_late(child: &Mutex<Child>, is_done: Receiver<()>, time: Duration) {
    if is_done.recv_timeout(time) == Err(RecvTimeoutError::Timeout) {
        // It may have ended by itself just now.
        let _ = lock(child).kill();
    }
}

fn lock(child: &Mutex<Child>) -> MutexGuard<'_, Child> {
    child.lock().expect("no thread fails while it holds the program")
}

/// Polls, so that a late program can be ended in between.
fn wait_for(child: &Mutex<Child>) -> io::Result<ExitStatus> {
    loop {
        if let Some(status) = lock(child).try_wait()? {
            return Ok(status);
        }
        thread::sleep(POLL);
    }
}

/// Takes the pipe, so that a program that never stops writing meets its end.
fn check_nothing_is_left(output: impl Read, tally: &mut Tally) {
    match io::copy(&mut output.take(MOST_LEFT), &mut io::sink()) {
        Ok(0) => {}
        Ok(count) => tally.fail(1, format!("{count} bytes or more follow the last answer")),
        Err(error) => tally.fail(1, format!("the output can't be read: {error}")),
    }
}

fn check_status(status: io::Result<ExitStatus>, tally: &mut Tally) {
    match status {
        Ok(status) if status.success() => {}
        Ok(status) => tally.fail(1, format!("the program ended with {status}")),
        Err(error) => tally.fail(1, format!("the program's end can't be known: {error}")),
    }
}

/// Compares each answer with this program's own. Once an answer is missing,
/// it and all later ones are failures.
fn compare_answers<Q: Question>(
    run: &Run<Q>,
    mut next: impl FnMut(&Q) -> Option<Q::Answer>,
) -> Tally {
    let mut tally = Tally::default();
    let mut seen = BTreeSet::new();
    for (index, (number, case)) in run.asked().enumerate() {
        let expected = case.answer();
        seen.extend(case.sights(&expected));
        match next(case) {
            Some(answered) if case.agrees(&expected, &answered) => tally.passed += 1,
            Some(answered) => {
                let shown = case.describe(&expected, &answered);
                tally.fail(1, format!("{}: {shown}", how_to_ask_again(run.seed, number)));
            }
            None => {
                let asked = run.count();
                tally.fail(asked - index, format!("only {index} of {asked} answers came"));
                return tally;
            }
        }
    }
    if run.only.is_none() {
        check_sights::<Q>(&seen, &mut tally);
    }
    tally
}

/// All it takes to run the case again by itself.
fn how_to_ask_again(seed: u64, number: usize) -> String {
    format!("case {number} (--seed {seed} --only {number})")
}

/// Each sight that is wanted or ruled out counts as a case of its own.
fn check_sights<Q: Question>(seen: &BTreeSet<Q::Sight>, tally: &mut Tally) {
    for wanted in Q::wanted() {
        if seen.contains(&wanted) {
            tally.passed += 1;
        } else {
            tally.fail(1, format!("no case shows this: {wanted}"));
        }
    }
    for ruled_out in Q::ruled_out() {
        if seen.contains(&ruled_out) {
            tally.fail(1, format!("a case shows this, which can't be: {ruled_out}"));
        } else {
            tally.passed += 1;
        }
    }
}

/// The bytes as hex; of a slice of more than `most` only both ends.
pub fn hex(bytes: &[u8], most: usize) -> String {
    let digits =
        |part: &[u8]| -> String { part.iter().map(|byte| format!("{byte:02x}")).collect() };
    if bytes.len() <= most {
        return format!("({}) {}", bytes.len(), digits(bytes));
    }
    let half = most / 2;
    let (front, back) = (&bytes[..half], &bytes[bytes.len() - half..]);
    format!("({}) {} .. {}", bytes.len(), digits(front), digits(back))
}

#[cfg(test)]
mod tests {
    use super::*;
    use crate::compare::case::Case;
    use crate::compare::tables::case::{TableAnswer, TableCase};

    fn cases() -> Vec<Case> {
        let case = |at| Case { op: 1, at, other: 0, a: b" x ".to_vec(), b: Vec::new() };
        (0..4).map(case).collect()
    }

    fn all<Q>(cases: &[Q]) -> Run<'_, Q> {
        Run { seed: 5, cases, only: None }
    }

    #[test]
    fn right_answers_pass() {
        let cases = cases();
        let tally = compare_with_self(&all(&cases));
        assert_eq!(tally.last_line(), "4 passed, 0 failed");
        let one = Run { seed: 5, cases: &cases, only: Some(3) };
        assert_eq!(compare_with_self(&one).last_line(), "1 passed, 0 failed");
        let none = Run { seed: 5, cases: &cases, only: Some(4) };
        assert_eq!(none.count(), 0);
    }

    #[test]
    fn a_wrong_answer_is_shown() {
        let cases = cases();
        let tally = compare_answers(&all(&cases), |case| {
            Some(if case.at == 2 { [9; 4] } else { case.answer() })
        });
        assert_eq!(tally.last_line(), "3 passed, 1 failed");
        let shown = "case 2 (--seed 5 --only 2): op 1 at 2 other 0\n  A (3) 207820\n";
        assert!(tally.messages[0].starts_with(shown));
    }

    #[test]
    fn each_number_of_a_reading_is_compared() {
        let contents = br#"[{"CustomFieldID":"F","Value":"V"}]"#.to_vec();
        let cases = [TableCase { number: 5, contents: Some(contents) }];
        let one = Run { seed: 5, cases: &cases, only: Some(0) };
        let right = cases[0].answer();
        let spoil: [fn(&mut TableAnswer); 7] = [
            |answer| answer.kind = 11,
            |answer| answer.place = 1,
            |answer| answer.companion = 1,
            |answer| answer.records = 2,
            |answer| answer.count = 5,
            |answer| answer.cells[0] += 1,
            |answer| answer.cells[3] = 0,
        ];
        for spoil in spoil {
            let mut wrong = right.clone();
            spoil(&mut wrong);
            let tally = compare_answers(&one, |_| Some(wrong.clone()));
            assert_eq!(tally.last_line(), "0 passed, 1 failed");
        }
        let tally = compare_answers(&one, |_| Some(right.clone()));
        assert_eq!(tally.last_line(), "1 passed, 0 failed");
    }

    #[test]
    fn missing_answers_fail() {
        let cases = cases();
        let first = |case: &Case| (case.at == 0).then(|| case.answer());
        let tally = compare_answers(&all(&cases), first);
        assert_eq!(tally.last_line(), "1 passed, 3 failed");
    }

    /// A case that shows its own number; 0, 1 and 2 are wanted, 8 and 9 ruled
    /// out.
    struct Shown(u32);

    impl Question for Shown {
        type Answer = ();
        type Sight = u32;

        fn write(&self, _: &mut impl Write) -> io::Result<()> {
            Ok(())
        }

        fn read(_: &mut impl Read) -> io::Result<Option<Shown>> {
            Ok(None)
        }

        fn answer(&self) {}

        fn write_answer(_: &(), _: &mut impl Write) -> io::Result<()> {
            Ok(())
        }

        fn read_answer(&self, _: &mut impl Read) -> Option<()> {
            Some(())
        }

        fn describe(&self, _: &(), _: &()) -> String {
            String::new()
        }

        fn wanted() -> Vec<u32> {
            vec![0, 1, 2]
        }

        fn ruled_out() -> Vec<u32> {
            vec![8, 9]
        }

        fn sights(&self, _: &()) -> Vec<u32> {
            vec![self.0]
        }
    }

    #[test]
    fn a_missed_sight_fails() {
        let cases = [Shown(2), Shown(0), Shown(7)];
        let tally = compare_with_self(&all(&cases));
        assert_eq!(tally.last_line(), "7 passed, 1 failed");
        assert_eq!(tally.messages, ["no case shows this: 1"]);
        let one = Run { seed: 5, cases: &cases, only: Some(0) };
        assert_eq!(compare_with_self(&one).last_line(), "1 passed, 0 failed");
    }

    #[test]
    fn a_sight_that_is_ruled_out_fails() {
        let cases = [Shown(1), Shown(9), Shown(2), Shown(0)];
        let tally = compare_with_self(&all(&cases));
        assert_eq!(tally.last_line(), "8 passed, 1 failed");
        assert_eq!(tally.messages, ["a case shows this, which can't be: 9"]);
    }

    #[test]
    fn long_slices_are_shortened() {
        assert_eq!(hex(&[0xAB; 4], 4), "(4) abababab");
        assert_eq!(hex(&[0xAB, 0, 0, 0, 0xCD], 4), "(5) ab00 .. 00cd");
    }
}
