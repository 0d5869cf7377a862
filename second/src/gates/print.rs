//! The text of a gate's judging program, and of those that also tell the reasons.

use std::collections::BTreeMap;

use super::calls::judge;
use super::reason::reason;
use super::sentence::{kept_from_judgement, sentence};
use super::Gate;
use crate::board::Mark;
use crate::bundle::WRONG_SIZE;
use crate::print::LARGEST_INPUT;
use crate::reason::Reason;

/// The text of the program that judges a bundle from its standard input.
pub fn report(gate: &Gate, input: &[u8]) -> String {
    match input.len() > LARGEST_INPUT {
        true => refused_bundle(WRONG_SIZE),
        false => judged_text(gate, input, |faults| {
            faults.iter().map(|(number, mark)| numbers(*number, *mark)).collect()
        }),
    }
}

/// The text with the reasons, of a bundle from standard input.
pub fn reasons_of_input(gate: &Gate, input: &[u8]) -> String {
    match input.len() > LARGEST_INPUT {
        true => refused_bundle(WRONG_SIZE),
        false => reasons(gate, input, false),
    }
}

/// Each mark that doesn't hold with its sentence behind it. Grouped, the marks
/// that are not judged have one line for each file that keeps them from it,
/// behind the others.
pub fn reasons(gate: &Gate, bundle: &[u8], grouped: bool) -> String {
    judged_text(gate, bundle, |faults| {
        let mut lines = Vec::new();
        let mut kept: BTreeMap<usize, usize> = BTreeMap::new();
        for (number, mark) in faults {
            match reason(gate, bundle, *number) {
                Reason::NotJudged { file } if grouped => *kept.entry(file).or_default() += 1,
                told => {
                    let words = sentence(gate, bundle, *number, &told);
                    lines.push(format!("{} {words}", numbers(*number, *mark)));
                }
            }
        }
        lines.extend(kept.into_iter().map(|(file, marks)| kept_from_judgement(gate, file, marks)));
        lines
    })
}

/// What every text has, around the lines of the marks that don't hold.
fn judged_text(
    gate: &Gate,
    bundle: &[u8],
    lines: impl Fn(&[(usize, Mark)]) -> Vec<String>,
) -> String {
    let judged = judge(gate, bundle);
    if judged.refusal != 0 {
        return refused_bundle(judged.refusal);
    }
    let numbered = judged.marks.into_iter().enumerate();
    let faults: Vec<(usize, Mark)> = numbered.filter(|(_, mark)| mark.kind != 0).collect();
    let last = match faults.len() {
        0 => "accepted".to_string(),
        count => format!("refused {count}"),
    };
    let first = format!("marks {}", gate.marks);
    let all: Vec<String> = std::iter::once(first).chain(lines(&faults)).chain([last]).collect();
    all.join("\n") + "\n"
}

fn numbers(number: usize, mark: Mark) -> String {
    format!("{number} {} {} {}", mark.kind, mark.place, mark.companion)
}

fn refused_bundle(refusal: u32) -> String {
    format!("bundle {refusal}\n")
}
