//! The text of the judging program, and of the two that also tell the reasons.

use std::collections::BTreeMap;

use crate::board::{Board, Mark};
use crate::bundle::WRONG_SIZE;
use crate::gate::judge;
use crate::reason::{reason, Reason};
use crate::sentence::{kept_from_judgement, sentence};

/// The longest bundle that a program takes from its standard input.
pub const LARGEST_INPUT: usize = 65_536;

/// The text of `judge`.
pub fn report(input: &[u8]) -> String {
    within_limit(input, |bundle| {
        judged_text(bundle, |board| {
            board.faults().map(|(number, mark)| numbers(number, mark)).collect()
        })
    })
}

/// The text of `reasons`.
pub fn reasons_of_input(input: &[u8]) -> String {
    within_limit(input, |bundle| reasons(bundle, false))
}

/// Each mark that doesn't hold with its sentence behind it. Grouped, as
/// `reasons_folder` has it, the marks that are not judged have one line for each
/// file that keeps them from it, behind the others.
pub fn reasons(bundle: &[u8], grouped: bool) -> String {
    judged_text(bundle, |board| {
        let mut lines = Vec::new();
        let mut kept: BTreeMap<usize, usize> = BTreeMap::new();
        for (number, mark) in board.faults() {
            match reason(bundle, number) {
                Reason::NotJudged { file } if grouped => *kept.entry(file).or_default() += 1,
                told => {
                    let words = sentence(bundle, number, &told);
                    lines.push(format!("{} {words}", numbers(number, mark)));
                }
            }
        }
        lines.extend(kept.into_iter().map(|(file, marks)| kept_from_judgement(file, marks)));
        lines
    })
}

fn within_limit(input: &[u8], text: impl Fn(&[u8]) -> String) -> String {
    if input.len() > LARGEST_INPUT {
        return refused_bundle(WRONG_SIZE);
    }
    text(input)
}

/// What every text has, around the lines of its marks.
fn judged_text(bundle: &[u8], lines: impl Fn(&Board) -> Vec<String>) -> String {
    let verdict = judge(bundle);
    if verdict.refusal != 0 {
        return refused_bundle(verdict.refusal);
    }
    let mut text = String::from("marks 81\n");
    for line in lines(&verdict.board) {
        text += &line;
        text.push('\n');
    }
    match verdict.board.faults().count() {
        0 => text += "accepted\n",
        count => text += &format!("refused {count}\n"),
    }
    text
}

fn numbers(number: usize, mark: Mark) -> String {
    format!("{number} {} {} {}", mark.kind, mark.place, mark.companion)
}

fn refused_bundle(refusal: u32) -> String {
    format!("bundle {refusal}\n")
}
