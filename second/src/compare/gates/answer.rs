//! The answers of a gate as bytes between two programs. A board has as many
//! triples of kind, place and companion as the gate has marks.

use std::io::{self, Read, Write};

use crate::board::Mark;
use crate::compare::gate::answer::{
    byte_difference, mark_differences, shown_reason, Answer as OfOne, Nine, Part, REFUSED,
};
use crate::compare::gate::case::LONGEST;
use crate::compare::wire::{read_slice_within, read_word, write_words};

#[derive(Clone, Debug, PartialEq, Eq)]
pub enum Answer {
    Judged {
        refusal: u32,
        board: Vec<Mark>,
    },
    /// The length is that of the new bundle, 0 if refused.
    Tried {
        refusal: u32,
        length: u32,
        board: Vec<Mark>,
    },
    Made {
        refusal: u32,
        length: u32,
        board: Vec<Mark>,
        output: Vec<u8>,
    },
    Found(Part),
    Told(Nine),
}

impl Answer {
    pub(super) fn write(&self, out: &mut impl Write) -> io::Result<()> {
        match self {
            Answer::Judged { refusal, board } => {
                write_words(out, &[*refusal])?;
                write_marks(out, board)
            }
            Answer::Tried { refusal, length, board } => {
                write_words(out, &[*refusal, *length])?;
                write_marks(out, board)
            }
            Answer::Made { refusal, length, board, output } => {
                write_words(out, &[*refusal, *length])?;
                write_marks(out, board)?;
                out.write_all(output)
            }
            Answer::Found(Part { state, refusal, length, bytes }) => {
                write_words(out, &[*state, *refusal, *length])?;
                out.write_all(bytes)
            }
            Answer::Told(nine) => write_words(out, nine),
        }
    }

    pub(super) fn read_judged(input: &mut impl Read, marks: usize) -> io::Result<Answer> {
        Ok(Answer::Judged { refusal: read_word(input)?, board: read_marks(input, marks)? })
    }

    pub(super) fn read_tried(input: &mut impl Read, marks: usize) -> io::Result<Answer> {
        Ok(Answer::Tried {
            refusal: read_word(input)?,
            length: read_word(input)?,
            board: read_marks(input, marks)?,
        })
    }

    pub(super) fn read_made(
        input: &mut impl Read,
        marks: usize,
        output: u32,
    ) -> io::Result<Answer> {
        Ok(Answer::Made {
            refusal: read_word(input)?,
            length: read_word(input)?,
            board: read_marks(input, marks)?,
            output: read_slice_within(input, output, LONGEST)?,
        })
    }

    pub(super) fn read_found(input: &mut impl Read) -> io::Result<Answer> {
        OfOne::read_found(input).map(of_one)
    }

    pub(super) fn read_told(input: &mut impl Read) -> io::Result<Answer> {
        OfOne::read_told(input).map(of_one)
    }

    /// The refusal, or 0.
    pub fn refusal(&self) -> u32 {
        match self {
            Answer::Judged { refusal, .. }
            | Answer::Tried { refusal, .. }
            | Answer::Made { refusal, .. } => *refusal,
            Answer::Found(part) => part.refusal,
            Answer::Told([REFUSED, refusal, ..]) => *refusal,
            Answer::Told(_) => 0,
        }
    }

    pub fn board(&self) -> &[Mark] {
        match self {
            Answer::Judged { board, .. }
            | Answer::Tried { board, .. }
            | Answer::Made { board, .. } => board,
            Answer::Found(_) | Answer::Told(_) => &[],
        }
    }

    fn bytes(&self) -> &[u8] {
        match self {
            Answer::Made { output, .. } => output,
            Answer::Found(part) => &part.bytes,
            _ => &[],
        }
    }

    /// The numbers before the board and the bytes.
    fn head(&self) -> String {
        match self {
            Answer::Judged { refusal, .. } => format!("refusal {refusal}"),
            Answer::Tried { refusal, length, .. } | Answer::Made { refusal, length, .. } => {
                format!("refusal {refusal} length {length}")
            }
            Answer::Found(Part { state, refusal, length, .. }) => {
                format!("state {state} refusal {refusal} length {length}")
            }
            Answer::Told(nine) => shown_reason(nine),
        }
    }
}

/// The answers that have no board are sent alike for every gate.
fn of_one(answer: OfOne) -> Answer {
    match answer {
        OfOne::Found(part) => Answer::Found(part),
        OfOne::Told(nine) => Answer::Told(nine),
        OfOne::Judged { .. } | OfOne::Made { .. } => unreachable!("a board has been read"),
    }
}

pub(in crate::compare) fn write_marks(out: &mut impl Write, marks: &[Mark]) -> io::Result<()> {
    for mark in marks {
        write_words(out, &[mark.kind, mark.place, mark.companion])?;
    }
    Ok(())
}

pub(in crate::compare) fn read_marks(input: &mut impl Read, count: usize) -> io::Result<Vec<Mark>> {
    let mut read = || -> io::Result<Mark> {
        let (kind, place) = (read_word(input)?, read_word(input)?);
        Ok(Mark { kind, place, companion: read_word(input)? })
    };
    (0..count).map(|_| read()).collect()
}

/// What differs between two answers to one case, in lines.
pub(super) fn differences(expected: &Answer, answered: &Answer) -> Vec<String> {
    let mut lines = Vec::new();
    if expected.head() != answered.head() {
        lines.push(format!("  expected {}", expected.head()));
        lines.push(format!("  answered {}", answered.head()));
    }
    lines.extend(mark_differences(expected.board(), answered.board()));
    lines.extend(byte_difference(expected.bytes(), answered.bytes()));
    lines
}
