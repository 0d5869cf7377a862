//! The answers of the gate as bytes between two programs.

use std::io::{self, Read, Write};

use super::case::LONGEST;
use crate::board::{Board, Mark, MARKS};
use crate::compare::wire::{read_slice_within, read_word, write_words};
use crate::gate::Verdict;
use crate::reason::{Reason, Shown};

/// A board is sent as 81 triples of 32-bit numbers: kind, place, companion.
pub const BOARD_BYTES: usize = 12 * MARKS;

const MOST_MARKS_SHOWN: usize = 10;

/// A reason is sent as nine numbers: a tag and eight that are its own, those
/// that it has no use for 0.
pub type Nine = [u32; 9];

pub const REFUSED: u32 = 0;
pub const HOLDING: u32 = 1;
pub const NOT_JUDGED: u32 = 2;
pub const OWN_MARK: u32 = 3;
pub const BROKEN: u32 = 4;
pub const MISSING: u32 = 5;

#[derive(Clone, Debug, PartialEq, Eq)]
pub enum Answer {
    /// Of a judgement and of a try.
    Judged { refusal: u32, board: Board },
    /// Of a made change. The length is that of the new bundle; the output is
    /// all of it, with what stands behind the bundle.
    Made { refusal: u32, length: u32, board: Board, output: Vec<u8> },
    /// Of a lookup.
    Found(Part),
    /// Of the question for a reason.
    Told(Nine),
}

/// State 0 is present, 1 omitted, 2 refused. The length is the one answered.
#[derive(Clone, Debug, PartialEq, Eq)]
pub struct Part {
    pub state: u32,
    pub refusal: u32,
    pub length: u32,
    pub bytes: Vec<u8>,
}

impl Answer {
    pub(super) fn judged(verdict: Verdict) -> Answer {
        Answer::Judged { refusal: verdict.refusal, board: verdict.board }
    }

    pub(super) fn told(reason: Reason) -> Answer {
        Answer::Told(nine(reason))
    }

    pub(super) fn write(&self, out: &mut impl Write) -> io::Result<()> {
        match self {
            Answer::Judged { refusal, board } => {
                write_words(out, &[*refusal])?;
                write_board(out, board)
            }
            Answer::Made { refusal, length, board, output } => {
                write_words(out, &[*refusal, *length])?;
                write_board(out, board)?;
                out.write_all(output)
            }
            Answer::Found(Part { state, refusal, length, bytes }) => {
                write_words(out, &[*state, *refusal, *length])?;
                out.write_all(bytes)
            }
            Answer::Told(nine) => write_words(out, nine),
        }
    }

    pub(super) fn read_judged(input: &mut impl Read) -> io::Result<Answer> {
        Ok(Answer::Judged { refusal: read_word(input)?, board: read_board(input)? })
    }

    pub(super) fn read_made(input: &mut impl Read, output: u32) -> io::Result<Answer> {
        Ok(Answer::Made {
            refusal: read_word(input)?,
            length: read_word(input)?,
            board: read_board(input)?,
            output: read_slice_within(input, output, LONGEST)?,
        })
    }

    /// Of a part longer than any bundle no byte is read: it is wrong by its
    /// length alone.
    pub(in crate::compare) fn read_found(input: &mut impl Read) -> io::Result<Answer> {
        let state = read_word(input)?;
        let refusal = read_word(input)?;
        let length = read_word(input)?;
        let read = if length as usize <= LONGEST { length } else { 0 };
        let bytes = read_slice_within(input, read, LONGEST)?;
        Ok(Answer::Found(Part { state, refusal, length, bytes }))
    }

    pub(in crate::compare) fn read_told(input: &mut impl Read) -> io::Result<Answer> {
        let mut nine = [0; 9];
        for word in &mut nine {
            *word = read_word(input)?;
        }
        Ok(Answer::Told(nine))
    }

    /// The refusal, or 0.
    pub fn refusal(&self) -> u32 {
        match self {
            Answer::Judged { refusal, .. } | Answer::Made { refusal, .. } => *refusal,
            Answer::Found(part) => part.refusal,
            Answer::Told([REFUSED, refusal, ..]) => *refusal,
            Answer::Told(_) => 0,
        }
    }

    fn board(&self) -> Option<&Board> {
        match self {
            Answer::Judged { board, .. } | Answer::Made { board, .. } => Some(board),
            Answer::Found(_) | Answer::Told(_) => None,
        }
    }

    fn bytes(&self) -> &[u8] {
        match self {
            Answer::Judged { .. } | Answer::Told(_) => &[],
            Answer::Made { output, .. } => output,
            Answer::Found(part) => &part.bytes,
        }
    }

    /// The numbers before the board and the bytes.
    fn head(&self) -> String {
        match self {
            Answer::Judged { refusal, .. } => format!("refusal {refusal}"),
            Answer::Made { refusal, length, .. } => format!("refusal {refusal} length {length}"),
            Answer::Found(Part { state, refusal, length, .. }) => {
                format!("state {state} refusal {refusal} length {length}")
            }
            Answer::Told(nine) => shown_reason(nine),
        }
    }
}

pub(in crate::compare) fn nine(reason: Reason) -> Nine {
    match reason {
        Reason::Refused(refusal) => [REFUSED, refusal, 0, 0, 0, 0, 0, 0, 0],
        Reason::Holds => [HOLDING, 0, 0, 0, 0, 0, 0, 0, 0],
        Reason::NotJudged { file } => [NOT_JUDGED, word(file), 0, 0, 0, 0, 0, 0, 0],
        Reason::OwnMark(Mark { kind, place, companion }) => {
            [OWN_MARK, kind, place, companion, 0, 0, 0, 0, 0]
        }
        Reason::Broken(shown) => nine_of_shown(BROKEN, shown, 0),
        Reason::Missing { shown, searched } => nine_of_shown(MISSING, shown, searched),
    }
}

fn nine_of_shown(tag: u32, shown: Shown, searched: usize) -> Nine {
    let Shown { file, record, companion, field, start, length } = shown;
    let numbers = [file, record, companion, field, start, length, searched].map(word);
    let [file, record, companion, field, start, length, searched] = numbers;
    [tag, file, record, companion, field, start, length, searched, 0]
}

fn word(number: usize) -> u32 {
    u32::try_from(number).expect("no number of a reason is beyond a bundle's length")
}

/// A reason's numbers, also such as no reason has.
pub(in crate::compare) fn shown_reason(nine: &Nine) -> String {
    let [tag, numbers @ ..] = nine;
    let named = match *tag {
        REFUSED => "refused",
        HOLDING => "holds",
        NOT_JUDGED => "not judged",
        OWN_MARK => "own mark",
        BROKEN => "broken",
        MISSING => "missing",
        _ => return format!("tag {tag} {numbers:?}"),
    };
    format!("{named} {numbers:?}")
}

pub(in crate::compare) fn write_board(out: &mut impl Write, board: &Board) -> io::Result<()> {
    for mark in &board.marks {
        write_words(out, &[mark.kind, mark.place, mark.companion])?;
    }
    Ok(())
}

pub(in crate::compare) fn read_board(input: &mut impl Read) -> io::Result<Board> {
    let mut board = Board::fresh();
    for mark in &mut board.marks {
        *mark = Mark {
            kind: read_word(input)?,
            place: read_word(input)?,
            companion: read_word(input)?,
        };
    }
    Ok(board)
}

/// What differs between two answers to one case, in lines.
pub(super) fn differences(expected: &Answer, answered: &Answer) -> Vec<String> {
    let mut lines = Vec::new();
    if expected.head() != answered.head() {
        lines.push(format!("  expected {}", expected.head()));
        lines.push(format!("  answered {}", answered.head()));
    }
    if let (Some(expected), Some(answered)) = (expected.board(), answered.board()) {
        lines.extend(mark_differences(&expected.marks, &answered.marks));
    }
    lines.extend(byte_difference(expected.bytes(), answered.bytes()));
    lines
}

pub(in crate::compare) fn mark_differences(expected: &[Mark], answered: &[Mark]) -> Vec<String> {
    let pairs = expected.iter().zip(answered).enumerate();
    let mut lines: Vec<String> = pairs
        .filter(|(_, (expected, answered))| expected != answered)
        .map(|(number, (expected, answered))| {
            let (right, wrong) = (shown(expected), shown(answered));
            format!("  mark {number}: expected {right}, answered {wrong}")
        })
        .collect();
    if lines.len() > MOST_MARKS_SHOWN {
        let more = lines.len() - MOST_MARKS_SHOWN;
        lines.truncate(MOST_MARKS_SHOWN);
        lines.push(format!("  and {more} more marks"));
    }
    lines
}

fn shown(mark: &Mark) -> String {
    let Mark { kind, place, companion } = mark;
    format!("{kind} at {place} with {companion}")
}

pub(in crate::compare) fn byte_difference(expected: &[u8], answered: &[u8]) -> Option<String> {
    let at = expected.iter().zip(answered).position(|(a, b)| a != b)?;
    let (right, wrong) = (expected[at], answered[at]);
    Some(format!("  byte {at}: expected {right:02x}, answered {wrong:02x}"))
}

#[cfg(test)]
mod tests {
    use super::*;

    fn board() -> Board {
        let mut board = Board::fresh();
        board.marks[80] = Mark { kind: 1, place: u32::MAX, companion: u32::MAX - 1 };
        board
    }

    fn made(output: &[u8]) -> Answer {
        Answer::Made { refusal: 0, length: 3, board: board(), output: output.to_vec() }
    }

    fn found(length: u32, bytes: &[u8]) -> Answer {
        Answer::Found(Part { state: 0, refusal: 0, length, bytes: bytes.to_vec() })
    }

    fn answered(answer: &Answer) -> Vec<u8> {
        let mut bytes = Vec::new();
        answer.write(&mut bytes).unwrap();
        bytes
    }

    fn read_back(answer: &Answer, mut input: &[u8]) -> io::Result<Answer> {
        let back = match answer {
            Answer::Judged { .. } => Answer::read_judged(&mut input),
            Answer::Made { output, .. } => Answer::read_made(&mut input, output.len() as u32),
            Answer::Found(_) => Answer::read_found(&mut input),
            Answer::Told(_) => Answer::read_told(&mut input),
        };
        assert!(input.is_empty());
        back
    }

    #[test]
    fn an_answer_comes_back_from_its_bytes() {
        let judged = Answer::Judged { refusal: 6, board: board() };
        let told = Answer::Told([5, 1, 2, 3, 4, 5, 6, 7, u32::MAX]);
        let lengths = [(judged, 976), (made(b"abcd"), 984), (found(2, b"[]"), 14), (told, 36)];
        for (answer, length) in lengths {
            let bytes = answered(&answer);
            assert_eq!(bytes.len(), length);
            assert_eq!(read_back(&answer, &bytes).unwrap(), answer);
            assert!(read_back(&answer, &bytes[..length - 1]).is_err());
        }
    }

    #[test]
    fn a_mark_is_kind_place_and_companion() {
        let bytes = answered(&Answer::Judged { refusal: 6, board: board() });
        assert_eq!(bytes[..16], [6, 0, 0, 0, 2, 0, 0, 0, 0, 0, 0, 0, 0, 0, 0, 0]);
        assert_eq!(bytes[964..], [1, 0, 0, 0, 255, 255, 255, 255, 254, 255, 255, 255]);
    }

    #[test]
    fn a_part_that_is_too_long_is_not_read() {
        let bytes = answered(&found(u32::MAX, b""));
        assert_eq!(Answer::read_found(&mut &bytes[..]).unwrap(), found(u32::MAX, b""));
    }

    #[test]
    fn differences_are_named() {
        assert!(differences(&made(b"abc"), &made(b"abc")).is_empty());
        let mut wrong = board();
        wrong.marks[79] = Mark { kind: 1, place: 5, companion: 4 };
        wrong.marks[80].companion = 3;
        let wrong = Answer::Made { refusal: 5, length: 3, board: wrong, output: b"abd".to_vec() };
        let lines = differences(&made(b"abc"), &wrong);
        assert_eq!(
            lines,
            [
                "  expected refusal 0 length 3",
                "  answered refusal 5 length 3",
                "  mark 79: expected 2 at 0 with 0, answered 1 at 5 with 4",
                "  mark 80: expected 1 at 4294967295 with 4294967294, answered 1 at 4294967295 with 3",
                "  byte 2: expected 63, answered 64",
            ]
        );
        assert_eq!(
            differences(&found(2, b"[]"), &found(3, b"[]x")),
            ["  expected state 0 refusal 0 length 2", "  answered state 0 refusal 0 length 3"]
        );
    }

    const SHOWN: Shown =
        Shown { file: 7, record: 2, companion: 1, field: 3, start: 252, length: 8 };

    #[test]
    fn a_reason_is_nine_numbers() {
        let own = Mark { kind: 13, place: 2, companion: 1 };
        for (reason, nine) in [
            (Reason::Refused(7), [0, 7, 0, 0, 0, 0, 0, 0, 0]),
            (Reason::Holds, [1, 0, 0, 0, 0, 0, 0, 0, 0]),
            (Reason::NotJudged { file: 9 }, [2, 9, 0, 0, 0, 0, 0, 0, 0]),
            (Reason::OwnMark(own), [3, 13, 2, 1, 0, 0, 0, 0, 0]),
            (Reason::Broken(SHOWN), [4, 7, 2, 1, 3, 252, 8, 0, 0]),
            (Reason::Missing { shown: SHOWN, searched: 6 }, [5, 7, 2, 1, 3, 252, 8, 6, 0]),
        ] {
            assert_eq!(Answer::told(reason), Answer::Told(nine));
            let bytes: Vec<u8> = nine.iter().flat_map(|word| word.to_le_bytes()).collect();
            assert_eq!(answered(&Answer::Told(nine)), bytes);
        }
    }

    #[test]
    fn another_reason_is_shown_whole() {
        let right = Answer::told(Reason::Missing { shown: SHOWN, searched: 6 });
        let wrong = Answer::Told([6, 0, 0, 0, 0, 0, 0, 0, 1]);
        let lines = [
            "  expected missing [7, 2, 1, 3, 252, 8, 6, 0]",
            "  answered tag 6 [0, 0, 0, 0, 0, 0, 0, 1]",
        ];
        assert_eq!(differences(&right, &wrong), lines);
        assert!(differences(&right, &right).is_empty());
        let refused = Answer::told(Reason::Refused(3));
        assert_eq!((refused.refusal(), right.refusal()), (3, 0));
    }

    #[test]
    fn only_some_wrong_marks_are_shown() {
        let all = Board { marks: [Mark { kind: 9, place: 9, companion: 9 }; MARKS] };
        let lines = mark_differences(&board().marks, &all.marks);
        assert_eq!(lines.len(), 11);
        assert_eq!(lines[10], "  and 71 more marks");
    }
}
