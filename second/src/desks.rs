//! Two desks, one set of calendars (order 10): each desk's bundle without files
//! 6, 7 and 8, and these in a bundle that both share. A desk is judged on the
//! join of the two.

use crate::board::{Board, MARKS};
use crate::bundle::{
    build, built_length, files, Files, FILES, LARGEST_BUNDLE, NEW_BUNDLE_TOO_LONG, NO_SUCH_FILE,
    OUTPUT_TOO_SHORT,
};
use crate::gate::{judge_marks, touched_marks, Change, Verdict};

pub const NOT_ITS_FILE: u32 = 9;

/// Whose bundle a change is to.
#[derive(Clone, Copy, Debug, PartialEq, Eq, PartialOrd, Ord)]
pub enum Whose {
    DeskA,
    DeskB,
    Calendars,
}

/// What both desks lend, and the boards that they hand in.
#[derive(Clone, Copy)]
pub struct Lent<'a> {
    pub desks: [&'a [u8]; 2],
    pub shared: &'a [u8],
    pub boards: &'a [Board; 2],
}

/// The answers of both desks, and the length of the bundle that is written, or
/// for a try would be; 0 if none is.
#[derive(Clone, Debug, PartialEq, Eq)]
pub struct Answers {
    pub desks: [Verdict; 2],
    pub size: usize,
}

/// The files that the programme office keeps.
pub fn is_calendar_file(number: usize) -> bool {
    (6..=8).contains(&number)
}

/// A desk's files and the shared ones.
#[derive(Clone)]
struct Joined<'a> {
    own: Files<'a>,
    shared: Files<'a>,
}

impl<'a> Joined<'a> {
    /// Or the refusal: 1 to 3 of the desk's bundle, 1 to 3 of the shared one,
    /// then 9 of either.
    fn of(desk: &'a [u8], shared: &'a [u8]) -> Result<Joined<'a>, u32> {
        let joined = Joined { own: files(desk)?, shared: files(shared)? };
        let is_wrong = |number: usize| match is_calendar_file(number) {
            true => joined.own[number].is_some(),
            false => joined.shared[number].is_some(),
        };
        if (0..FILES).any(is_wrong) {
            return Err(NOT_ITS_FILE);
        }
        Ok(joined)
    }

    fn files(&self) -> Files<'a> {
        let mut files = self.own;
        for number in (0..FILES).filter(|number| is_calendar_file(*number)) {
            files[number] = self.shared[number];
        }
        files
    }
}

/// Judges a desk in full on its join with the calendars.
pub fn judge_joined(desk: &[u8], shared: &[u8]) -> Verdict {
    match Joined::of(desk, shared) {
        Err(refusal) => Verdict { refusal, board: Board::fresh() },
        Ok(joined) => {
            let all: Vec<usize> = (0..MARKS).collect();
            Verdict { refusal: 0, board: judge_marks(Board::fresh(), &all, &joined.files()) }
        }
    }
}

/// What making the change into an output long enough would answer.
pub fn try_desks(lent: Lent, whose: Whose, number: usize, change: Change) -> Answers {
    answers(lent, whose, number, change, usize::MAX).0
}

/// Makes the change: the output then starts with the changed bundle, unless
/// every desk that the change concerns is refused.
pub fn change_desks(
    lent: Lent,
    whose: Whose,
    number: usize,
    change: Change,
    output: &mut [u8],
) -> Answers {
    let (answers, written) = answers(lent, whose, number, change, output.len());
    output[..written.len()].copy_from_slice(&written);
    answers
}

/// The answers and the bundle that is written, which is empty if none is.
fn answers(
    lent: Lent,
    whose: Whose,
    number: usize,
    change: Change,
    room: usize,
) -> (Answers, Vec<u8>) {
    let mut written = Vec::new();
    let desks = [Whose::DeskA, Whose::DeskB].map(|desk| {
        let at = if desk == Whose::DeskA { 0 } else { 1 };
        let board = lent.boards[at];
        let answered = Joined::of(lent.desks[at], lent.shared).and_then(|joined| {
            if whose != desk && whose != Whose::Calendars {
                return Ok(board);
            }
            let (joined, bundle) = changed(joined, whose, number, change, room)?;
            written = bundle;
            Ok(judge_marks(board, &touched_marks(number), &joined.files()))
        });
        match answered {
            Ok(board) => Verdict { refusal: 0, board },
            Err(refusal) => Verdict { refusal, board },
        }
    });
    (Answers { desks, size: written.len() }, written)
}

/// The join after the change and the bundle that was changed, or the refusal
/// 4, 9, 6 or 5.
fn changed<'a>(
    mut joined: Joined<'a>,
    whose: Whose,
    number: usize,
    change: Change<'a>,
    room: usize,
) -> Result<(Joined<'a>, Vec<u8>), u32> {
    if number >= FILES {
        return Err(NO_SUCH_FILE);
    }
    if is_calendar_file(number) != (whose == Whose::Calendars) {
        return Err(NOT_ITS_FILE);
    }
    let files = match whose {
        Whose::Calendars => &mut joined.shared,
        Whose::DeskA | Whose::DeskB => &mut joined.own,
    };
    files[number] = change;
    let length = built_length(files);
    if length > LARGEST_BUNDLE {
        return Err(NEW_BUNDLE_TOO_LONG);
    }
    if length > room {
        return Err(OUTPUT_TOO_SHORT);
    }
    let bundle = build(files);
    Ok((joined, bundle))
}
