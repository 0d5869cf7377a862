//! A step of two changes or of an undone one, and what these show.

use std::fmt::{self, Display};
use std::io::{self, Read, Write};

use crate::board::Board;
use crate::compare::run::Question;
use crate::gate::touched_marks;

/// What two changes, or one and its undoing, have shown.
#[derive(Clone, Copy, Debug, PartialEq, Eq, PartialOrd, Ord)]
pub enum Sight {
    /// All four steps accepted: one end, with these files changed.
    Agreed {
        files: (usize, usize),
    },
    /// From boards that are those of a full judgement, or any others.
    AgreedFrom {
        right: bool,
    },
    /// Accepted in one order, and not in the other.
    OneOrder,
    /// Not accepted in either order, by this refusal among others.
    Refused {
        refusal: u32,
    },
    /// All four steps accepted, and two ends.
    Differ,
    /// A change of this file undone; how it was before.
    Restored {
        file: usize,
        before: Before,
    },
    RestoredFrom {
        right: bool,
    },
    /// From a wrong board, a mark that the file touches is right now.
    Righted,
    /// The undoing was refused.
    UndoRefused {
        refusal: u32,
    },
    /// Undone, and not as it was.
    NotRestored,
    /// At the very limit of room.
    Full {
        undone: bool,
    },
    /// In drawers: one set in the end, at different places; and undone to other
    /// places than before.
    OtherPlaces {
        undone: bool,
    },
    /// In desks: whose the two changes were.
    Whose {
        whose: (usize, usize),
    },
    /// In desks: with one of them refused.
    BesideRefused,
}

/// How a file was before a change.
#[derive(Clone, Copy, Debug, PartialEq, Eq, PartialOrd, Ord)]
pub enum Before {
    Omitted,
    Empty,
    Present,
}

pub const BEFORE: [Before; 3] = [Before::Omitted, Before::Empty, Before::Present];

pub fn before(contents: Option<&[u8]>) -> Before {
    match contents {
        None => Before::Omitted,
        Some(b"") => Before::Empty,
        Some(_) => Before::Present,
    }
}

impl Display for Sight {
    fn fmt(&self, out: &mut fmt::Formatter) -> fmt::Result {
        write!(out, "{self:?}")
    }
}

/// A case of a comparison that changes can be steps of.
pub trait Step: Question {
    fn wanted_either() -> Vec<Sight>;
}

/// One step, and what it is the last one of has shown.
pub struct EitherCase<Q> {
    pub step: Q,
    pub seen: Vec<Sight>,
}

impl<Q: Step> Question for EitherCase<Q> {
    type Answer = Q::Answer;
    type Sight = Sight;

    fn write(&self, out: &mut impl Write) -> io::Result<()> {
        self.step.write(out)
    }

    fn read(input: &mut impl Read) -> io::Result<Option<EitherCase<Q>>> {
        let step = Q::read(input)?;
        Ok(step.map(|step| EitherCase { step, seen: Vec::new() }))
    }

    fn answer(&self) -> Q::Answer {
        self.step.answer()
    }

    fn write_answer(answer: &Q::Answer, out: &mut impl Write) -> io::Result<()> {
        Q::write_answer(answer, out)
    }

    fn read_answer(&self, input: &mut impl Read) -> Option<Q::Answer> {
        self.step.read_answer(input)
    }

    fn describe(&self, expected: &Q::Answer, answered: &Q::Answer) -> String {
        self.step.describe(expected, answered)
    }

    fn wanted() -> Vec<Sight> {
        Q::wanted_either()
    }

    fn ruled_out() -> Vec<Sight> {
        vec![Sight::Differ, Sight::NotRestored]
    }

    fn sights(&self, _: &Q::Answer) -> Vec<Sight> {
        self.seen.clone()
    }
}

/// What is wanted of bundles, drawers and desks alike.
pub fn wanted_of_all() -> Vec<Sight> {
    let mut wanted = vec![Sight::Righted];
    for right in [false, true] {
        wanted.extend([Sight::AgreedFrom { right }, Sight::RestoredFrom { right }]);
    }
    for file in 0..20 {
        wanted.extend(BEFORE.map(|before| Sight::Restored { file, before }));
    }
    wanted
}

/// All pairs of files.
pub fn wanted_pairs() -> Vec<Sight> {
    let pairs = (0..20).flat_map(|high| (0..high).map(move |low| (low, high)));
    pairs.map(|files| Sight::Agreed { files }).collect()
}

/// The undone board: the marks that the file touches are those of a full
/// judgement, all others as handed.
pub fn undone(handed: &Board, judged: &Board, file: usize) -> Board {
    let mut board = *handed;
    for mark in touched_marks(file) {
        board.marks[mark] = judged.marks[mark];
    }
    board
}

/// What an undoing shows of boards: handed, given back, and judged in full.
pub fn board_sights(handed: &Board, given: &Board, judged: &Board, file: usize) -> Vec<Sight> {
    let mut seen = vec![Sight::RestoredFrom { right: handed == judged }];
    if *given != undone(handed, judged, file) {
        seen.push(Sight::NotRestored);
    }
    if handed == judged && given != handed {
        seen.push(Sight::NotRestored);
    }
    if given != handed {
        seen.push(Sight::Righted);
    }
    seen
}
