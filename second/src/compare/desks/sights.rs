//! What the cases of the two desks have to show, all together.

use std::fmt::{self, Display};

use super::case::{Call, Change, DesksCase, BOARDS, MAKE, REFUSALS, TRY};
use crate::bundle::{files, FILES, LARGEST_BUNDLE};
use crate::compare::reply::Reply;
use crate::desks::{is_calendar_file, Whose};
use crate::gate::touched_marks;

/// The rules that read a desk's file as well as Calendars.
pub const CROSSING: [usize; 2] = [52, 58];

#[derive(Clone, Copy, Debug, PartialEq, Eq, PartialOrd, Ord)]
pub enum Sight {
    /// A judgement on the join with this refusal, or with none.
    Judged {
        refusal: u32,
    },
    /// A change with this refusal of one desk.
    Refusal {
        op: u32,
        whose: Whose,
        desk: usize,
        refusal: u32,
    },
    /// A made change with these refusals, and whether anything is written.
    Both {
        whose: Whose,
        refusals: [u32; 2],
        written: bool,
    },
    /// A desk's bundle refused for a file that it holds.
    DeskHolds {
        desk: usize,
        number: usize,
        empty: bool,
    },
    SharedHolds {
        number: usize,
    },
    /// A change refused for a file that its bundle may not hold.
    MayNotHold {
        whose: Whose,
        number: usize,
        withdrawn: bool,
    },
    /// After a change of this file the desk's mark isn't what was handed in.
    Anew {
        desk: usize,
        mark: usize,
        file: usize,
    },
    /// A mark that no judgement gives comes back from a change of its own
    /// bundle, of the other desk's or of the calendars.
    Kept {
        desk: usize,
        mark: usize,
        whose: Whose,
    },
    /// A rule that reads both bundles, judged on the join to this kind.
    Crossing {
        desk: usize,
        mark: usize,
        kind: u32,
    },
    /// A join longer than a bundle may be, judged and changed.
    LongJoin {
        op: u32,
    },
}

impl Display for Sight {
    fn fmt(&self, out: &mut fmt::Formatter) -> fmt::Result {
        write!(out, "{self:?}")
    }
}

fn concerns(whose: Whose, desk: usize) -> bool {
    matches!((whose, desk), (Whose::DeskA, 0) | (Whose::DeskB, 1) | (Whose::Calendars, _))
}

const ALL: [Whose; 3] = [Whose::DeskA, Whose::DeskB, Whose::Calendars];

pub fn wanted() -> Vec<Sight> {
    let mut wanted: Vec<Sight> = [0, 1, 2, 3, 9].map(|refusal| Sight::Judged { refusal }).to_vec();
    for whose in ALL {
        for desk in [0, 1] {
            for op in [TRY, MAKE] {
                let refusals: &[u32] = match (concerns(whose, desk), op) {
                    (false, _) => &[0, 1, 2, 3, 9],
                    (true, TRY) => &[0, 1, 2, 3, 4, 6, 9],
                    (true, _) => &[0, 1, 2, 3, 4, 5, 6, 9],
                };
                let of = |refusal: &u32| Sight::Refusal { op, whose, desk, refusal: *refusal };
                wanted.extend(refusals.iter().map(of));
            }
            wanted.extend((0..81).map(|mark| Sight::Kept { desk, mark, whose }));
        }
        wanted.extend(pairs(whose));
        for number in (0..FILES).filter(|n| is_calendar_file(*n) != (whose == Whose::Calendars)) {
            let of = |withdrawn| Sight::MayNotHold { whose, number, withdrawn };
            wanted.extend([false, true].map(of));
        }
    }
    for desk in [0, 1] {
        for number in 6..=8 {
            wanted.extend([false, true].map(|empty| Sight::DeskHolds { desk, number, empty }));
        }
        for file in 0..FILES {
            let marks = touched_marks(file).into_iter();
            wanted.extend(marks.map(|mark| Sight::Anew { desk, mark, file }));
        }
        for mark in CROSSING {
            wanted.extend([0, 1, 2].map(|kind| Sight::Crossing { desk, mark, kind }));
        }
    }
    let others = (0..FILES).filter(|number| !is_calendar_file(*number));
    wanted.extend(others.map(|number| Sight::SharedHolds { number }));
    wanted.extend([0, TRY, MAKE].map(|op| Sight::LongJoin { op }));
    wanted
}

/// Each two refusals of the desks' own bundles, by a change that is itself in
/// order.
fn pairs(whose: Whose) -> Vec<Sight> {
    let mut pairs = Vec::new();
    for a in [0, 1, 2, 3, 9] {
        for b in [0, 1, 2, 3, 9] {
            let refusals = [a, b];
            let written = (0..2).any(|desk| concerns(whose, desk) && refusals[desk] == 0);
            pairs.push(Sight::Both { whose, refusals, written });
        }
    }
    pairs
}

pub fn sights_of(case: &DesksCase, expected: &Reply) -> Vec<Sight> {
    let mut seen = Vec::new();
    let long = |desk: usize| case.three.desks[desk].len() + case.three.shared.len();
    if expected.number_of(REFUSALS[0]) == 0 && long(0) > LARGEST_BUNDLE + 164 {
        seen.push(Sight::LongJoin { op: case.op() });
    }
    let change = match case.change() {
        None => {
            seen.push(Sight::Judged { refusal: expected.number_of(REFUSALS[0]) });
            return seen;
        }
        Some(change) => change,
    };
    for desk in [0, 1] {
        let refusal = expected.number_of(REFUSALS[desk]);
        seen.push(Sight::Refusal { op: case.op(), whose: change.whose, desk, refusal });
        seen.extend(board_sights(change, desk, expected));
        if refusal == 9 {
            seen.extend(nine_sights(case, change, desk));
        }
    }
    if let Call::Make(change, _) = &case.call {
        let refusals = REFUSALS.map(|name| expected.number_of(name));
        let written = expected.number_of("size") != 0;
        seen.push(Sight::Both { whose: change.whose, refusals, written });
    }
    seen
}

fn board_sights(change: &Change, desk: usize, expected: &Reply) -> Vec<Sight> {
    if expected.number_of(REFUSALS[desk]) != 0 {
        return Vec::new();
    }
    let file = change.number as usize;
    let board = expected.board_of(BOARDS[desk]).expect("a change answers with boards");
    let mut seen = Vec::new();
    for (mark, (handed, given)) in change.boards[desk].marks.iter().zip(&board.marks).enumerate() {
        if handed != given {
            seen.push(Sight::Anew { desk, mark, file });
            if CROSSING.contains(&mark) {
                seen.push(Sight::Crossing { desk, mark, kind: given.kind });
            }
        } else if handed.kind > 40 {
            seen.push(Sight::Kept { desk, mark, whose: change.whose });
        }
    }
    seen
}

/// Why a desk is refused by 9, if there is one reason.
fn nine_sights(case: &DesksCase, change: &Change, desk: usize) -> Vec<Sight> {
    let own = files(&case.three.desks[desk]).expect("1 to 3 come first");
    let shared = files(&case.three.shared).expect("1 to 3 come first");
    let mut seen = Vec::new();
    for number in 0..FILES {
        if let (true, Some(bytes)) = (is_calendar_file(number), own[number]) {
            seen.push(Sight::DeskHolds { desk, number, empty: bytes.is_empty() });
        }
        if !is_calendar_file(number) && shared[number].is_some() {
            seen.push(Sight::SharedHolds { number });
        }
    }
    if seen.is_empty() {
        let withdrawn = change.new.is_none();
        let number = change.number as usize;
        seen.push(Sight::MayNotHold { whose: change.whose, number, withdrawn });
    }
    if seen.len() > 1 {
        seen.clear();
    }
    seen
}
