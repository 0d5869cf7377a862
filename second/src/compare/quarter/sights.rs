//! What the cases of the quarter have to show, all together.

use std::fmt::{self, Display};

use super::case::QuarterCase;
use crate::board::Board;
use crate::bundle::files;
use crate::gate::judge;
use crate::json::Number;
use crate::quarter::{amount, take, COLUMNS, LARGEST_AMOUNT, LARGEST_OF_A_SET, SETS, TOTALS};
use crate::table::read_file;

#[derive(Clone, Copy, Debug, PartialEq, Eq, PartialOrd, Ord)]
pub enum Sight {
    /// A 257th set, and more sets than that handed.
    TooManySets {
        more: bool,
    },
    /// A handed total at its limit, which is taken, or one more, which isn't.
    Handed {
        total: usize,
        minus: bool,
        beyond: bool,
    },
    /// A handed total at either end of its numbers.
    Extreme {
        minus: bool,
    },
    /// A set that moves this total up or down.
    Counted {
        total: usize,
        minus: bool,
    },
    /// A set left out: refused so.
    Refused {
        refusal: u32,
    },
    /// Not accepted, with this mark among those that don't hold.
    Marked {
        mark: usize,
    },
    /// An amount that isn't whole, or too large by the least there is.
    NotWhole {
        column: usize,
    },
    TooLarge {
        column: usize,
        minus: bool,
    },
    /// An amount as large as can be.
    Largest {
        column: usize,
        minus: bool,
    },
    /// A set at that place, left out or not.
    Place {
        place: usize,
        left: bool,
    },
    /// A place handed as left out, and the set that now takes it isn't.
    FlagCleared,
    /// A place behind the new set, handed as left out.
    FlagBehind,
    /// This total at the limit of 256 sets.
    MostOfAll {
        total: usize,
        minus: bool,
    },
    /// An ID in an assignment that isn't written as in Resources.
    OtherWriting {
        escaped: bool,
    },
    /// A percentage that would be no amount.
    NoAmount,
    NullColumn,
}

impl Display for Sight {
    fn fmt(&self, out: &mut fmt::Formatter) -> fmt::Result {
        write!(out, "{self:?}")
    }
}

const BOTH: [bool; 2] = [false, true];

pub fn wanted() -> Vec<Sight> {
    let mut wanted = vec![Sight::FlagCleared, Sight::FlagBehind, Sight::NoAmount];
    wanted.push(Sight::NullColumn);
    wanted.extend([0, 5].map(|total| Sight::MostOfAll { total, minus: false }));
    wanted.extend([20, 21].map(|total| Sight::MostOfAll { total, minus: true }));
    wanted.extend(BOTH.map(|more| Sight::TooManySets { more }));
    wanted.extend(BOTH.map(|escaped| Sight::OtherWriting { escaped }));
    wanted.extend([1, 2, 3].map(|refusal| Sight::Refused { refusal }));
    wanted.extend((0..81).map(|mark| Sight::Marked { mark }));
    wanted.extend((0..COLUMNS.len()).map(|column| Sight::NotWhole { column }));
    for place in [1, 2, 128, 255, 256] {
        wanted.extend(BOTH.map(|left| Sight::Place { place, left }));
    }
    for minus in BOTH {
        wanted.push(Sight::Extreme { minus });
        for column in 0..COLUMNS.len() {
            wanted.extend([Sight::TooLarge { column, minus }, Sight::Largest { column, minus }]);
        }
        for total in 0..TOTALS {
            wanted.push(Sight::Counted { total, minus });
            wanted.extend(BOTH.map(|beyond| Sight::Handed { total, minus, beyond }));
        }
    }
    wanted
}

pub fn sights_of(case: &QuarterCase) -> Vec<Sight> {
    let mut seen = handed_sights(case);
    let taken = take(&case.quarter, &case.bundle);
    if taken.refusal != 0 {
        return seen;
    }
    let place = case.quarter.sets;
    let left = taken.quarter.left[place];
    seen.push(Sight::Place { place: place + 1, left });
    if case.quarter.left[place] && !left {
        seen.push(Sight::FlagCleared);
    }
    if case.quarter.left[place + 1..].contains(&true) {
        seen.push(Sight::FlagBehind);
    }
    let pairs = case.quarter.totals.iter().zip(&taken.quarter.totals).enumerate();
    for (total, (before, after)) in pairs.filter(|(_, (before, after))| before != after) {
        seen.push(Sight::Counted { total, minus: after < before });
    }
    let most = LARGEST_OF_A_SET * SETS as i128;
    for (minus, end) in [(false, most), (true, -most)] {
        let at_end = |(_, total): &(usize, &i64)| i128::from(**total) == end;
        let totals = taken.quarter.totals.iter().enumerate().filter(at_end);
        seen.extend(totals.map(|(total, _)| Sight::MostOfAll { total, minus }));
    }
    seen.extend(set_sights(&case.bundle, left));
    seen
}

fn handed_sights(case: &QuarterCase) -> Vec<Sight> {
    let sets = case.quarter.sets;
    if sets >= SETS {
        return vec![Sight::TooManySets { more: sets > SETS }];
    }
    let most = LARGEST_OF_A_SET * sets as i128;
    let mut seen = Vec::new();
    for (total, handed) in case.quarter.totals.iter().enumerate() {
        let (size, minus) = (i128::from(*handed).abs(), *handed < 0);
        if size == most && most > 0 {
            seen.push(Sight::Handed { total, minus, beyond: false });
        }
        if size == most + 1 {
            seen.push(Sight::Handed { total, minus, beyond: true });
        }
        if [i64::MIN, i64::MAX].contains(handed) {
            seen.push(Sight::Extreme { minus });
        }
    }
    seen
}

fn set_sights(bundle: &[u8], left: bool) -> Vec<Sight> {
    let verdict = judge(bundle);
    if verdict.refusal != 0 {
        return vec![Sight::Refused { refusal: verdict.refusal }];
    }
    let faults = |board: &Board| -> Vec<Sight> {
        board.faults().map(|(mark, _)| Sight::Marked { mark }).collect()
    };
    if !verdict.board.is_accepted() {
        return faults(&verdict.board);
    }
    let parts = files(bundle).expect("the bundle isn't refused");
    let records = read_file(19, parts[19]).expect("the set is accepted");
    let bytes = parts[19].unwrap_or(&[]);
    let mut seen = Vec::new();
    for record in &records {
        for (column, name) in COLUMNS.iter().enumerate() {
            match record.decimal(name) {
                None => seen.push(Sight::NullColumn),
                Some(number) => seen.extend(amount_sight(number, column)),
            }
        }
        let percent = record.decimal("PhysicalPercentComplete").map(amount);
        if percent == Some(None) && !left {
            seen.push(Sight::NoAmount);
        }
        let place = record.place("ResourceID");
        let written = &bytes[place.start as usize..place.end as usize];
        let resources = parts[16].unwrap_or(&[]);
        if !left
            && records.len() < 100
            && !resources.windows(written.len()).any(|part| part == written)
        {
            seen.push(Sight::OtherWriting { escaped: written.contains(&b'\\') });
        }
    }
    seen
}

fn amount_sight(number: Number, column: usize) -> Option<Sight> {
    let minus = number.minus;
    let scaled = match number.p {
        -4..=15 => i128::from(number.c) * 10i128.pow((number.p + 4) as u32),
        _ => return Some(Sight::NotWhole { column }),
    };
    match scaled - LARGEST_AMOUNT {
        0 => Some(Sight::Largest { column, minus }),
        1 => Some(Sight::TooLarge { column, minus }),
        _ => None,
    }
}
