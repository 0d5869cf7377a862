//! The quarter in exact figures (order 11): dollars and hours of assignments by
//! element of cost, over up to 256 sets, in ten-thousandths.

use std::collections::HashMap;

use crate::bundle::files;
use crate::gate::judge;
use crate::json::Number;
use crate::table::{read_file, Record};

pub const SETS: usize = 256;
pub const ELEMENTS: [&str; 4] = ["labor", "material", "other_direct_costs", "subcontract"];
pub const COLUMNS: [&str; 6] = [
    "Budget_AtCompletion_Dollars",
    "Budget_AtCompletion_Hours",
    "Estimate_ToComplete_Dollars",
    "Estimate_ToComplete_Hours",
    "Actual_ToDate_Dollars",
    "Actual_ToDate_Hours",
];
pub const TOTALS: usize = ELEMENTS.len() * COLUMNS.len();

pub const TOO_MUCH: u32 = 10;

/// 100,000,000 and 409,600,000,000 in ten-thousandths.
pub const LARGEST_AMOUNT: i128 = 1_000_000_000_000;
pub const LARGEST_OF_A_SET: i128 = 4_096_000_000_000_000;

const RESOURCES: usize = 16;
const ASSIGNMENTS: usize = 19;

/// The totals, element by element, each of six columns; the sets so far; and
/// for each place in the run whether that set was left out.
#[derive(Clone, Debug, PartialEq, Eq)]
pub struct Quarter {
    pub totals: [i64; TOTALS],
    pub sets: usize,
    pub left: [bool; SETS],
}

impl Quarter {
    pub fn start() -> Quarter {
        Quarter { totals: [0; TOTALS], sets: 0, left: [false; SETS] }
    }

    /// How many of the sets that came are left out. A place that no set has
    /// taken yet says nothing, whatever its flag is.
    pub fn left_out(&self) -> usize {
        self.left.iter().take(self.sets).filter(|left| **left).count()
    }

    /// Whether a handed total is beyond what so many sets can come to.
    fn is_beyond(&self) -> bool {
        let most = LARGEST_OF_A_SET * self.sets as i128;
        self.totals.iter().any(|total| i128::from(*total).abs() > most)
    }
}

/// What taking one more set answers. Of a refused one the quarter is as it was
/// handed in, and the grand totals are 0.
#[derive(Clone, Debug, PartialEq, Eq)]
pub struct Taken {
    pub refusal: u32,
    pub quarter: Quarter,
    pub grand: [i64; COLUMNS.len()],
}

pub fn take(quarter: &Quarter, bundle: &[u8]) -> Taken {
    if quarter.sets >= SETS || quarter.is_beyond() {
        return Taken { refusal: TOO_MUCH, quarter: quarter.clone(), grand: [0; COLUMNS.len()] };
    }
    let mut after = quarter.clone();
    let sums = sums_of(bundle);
    after.left[after.sets] = sums.is_none();
    after.sets += 1;
    for (total, sum) in after.totals.iter_mut().zip(sums.unwrap_or([0; TOTALS])) {
        *total = i64::try_from(i128::from(*total) + sum).expect("256 sets stay within 63 bits");
    }
    let mut grand = [0; COLUMNS.len()];
    for (at, total) in after.totals.iter().enumerate() {
        grand[at % COLUMNS.len()] += total;
    }
    Taken { refusal: 0, quarter: after, grand }
}

/// The sums of one set, or nothing if it is left out: refused, not accepted, or
/// with an amount that doesn't fit.
fn sums_of(bundle: &[u8]) -> Option<[i128; TOTALS]> {
    let verdict = judge(bundle);
    if verdict.refusal != 0 || !verdict.board.is_accepted() {
        return None;
    }
    let files = files(bundle).ok()?;
    let read = |number: usize| read_file(number, files[number]).ok();
    let elements: HashMap<String, usize> = read(RESOURCES)?
        .iter()
        .filter_map(|resource| Some((resource.id("ID")?, element_of(resource)?)))
        .collect();
    let mut sums = [0; TOTALS];
    for assignment in read(ASSIGNMENTS)? {
        let element = elements[&assignment.id("ResourceID")?];
        for (column, name) in COLUMNS.iter().enumerate() {
            if let Some(number) = assignment.decimal(name) {
                sums[element * COLUMNS.len() + column] += amount(number)?;
            }
        }
    }
    Some(sums)
}

fn element_of(resource: &Record) -> Option<usize> {
    let id = resource.id("ElementOfCostID")?;
    ELEMENTS.iter().position(|element| *element == id)
}

/// The number in ten-thousandths, worked out as a fraction; nothing if that
/// isn't whole or is too large.
pub fn amount(number: Number) -> Option<i128> {
    let power = 10i128.pow(number.p.unsigned_abs());
    let (above, below) = match number.p {
        0..=i32::MAX => (i128::from(number.c) * power, 1),
        _ => (i128::from(number.c), power),
    };
    let scaled = above * 10_000;
    if scaled % below != 0 || scaled / below > LARGEST_AMOUNT {
        return None;
    }
    Some(if number.minus { -(scaled / below) } else { scaled / below })
}
