//! The cases of the quarter.

use std::sync::Arc;

use super::case::QuarterCase;
use super::sample::{set_of, small_set, Assigned};
use crate::bundle::FILES;
use crate::compare::faulty::faulty_files;
use crate::compare::gate::case::Bytes;
use crate::compare::gate::cases::{broken_sets, random_set, refused_bundles};
use crate::compare::gate::sample::Set;
use crate::compare::gate::set_draft::SetDraft;
use crate::compare::gate::styles::restyled;
use crate::compare::random::Random;
use crate::quarter::{take, Quarter, COLUMNS, ELEMENTS, LARGEST_OF_A_SET, SETS, TOTALS};

/// Amounts that are counted.
const FITTING: [&str; 26] = [
    "0",
    "-0",
    "0e99",
    "1",
    "-1",
    "0.0001",
    "-0.0001",
    "1e-4",
    "1E-4",
    "10e-5",
    "0.00010",
    "-100e-6",
    "100000000",
    "-100000000",
    "1e8",
    "-1E+8",
    "100000000.0000",
    "99999999.9999",
    "-99999999.9999",
    "1000000000000e-4",
    "8.0000000000000000",
    "-12345678.9012",
    "0.5",
    "0.00000000000000100e11",
    "-7.25e2",
    "null",
];

/// Numbers that are no amounts; the last three aren't even Decimals.
const OTHERS: [&str; 20] = [
    "0.00005",
    "-0.00005",
    "1e-5",
    "-1E-15",
    "0.00001",
    "1.00005",
    "99999999.99999",
    "-99999999.99995",
    "100000000.0001",
    "-100000000.0001",
    "1000000000001e-4",
    "-1000000000001e-4",
    "100000001",
    "-1e9",
    "1e15",
    "999999999999999",
    "-999999999999999e15",
    "1e16",
    "1e-16",
    "1234567890123456",
];

/// The same seed always gives the same cases in the same order.
pub fn all_cases(seed: u64) -> Vec<QuarterCase> {
    let mut cases = Cases { list: Vec::new(), random: Random::new(seed) };
    add_amounts(&mut cases);
    add_each_total(&mut cases);
    add_left_out(&mut cases);
    add_handed(&mut cases);
    add_styles(&mut cases);
    add_runs(&mut cases);
    add_largest(&mut cases);
    cases.list
}

struct Cases {
    list: Vec<QuarterCase>,
    random: Random,
}

impl Cases {
    fn push(&mut self, quarter: &Quarter, bundle: &Bytes) {
        let quarter = Box::new(quarter.clone());
        self.list.push(QuarterCase { quarter, bundle: bundle.clone() });
    }

    /// Taken into some quarter that isn't refused.
    fn take(&mut self, set: &Set) {
        let quarter = self.some_quarter();
        self.push(&quarter, &Arc::new(set.bundle()));
    }

    /// Any sets so far, totals within their limits, any places left out.
    fn some_quarter(&mut self) -> Quarter {
        let mut quarter = Quarter::start();
        if self.random.below(3) == 0 {
            return quarter;
        }
        quarter.sets = self.random.below(SETS);
        let most = LARGEST_OF_A_SET as i64 * quarter.sets as i64;
        for total in &mut quarter.totals {
            let size = (self.random.next_number() >> 1) as i64 % (most + 1);
            *total = self.random.pick(&[size, -size, size % 100_000, 0]);
        }
        for (place, left) in quarter.left.iter_mut().enumerate() {
            *left = place < quarter.sets && self.random.below(4) == 0;
        }
        quarter
    }

    fn any_amount(&mut self) -> String {
        match self.random.below(3) {
            0 => String::new(),
            1 => self.random.pick(&FITTING).to_string(),
            _ => {
                let sign = self.random.pick(&["", "-"]);
                let digits = 1 + self.random.below(12) as u32;
                let whole = self.random.next_number() % 10u64.pow(digits);
                format!("{sign}{whole}e-4")
            }
        }
    }
}

/// Each amount in each column, alone and beside others.
fn add_amounts(cases: &mut Cases) {
    for (at, amount) in FITTING.iter().chain(&OTHERS).enumerate() {
        for column in 0..6 {
            let element = (at + column) % 4;
            cases.take(&small_set(&[Assigned::one(element, column, amount)]));
            let mut others: Vec<Assigned> = (0..4)
                .map(|element| Assigned::one(element, (column + element) % 6, "2.5"))
                .collect();
            others[element].amounts[column] = amount.to_string();
            cases.take(&small_set(&others));
        }
    }
    let percent = r#","PhysicalPercentComplete":0.00005"#.to_string();
    let assigned = Assigned { more: percent, ..Assigned::one(1, 3, "7") };
    cases.take(&small_set(&[assigned]));
    cases.take(&small_set(&[]));
    cases.take(&small_set(&[]).without(19).without(16));
}

/// Each element and column up and down.
fn add_each_total(cases: &mut Cases) {
    for element in 0..4 {
        for column in 0..6 {
            for amount in ["3.0003", "-3.0003", "100000000", "-100000000"] {
                cases.take(&small_set(&[Assigned::one(element, column, amount)]));
            }
        }
    }
}

/// Refused, and each mark that doesn't hold.
fn add_left_out(cases: &mut Cases) {
    let set = small_set(&[Assigned::one(0, 0, "5"), Assigned::one(2, 4, "-5")]);
    let mut bundles = refused_bundles(&set.bundle());
    bundles.push(vec![0; crate::compare::gate::case::LONGEST]);
    for bundle in bundles {
        let quarter = cases.some_quarter();
        cases.push(&quarter, &Arc::new(bundle));
    }
    let base = SetDraft::accepted();
    cases.take(&Set { files: files_of(&base) });
    for mark in 20..=80 {
        for set in broken_sets(mark, &base) {
            cases.take(&Set { files: files_of(&set) });
        }
    }
    for number in 0..FILES {
        cases.take(&set.with(number, ""));
        cases.take(&set.without(number));
        if number > 0 {
            for faulty in faulty_files(number, 1) {
                cases.take(&set.with_bytes(number, &faulty.contents));
            }
        }
    }
}

fn files_of(set: &SetDraft) -> Vec<Option<Vec<u8>>> {
    (0..FILES).map(|number| set.bytes(number)).collect()
}

/// Handed states of any kind: each total at its limit and one beyond, places
/// left out that haven't come yet, more sets than there can be.
fn add_handed(cases: &mut Cases) {
    let one = Arc::new(small_set(&[Assigned::one(1, 1, "-1")]).bundle());
    let none: Bytes = Arc::new(Vec::new());
    for sets in [0, 1, 2, 255] {
        let most = LARGEST_OF_A_SET as i64 * sets as i64;
        for total in 0..TOTALS {
            for handed in [most, -most, most + 1, -most - 1] {
                let mut quarter = Quarter { sets, ..Quarter::start() };
                quarter.totals[total] = handed;
                let bundle = if total % 5 == 4 { &none } else { &one };
                cases.push(&quarter, bundle);
            }
        }
    }
    for sets in [0, 1, 200, 255, 256, 257, 1000, 1 << 31, u32::MAX as usize] {
        for handed in [0, 1, i64::MAX, i64::MIN, i64::MIN + 1, LARGEST_OF_A_SET as i64] {
            let mut quarter = Quarter { sets, totals: [handed; TOTALS], ..Quarter::start() };
            cases.push(&quarter, &one);
            quarter.left = [true; SETS];
            cases.push(&quarter, &one);
            cases.push(&quarter, &none);
        }
    }
    for _ in 0..300 {
        let mut quarter = cases.some_quarter();
        for left in &mut quarter.left {
            *left = cases.random.below(2) == 0;
        }
        let bundle = if cases.random.below(2) == 0 { &one } else { &none };
        cases.push(&quarter, bundle);
    }
}

/// IDs in other writings, members in any order, sets as they come.
fn add_styles(cases: &mut Cases) {
    let base = SetDraft::accepted();
    for round in 0..300 {
        let mut set = base.clone();
        for record in set.records_mut(19) {
            for column in COLUMNS {
                let amount = cases.any_amount();
                let value = Some(amount.as_bytes()).filter(|amount| !amount.is_empty());
                *record = record.with_choice(column, value);
            }
        }
        let set = restyled(&set, &mut cases.random);
        cases.take(&Set { files: files_of(&set) });
        if round % 3 == 0 {
            let set = random_set(&base, round, &mut cases.random);
            cases.take(&Set { files: files_of(&set) });
        }
    }
    for (id, element) in [
        (r"r\u0030", "labor"),
        (r"\u0052\u0030", r"\u004cABOR"),
        ("R0", "Material"),
        ("r0", "other_Direct_COSTS"),
        (r"R\u0030", "SUB\\u0063ontract"),
    ] {
        let resource = format!(r#"[{{"ElementOfCostID":"{element}","Name":"n","ID":"{id}"}}]"#);
        let set = small_set(&[Assigned::one(0, 2, "0.5")]).with(16, &resource);
        cases.take(&set);
    }
}

/// 256 sets and more, each taken into what the one before left.
fn add_runs(cases: &mut Cases) {
    for run in 0..4 {
        let mut quarter = Quarter::start();
        for place in 0..SETS + 2 {
            let bundle = Arc::new(next_set(cases, run, place));
            cases.push(&quarter, &bundle);
            quarter = take(&quarter, &bundle).quarter;
        }
        assert_eq!(quarter.sets, SETS);
    }
}

/// In the first run all are counted, in the second none, in the others some.
fn next_set(cases: &mut Cases, run: usize, place: usize) -> Vec<u8> {
    let mut assigned = Vec::new();
    for resource in 0..6 {
        for task in 0..2 {
            let amounts = [(); 6].map(|()| cases.any_amount());
            assigned.push(Assigned { resource, task, amounts, more: String::new() });
        }
    }
    let left = match run {
        0 => false,
        1 => true,
        _ => cases.random.below(3) == 0 || place == 1,
    };
    let set = set_of(6, 2, &assigned);
    match cases.random.below(4) {
        _ if !left => set.bundle(),
        0 => Vec::new(),
        1 => set.without(1).bundle(),
        2 => set.with(19, r#"[{"ResourceID":"x","TaskID":"T0"}]"#).bundle(),
        _ => {
            assigned[5].amounts[place % 6] = cases.random.pick(&OTHERS).to_string();
            set_of(6, 2, &assigned).bundle()
        }
    }
}

/// 4,096 assignments of the largest amounts in two columns, and one that is too
/// many. They take a program its time, so there are few.
fn add_largest(cases: &mut Cases) {
    let most = LARGEST_OF_A_SET as i64;
    for (amount, element, columns, end) in [("1e8", 0, [0, 5], most), ("-1e8", 3, [2, 3], -most)] {
        let all = assigned(4096, amount, &columns);
        // All of one element, so that its totals come to the end of their limit.
        let bundle = Arc::new(with_one_element(set_of(256, 16, &all), element).bundle());
        let quarter = Quarter { sets: 255, totals: [255 * end; TOTALS], ..Quarter::start() };
        cases.push(&quarter, &bundle);
    }
    cases.take(&set_of(257, 16, &assigned(4097, "", &[])));
}

/// So many assignments, of 16 to each resource, with this amount in these
/// columns.
fn assigned(count: usize, amount: &str, columns: &[usize]) -> Vec<Assigned> {
    let mut amounts: [String; 6] = Default::default();
    for column in columns {
        amounts[*column] = amount.to_string();
    }
    let pair = |at: usize| Assigned {
        resource: at / 16,
        task: at % 16,
        amounts: amounts.clone(),
        more: String::new(),
    };
    (0..count).map(pair).collect()
}

fn with_one_element(set: Set, element: usize) -> Set {
    let resources = set.files[16].clone().unwrap_or_default();
    let mut text = String::from_utf8(resources).expect("the sample is text");
    for other in ELEMENTS {
        text = text.replace(&other.to_uppercase(), ELEMENTS[element]);
    }
    set.with(16, &text)
}
