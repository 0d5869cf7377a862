//! The readings of order 11, each with its case, and sums worked out by hand.

use crate::sample::{accepted, Set};
use second::bundle::LARGEST_BUNDLE;
use second::compare::quarter::sample::{small_set, Assigned};
use second::quarter::{take, Quarter, Taken, SETS, TOTALS};

const MOST: i64 = 4_096_000_000_000_000;

fn taken(quarter: &Quarter, set: &Set) -> Taken {
    take(quarter, &set.bundle())
}

fn of_amount(amount: &str) -> Taken {
    taken(&Quarter::start(), &small_set(&[Assigned::one(0, 0, amount)]))
}

fn with_total(sets: usize, total: i64) -> Quarter {
    let mut quarter = Quarter { sets, ..Quarter::start() };
    quarter.totals[7] = total;
    quarter
}

#[test]
fn reading_1_totals_are_in_ten_thousandths() {
    for (amount, total) in [
        ("100000000", 1_000_000_000_000),
        ("-100000000", -1_000_000_000_000),
        ("1e-4", 1),
        ("8.0000000000000000", 80_000),
        ("0e99", 0),
        ("-0", 0),
        ("12345678.9012", 123_456_789_012),
        ("null", 0),
    ] {
        let after = of_amount(amount);
        assert_eq!((after.refusal, after.quarter.totals[0]), (0, total), "{amount}");
        assert_eq!(after.grand, [total, 0, 0, 0, 0, 0]);
        assert_eq!((after.quarter.sets, after.quarter.left_out()), (1, 0));
    }
    for amount in ["100000000.0001", "-100000000.0001", "0.00005", "1e-5", "1e9", "1e16"] {
        let after = of_amount(amount);
        assert_eq!((after.refusal, after.quarter.totals), (0, [0; TOTALS]), "{amount}");
        assert!(after.quarter.left[0]);
    }
}

#[test]
fn reading_2_sets_counted_are_those_before() {
    let set = small_set(&[]);
    assert_eq!(taken(&with_total(0, 1), &set).refusal, 10);
    assert_eq!(taken(&with_total(0, -1), &set).refusal, 10);
    let mut one_left = with_total(1, MOST);
    one_left.left[0] = true;
    assert_eq!(taken(&one_left, &set).refusal, 0);
    one_left.totals[7] += 1;
    assert_eq!(taken(&one_left, &set).refusal, 10);
    assert_eq!(taken(&with_total(1, i64::MIN), &set).refusal, 10);
    assert_eq!(taken(&with_total(255, -255 * MOST), &set).refusal, 0);
}

#[test]
fn reading_3_only_ten_refuses_and_is_tested_first() {
    let full = Quarter { sets: SETS, ..Quarter::start() };
    let refused = take(&full, b"");
    assert_eq!((refused.refusal, refused.quarter), (10, full));
    assert_eq!(refused.grand, [0; 6]);
    let first = take(&Quarter::start(), b"");
    assert_eq!((first.refusal, first.quarter.sets, first.quarter.left_out()), (0, 1, 1));
    assert!(first.quarter.left[0]);
    for bundle in [vec![0; LARGEST_BUNDLE + 1], vec![0; 164], vec![20; 164]] {
        assert_eq!(take(&Quarter::start(), &bundle).quarter.left_out(), 1);
    }
}

#[test]
fn reading_4_places_count_the_sets_so_far() {
    let mut quarter = Quarter::start();
    for place in 0..SETS {
        let set = small_set(&[Assigned::one(1, 5, "1")]);
        let after = if place % 3 == 0 { take(&quarter, b"x") } else { taken(&quarter, &set) };
        assert_eq!((after.refusal, after.quarter.left[place]), (0, place % 3 == 0));
        quarter = after.quarter;
    }
    assert_eq!((quarter.sets, quarter.left_out()), (256, 86));
    assert_eq!(quarter.totals[6 + 5], 170 * 10_000);
    assert_eq!(take(&quarter, b"x").refusal, 10);
}

#[test]
fn reading_5_elements_and_columns_are_in_order() {
    for element in 0..4 {
        for column in 0..6 {
            let set = small_set(&[Assigned::one(element, column, "0.0007")]);
            let after = taken(&Quarter::start(), &set);
            let mut totals = [0; TOTALS];
            totals[6 * element + column] = 7;
            assert_eq!(after.quarter.totals, totals);
        }
    }
    let more = r#","PhysicalPercentComplete":0.00005"#.to_string();
    let set = small_set(&[Assigned { more, ..Assigned::one(2, 0, "1") }]);
    assert_eq!(taken(&Quarter::start(), &set).quarter.totals[12], 10_000);
    // One mark that doesn't hold leaves the set out.
    let set = small_set(&[Assigned::one(2, 0, "1")]);
    assert_eq!(taken(&Quarter::start(), &set.with(4, "[{}]")).quarter.left_out(), 1);
}

#[test]
fn reading_6_flags_are_handed_as_they_are() {
    let mut quarter = Quarter { sets: 3, left: [true; SETS], ..Quarter::start() };
    let after = taken(&quarter, &small_set(&[]));
    // three of the four sets that came; the flags behind them count for nothing
    assert_eq!((after.refusal, after.quarter.left_out()), (0, 3));
    quarter.left[3] = false;
    assert_eq!(after.quarter.left, quarter.left);
}

#[test]
fn reading_7_more_sets_than_there_can_be() {
    for sets in [256, 257, u32::MAX as usize] {
        let quarter = Quarter { sets, ..Quarter::start() };
        let after = taken(&quarter, &small_set(&[]));
        assert_eq!((after.refusal, after.quarter), (10, quarter));
    }
}

#[test]
fn the_sample_by_hand() {
    let after = taken(&Quarter::start(), &accepted());
    let mut totals = [0; TOTALS];
    // 40 hours of budget for labor, -1,500 dollars spent on a subcontract.
    totals[1] = 400_000;
    totals[18 + 4] = -15_000_000;
    assert_eq!(after.quarter.totals, totals);
    assert_eq!(after.grand, [0, 400_000, 0, 0, -15_000_000, 0]);
    let twice = taken(&after.quarter, &accepted());
    assert_eq!(twice.quarter.totals, totals.map(|total| 2 * total));
}

/// One amount that doesn't fit leaves the whole set out.
#[test]
fn a_set_is_left_out_whole() {
    let set = small_set(&[Assigned::one(0, 0, "5"), Assigned::one(1, 3, "0.00005")]);
    let after = taken(&with_total(9, -77), &set);
    assert_eq!(after.quarter.totals, with_total(9, -77).totals);
    assert_eq!(after.grand, [0, -77, 0, 0, 0, 0]);
    assert!(after.quarter.left[9]);
}
