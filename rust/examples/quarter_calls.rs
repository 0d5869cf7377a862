//! Calls each function of the wrapper for the quarter and checks its answer; ends in how many were right.

use knotsaddle::quarter::{Quarter, COLUMNS, SETS, TOTALS};
use knotsaddle::{Refusal, EMPTY_BUNDLE, FILES, WORKSPACE};

struct Count {
    passed: u32,
    failed: u32,
}

impl Count {
    fn expect(&mut self, what: &str, holds: bool) {
        if holds {
            self.passed += 1;
        } else {
            self.failed += 1;
            println!("{what}: not as expected");
        }
    }
}

/// The files of an accepted set with one task and one resource, but for the assignments.
const SET: [(usize, &str); 8] = [
    (0, "IPMDAR_SCHEDULE_PERFORMANCE_DATASET/1.0"),
    (1, r#"{"SecurityMarking":"U","ReportingPeriodEndDate":"2020-01-31"}"#),
    (3, r#"{"StatusDate":"2020-01-31","CurrentStartDate":"2020-01-01","CurrentFinishDate":"2020-12-31","DurationUnitsID":"DAYS"}"#),
    (6, r#"[{"ID":"C","Name":"n"}]"#),
    (7, r#"[{"CalendarID":"C","MondayWorkHours":8}]"#),
    (9, r#"[{"ID":"T","Name":"n","TaskTypeID":"MILESTONE"}]"#),
    (
        10,
        r#"[{"TaskID":"T","CalendarID":"C","CurrentDuration":5,"CurrentStartDate":"2020-01-01",
        "CurrentFinishDate":"2020-01-06","EarlyStartDate":"2020-01-01","EarlyFinishDate":"2020-01-06",
        "LateStartDate":"2020-01-01","LateFinishDate":"2020-01-06","FreeFloatDuration":0,"TotalFloatDuration":0,
        "OnCriticalPath":true,"CalculatedPercentComplete":0,"RemainingDuration":5}]"#,
    ),
    (16, r#"[{"ID":"R","Name":"n","ElementOfCostID":"SUBCONTRACT"}]"#),
];

/// Its bundle with one assignment of these members.
fn bundle_of(members: &str) -> Vec<u8> {
    let assignment = format!(r#"[{{"ResourceID":"R","TaskID":"T"{members}}}]"#);
    let mut bundle = vec![0; EMPTY_BUNDLE];
    bundle[0] = FILES as u8;
    for (file, text) in SET.iter().copied().chain([(19, assignment.as_str())]) {
        let (offset, length) = (bundle.len() as u32, text.len() as u32);
        bundle[4 + 8 * file..8 + 8 * file].copy_from_slice(&offset.to_le_bytes());
        bundle[8 + 8 * file..12 + 8 * file].copy_from_slice(&length.to_le_bytes());
        bundle.extend(text.as_bytes());
    }
    bundle
}

fn takes(count: &mut Count) {
    let mut quarter = Quarter::start();
    let mut totals = [0; TOTALS];
    let mut grand = [0; COLUMNS];
    (totals[18], grand[0]) = (-5, -5);
    let set = bundle_of(r#","Budget_AtCompletion_Dollars":-0.0005"#);
    count.expect("a set that counts", quarter.take(&set) == Ok(grand));
    count.expect("its totals", quarter.totals == totals && quarter.sets == 1 && quarter.left_out() == 0);
    count.expect("an amount that is not whole", quarter.take(&bundle_of(r#","Actual_ToDate_Hours":0.00005"#)) == Ok(grand));
    count.expect("no bundle", quarter.take(&[]) == Ok(grand));
    count.expect("both left out", quarter.left_out() == 2 && quarter.left[..4] == [false, true, true, false]);
    count.expect("the totals stay", quarter.totals == totals && quarter.sets == 3);
    let mut work = vec![7; WORKSPACE];
    let mut other = quarter.clone();
    let lent = other.take_in(&set, &mut work);
    count.expect("a workspace that is lent", lent == quarter.take(&set) && other == quarter);
}

fn refuses(count: &mut Count) {
    let set = bundle_of("");
    let mut full = Quarter { sets: SETS, ..Quarter::start() };
    let before = full.clone();
    count.expect("a 257th set", full.take(&set) == Err(Refusal(10)) && full == before);
    let mut beyond = Quarter::start();
    beyond.totals[7] = -1;
    count.expect("a total of no set", beyond.take(&set) == Err(Refusal(10)));
    let mut work = vec![7; WORKSPACE - 1];
    count.expect("a short workspace", full.take_in(&set, &mut work) == Err(Refusal(14)));
}

pub fn main() {
    let mut count = Count { passed: 0, failed: 0 };
    takes(&mut count);
    refuses(&mut count);
    println!("{} passed, {} failed", count.passed, count.failed);
}
