//! Long files: one record too many, records and lines of high numbers, columns
//! far along a line, and bundles as long as they may be.

use super::Cases;
use crate::bundle::{FILES, LARGEST_BUNDLE};
use crate::compare::draft::Draft;
use crate::compare::gate::cases::short_record;
use crate::compare::gate::sample::{accepted, Set};
use crate::compare::gate::set_draft::SetDraft;
use crate::print::LARGEST_INPUT;
use crate::table::{is_singleton, MOST_RECORDS};

pub(super) fn add(cases: &mut Cases) {
    add_too_many(cases);
    add_late_records(cases);
    add_late_places(cases);
    add_full(cases);
}

/// One record more than a file may have. So many of file 10 are longer than a
/// bundle may be.
fn add_too_many(cases: &mut Cases) {
    for table in (1..FILES).filter(|table| !is_singleton(*table) && *table != 10) {
        let records = vec![short_record(table, 1); MOST_RECORDS + 1];
        cases.in_either(SetDraft::empty().with_records(table, &records).bundle());
    }
    // Its place on a line of its own, and behind each sort of line and character.
    let record = |name: &str| format!("{{\"ID\":\"A\",\"Name\":\"{name}\"}}");
    for between in [",", ",\n", ",\r\n", ", \r"] {
        for name in ["A", "\u{f6}\u{20ac}\u{1f600}"] {
            let all = vec![record(name); MOST_RECORDS + 1].join(between);
            cases.in_either(Set::empty().with(6, &format!("[{all}]")).bundle());
        }
    }
    // Most of them on the first line, the last ones on the next.
    for back in [0, 1] {
        let front = vec![record("\u{f6}"); MOST_RECORDS - back].join(",");
        let rest = vec![record("A"); 1 + back].join(",");
        cases.in_either(Set::empty().with(6, &format!("[{front}\n,{rest}]")).bundle());
    }
}

/// Broken rules and faults at records whose number has up to four digits, with
/// companions that have as many.
fn add_late_records(cases: &mut Cases) {
    for count in [12, 120, 1_200, MOST_RECORDS] {
        let mut calendars: Vec<Draft> = (0..count).map(|number| short_record(6, number)).collect();
        calendars[count - 1] = short_record(6, count - 2);
        let set = SetDraft::empty().with_records(6, &calendars);
        cases.in_either(set.bundle());
        let spoilt = set.with_value(6, count - 1, "Name", Some(b"\"A  B\""));
        cases.in_either(spoilt.bundle());
        let exceptions: Vec<Draft> = (0..count).map(|number| short_record(8, number)).collect();
        let set = SetDraft::empty().with_records(8, &exceptions);
        cases.in_either(set.with_value(8, count - 1, "WorkHours", Some(b"-1")).bundle());
    }
}

/// Lines and columns of up to six digits.
fn add_late_places(cases: &mut Cases) {
    for count in [9, 10, 98, 99, 100, 998, 999, 9_998, 9_999, 99_999] {
        for filling in ["\n", " ", "\r\n"] {
            let front = filling.repeat(count);
            cases.in_either(Set::empty().with(6, &format!("{front}[x")).bundle());
        }
        let wide = "\u{f6}".repeat(count);
        let record = format!("[{{\"ID\":\"A\",\"Comments\":\"{wide}\\u0000\"}}]");
        cases.in_either(Set::empty().with(6, &record).bundle());
    }
}

/// The longest bundles that each program takes, and one byte more for the
/// library; at their end a space, or a letter that no JSON has there.
fn add_full(cases: &mut Cases) {
    let least = accepted().with(19, "[]").bundle().len();
    for length in [LARGEST_INPUT - 1, LARGEST_INPUT, LARGEST_BUNDLE, LARGEST_BUNDLE + 1] {
        let spaces = " ".repeat(length - least - 1);
        for last in [" ", "x"] {
            let bundle = accepted().with(19, &format!("[]{spaces}{last}")).bundle();
            assert_eq!(bundle.len(), length);
            cases.in_both(bundle);
        }
    }
}
