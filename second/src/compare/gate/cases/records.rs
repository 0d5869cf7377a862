//! Rules of single records (65, 66, 68 to 72, 75 to 77): every mix of what
//! their fields may hold.

use super::Cases;
use crate::compare::gate::set_draft::{places, SetDraft};
use crate::compare::padded::{padded_forms, ZEROS};

/// What a field may hold; nothing where it is absent.
type Choices = &'static [Option<&'static [u8]>];

pub(super) fn add(cases: &mut Cases) {
    add_mixes(cases, 1, &[("ContractorIDCodeTypeID", CODE_TYPES), ("ContractorIDCode", STRINGS)]);
    add_mixes(cases, 1, &[("EVMSAccepted", BOOLEANS), ("EVMSAcceptanceDate", DATES)]);
    add_hours(cases);
    add_padded_hours(cases);
    add_mixes(cases, 8, &[("WorkHours", HOURS)]);
    add_mixes(cases, 9, &[("TaskTypeID", TASK_TYPES), ("TaskPlanningLevelID", LEVELS)]);
    add_mixes(
        cases,
        9,
        &[("EarnedValueTechniqueID", TECHNIQUES), ("OtherEarnedValueTechnique", STRINGS)],
    );
    add_mixes(
        cases,
        10,
        &[
            ("BaselineDuration", DURATIONS),
            ("BaselineStartDate", DATES),
            ("BaselineFinishDate", DATES),
            ("StartVarianceDuration", DURATIONS),
            ("FinishVarianceDuration", DURATIONS),
        ],
    );
    add_mixes(
        cases,
        13,
        &[
            ("ConstraintTypeID", CONSTRAINTS),
            ("OtherConstraintType", STRINGS),
            ("ConstraintDate", DATES),
        ],
    );
}

/// Every mix of the choices, each at the first, a middle or the last of three
/// records, in turn.
fn add_mixes(cases: &mut Cases, table: usize, fields: &[(&str, Choices)]) {
    let base = few_records(cases, table);
    let places = places(base.records(table).len());
    let count: usize = fields.iter().map(|(_, choices)| choices.len()).product();
    for mix in 0..count {
        // The places come around with another mix in each turn.
        let at = places[(mix + mix / places.len()) % places.len()];
        let mut set = base.clone();
        let mut rest = mix;
        for (name, choices) in fields {
            set = set.with_value(table, at, name, choices[rest % choices.len()]);
            rest /= choices.len();
        }
        cases.judge_set(&set);
    }
}

/// The table alone, with three records at most.
fn few_records(cases: &Cases, table: usize) -> SetDraft {
    let mut base = cases.base.only(&[table]);
    base.records_mut(table).truncate(3);
    base
}

const DAYS: [&str; 7] = [
    "SundayWorkHours",
    "MondayWorkHours",
    "TuesdayWorkHours",
    "WednesdayWorkHours",
    "ThursdayWorkHours",
    "FridayWorkHours",
    "SaturdayWorkHours",
];

/// Each day by itself, beside one other, and all seven at random.
fn add_hours(cases: &mut Cases) {
    let base = few_records(cases, 7);
    for day in DAYS {
        for hours in HOURS {
            for beside in [None, Some(&b"0"[..]), Some(b"4"), Some(b"-4")] {
                add_two_days(cases, &base, (day, *hours), beside);
            }
        }
    }
    for _ in 0..400 {
        let at = cases.random.below(3);
        let mut set = base.clone();
        for day in DAYS {
            set = set.with_value(7, at, day, cases.random.pick(HOURS));
        }
        cases.judge_set(&set);
    }
}

fn add_two_days(
    cases: &mut Cases,
    base: &SetDraft,
    (day, hours): (&str, Option<&[u8]>),
    beside: Option<&[u8]>,
) {
    let at = cases.random.below(3);
    let other = cases.random.pick(&DAYS);
    let mut set = base.clone();
    for name in DAYS {
        set = set.with_value(7, at, name, None);
    }
    set = set.with_value(7, at, other, beside).with_value(7, at, day, hours);
    cases.judge_set(&set);
}

/// Hours above, below and at zero, and such as no file has, with many zeros.
fn add_padded_hours(cases: &mut Cases) {
    for (digits, p) in [("8", 0), ("1", -15), ("999999999999999", 15), ("1", -16), ("1", 16)] {
        for form in padded_forms(digits, p) {
            add_hours_of_each_sign(cases, &form);
        }
    }
    for zero in ZEROS {
        add_hours_of_each_sign(cases, zero);
    }
}

/// As the only hours of a workshift, and as those of an exception.
fn add_hours_of_each_sign(cases: &mut Cases, size: &str) {
    let shifts = few_records(cases, 7);
    let exceptions = few_records(cases, 8);
    for sign in ["", "-"] {
        let hours = format!("{sign}{size}");
        let hours = Some(hours.as_bytes());
        let day = cases.random.pick(&DAYS);
        add_two_days(cases, &shifts, (day, hours), None);
        let at = cases.random.below(3);
        cases.judge_set(&exceptions.with_value(8, at, "WorkHours", hours));
    }
}

/// The last two make their file unreadable: they hold white characters.
const STRINGS: Choices = &[
    None,
    Some(b"null"),
    Some(b"\"\""),
    Some(b"\"x\""),
    Some(b"\"\xE2\x80\x8B\""),
    Some(b"\"\xC2\xA0\""),
    Some(b"\"x\\u2028y\""),
];
const BOOLEANS: Choices = &[None, Some(b"null"), Some(b"true"), Some(b"false")];
const DATES: Choices = &[None, Some(b"null"), Some(b"\"2020-01-01\"")];
const DURATIONS: Choices = &[None, Some(b"null"), Some(b"0")];

const CODE_TYPES: Choices = &[
    None,
    Some(b"null"),
    Some(b"\"\""),
    Some(b"\"DUNS\""),
    Some(b"\"duns_Plus_4\""),
    Some(b"\"x\""),
];

const HOURS: Choices = &[
    None,
    Some(b"null"),
    Some(b"0"),
    Some(b"-0"),
    Some(b"-0.0e15"),
    Some(b"0E-15"),
    Some(b"8"),
    Some(b"-8"),
    Some(b"1e-15"),
    Some(b"-1e-15"),
    Some(b"0.000000000000001"),
    Some(b"-0.000000000000001"),
    Some(b"999999999999999e15"),
    Some(b"-999999999999999e15"),
    Some(b"-0.50"),
    Some(b"10e-1"),
    Some(b"8.0000000000000000"),
    Some(b"-8.0000000000000000"),
    Some(b"1000000000000000"),
    Some(b"-1000000000000000"),
    Some(b"0e99"),
    Some(b"-0.0000000000000000e-99"),
];

const TASK_TYPES: Choices = &[
    None,
    Some(b"null"),
    Some(b"\"\""),
    Some(b"\"ACTIVITY\""),
    Some(b"\"activity\""),
    Some(b"\"Activit\\u0079\""),
    Some(b"\"ACTIVITY1\""),
    Some(b"\"ACTIVIT\""),
    Some(b"\"MILESTONE\""),
    Some(b"\"SUMMARY\""),
    Some(b"\"HAMMOCK\""),
];

const LEVELS: Choices = &[
    None,
    Some(b"null"),
    Some(b"\"\""),
    Some(b"\"ACTIVITY\""),
    Some(b"\"Work_Package\""),
    Some(b"\"x\""),
];

const TECHNIQUES: Choices = &[
    None,
    Some(b"null"),
    Some(b"\"\""),
    Some(b"\"APPORTIONED_EFFORT\""),
    Some(b"\"LEVEL_OF_EFFORT\""),
    Some(b"\"MILESTONE\""),
    Some(b"\"FIXED_0_100\""),
    Some(b"\"FIXED_100_0\""),
    Some(b"\"FIXED_X_Y\""),
    Some(b"\"fixed_x_y\""),
    Some(b"\"Fixed\\u005fX_y\""),
    Some(b"\"FIXED_X\""),
    Some(b"\"FIXED_X_Y_\""),
    Some(b"\"PERCENT_COMPLETE\""),
    Some(b"\"STANDARDS\""),
    Some(b"\"UNITS\""),
    Some(b"\"OTHER_DISCRETE\""),
    Some(b"\"other_Discrete\""),
    Some(b"\"OTHER\""),
    Some(b"\"x\""),
];

const CONSTRAINTS: Choices = &[
    Some(b"\"START_NO_EARLIER_THAN\""),
    Some(b"\"FINISH_NO_EARLIER_THAN\""),
    Some(b"\"START_NO_LATER_THAN\""),
    Some(b"\"FINISH_NO_LATER_THAN\""),
    Some(b"\"MUST_START_ON\""),
    Some(b"\"MUST_FINISH_ON\""),
    Some(b"\"AS_LATE_AS_POSSIBLE\""),
    Some(b"\"as_late_as_Possible\""),
    Some(b"\"AS_LATE_AS_POSSIBL\""),
    Some(b"\"SHOULD_START_NO_LATER_THAN\""),
    Some(b"\"SHOULD_FINISH_NO_LATER_THAN\""),
    Some(b"\"SHOULD_START_ON\""),
    Some(b"\"SHOULD_FINISH_ON\""),
    Some(b"\"RESOURCE_LEVELING_START_DELAY\""),
    Some(b"\"RESOURCE_LEVELING_FINISH_DELAY\""),
    Some(b"\"DEADLINE\""),
    Some(b"\"OTHER\""),
    Some(b"\"oTHEr\""),
    Some(b"\"\\u004fther\""),
    Some(b"\"OTHER_\""),
    Some(b"\"x\""),
    Some(b"null"),
];
