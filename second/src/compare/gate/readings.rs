//! The readings of order 6: sentences that can be read in two ways, each with a
//! small case and the answer that is held to.

use super::sample::{schedule, Set};

pub struct Reading {
    pub name: &'static str,
    pub bundle: Vec<u8>,
    pub mark: usize,
    /// In the words of the readings.
    pub answer: &'static str,
}

const ONE_CALENDAR: &str = r#"[{"ID":"A","Name":"n"}]"#;
const UNDATED: &str = r#"[{"TaskID":"T","ConstraintTypeID":"DEADLINE","ConstraintDate":null}]"#;
const EMPTY_PARENTS: &str =
    r#"[{"Level":1,"TaskID":"A","ParentTaskID":""},{"Level":2,"TaskID":"B","ParentTaskID":""}]"#;
const TWO_SHIFTS: &str = r#"[{"CalendarID":"c","MondayWorkHours":8},{"MondayWorkHours":8,"Ordinal":0.0,"CalendarID":"\u0043"}]"#;
const CODE_ALONE: &str =
    r#"{"SecurityMarking":"U","ReportingPeriodEndDate":"2026-01-01","ContractorIDCode":"x"}"#;
const TWO_BELOW: &str = r#"[{"CalendarID":"c","MondayWorkHours":-2,"SundayWorkHours":-1e0}]"#;
const NO_SUNDAY: &str = r#"[{"CalendarID":"c","MondayWorkHours":-2}]"#;
const LEVEL_LEFT_OUT: &str =
    r#"[{"Level":1,"TaskID":"A"},{"Level":3,"TaskID":"B","ParentTaskID":"a"}]"#;
const FILE_TYPE: &str = "IPMDAR_SCHEDULE_PERFORMANCE_DATASET/1.0";

fn only(file: usize, contents: &str) -> Set {
    Set::empty().with(file, contents)
}

/// Of the five only BaselineStartDate and BaselineDuration are given.
fn half_a_baseline() -> Set {
    let given = r#","BaselineStartDate":"2020-01-01","BaselineDuration":5"#;
    only(10, &format!("[{}]", schedule("T", "C", given)))
}

#[rustfmt::skip]
pub fn readings() -> Vec<Reading> {
    let reading = |name, set: Set, mark, answer| Reading { name, bundle: set.bundle(), mark, answer };
    vec![
        reading("6.1", only(6, ONE_CALENDAR), 67,
            r#"rule 67 file 6 record 1 companion 0 field ID at 171 length 3 value "A" searched 0"#),
        reading("6.1b", only(6, ONE_CALENDAR).with(0, FILE_TYPE), 67,
            r#"rule 67 file 6 record 1 companion 0 field ID at 210 length 3 value "A" searched 0"#),
        reading("6.2", only(13, UNDATED), 77,
            "rule 77 file 13 record 1 companion 0 field ConstraintDate at 0 length 0 value empty searched 0"),
        reading("6.2b", only(15, EMPTY_PARENTS), 79,
            "rule 79 file 15 record 2 companion 1 field ParentTaskID at 0 length 0 value empty searched 0"),
        reading("6.3", only(7, TWO_SHIFTS), 23,
            r#"rule 23 file 7 record 2 companion 1 field CalendarID at 252 length 8 value "\u0043" searched 0"#),
        reading("6.4", only(7, TWO_SHIFTS), 49,
            r#"rule 49 file 7 record 1 companion 0 field CalendarID at 179 length 3 value "c" searched 6"#),
        reading("6.5", only(1, CODE_ALONE), 65,
            r#"rule 65 file 1 record 1 companion 0 field ContractorIDCode at 244 length 3 value "x" searched 0"#),
        reading("6.6", only(7, TWO_BELOW), 68,
            "rule 68 file 7 record 1 companion 0 field SundayWorkHours at 222 length 4 value -1e0 searched 0"),
        reading("6.7", only(7, NO_SUNDAY), 69,
            "rule 69 file 7 record 1 companion 0 field SundayWorkHours at 0 length 0 value empty searched 0"),
        reading("6.8", half_a_baseline(), 75,
            "rule 75 file 10 record 1 companion 0 field BaselineFinishDate at 0 length 0 value empty searched 0"),
        reading("6.9", only(15, LEVEL_LEFT_OUT), 78,
            "rule 78 file 15 record 2 companion 0 field Level at 199 length 1 value 3 searched 0"),
        reading("6.10", only(15, LEVEL_LEFT_OUT), 80,
            r#"rule 80 file 15 record 2 companion 1 field ParentTaskID at 229 length 3 value "a" searched 0"#),
        reading("6.11", only(6, r#"[{"id":1}]"#), 6, "file 13 2 1"),
        reading("6.11, holding", only(6, ONE_CALENDAR), 6, "holds"),
        reading("6.12", only(4, "[").with(9, "[").with(15, "["), 80, "not judged 9"),
        reading("6.12b", Set::empty(), 65, "not judged 1"),
        Reading { name: "6.13", bundle: Vec::new(), mark: 99, answer: "refused 1" },
        reading("6.13b", Set::empty(), 81, "refused 7"),
    ]
}

/// What is printed of a bundle, or of one of its marks. Order 6 leaves the print
/// open; of each line the readings ask for what the sentence has in it.
pub struct Printed {
    pub name: &'static str,
    pub bundle: Vec<u8>,
    pub lines: &'static [&'static str],
    pub whole: bool,
}

#[rustfmt::skip]
pub fn printed() -> Vec<Printed> {
    let line = |name, set: Set, lines| Printed { name, bundle: set.bundle(), lines, whole: false };
    vec![
        line("6.14", only(7, TWO_SHIFTS),
            &[r#"23 1 2 1 CalendarWorkshifts record 2: CalendarID "\u0043" stands with the same Ordinal in record 1 already; without one it counts as 0. Give each workshift of a calendar an Ordinal of its own."#]),
        line("6.14b", only(7, TWO_SHIFTS),
            &[r#"49 1 1 0 CalendarWorkshifts record 1: CalendarID "c" is not the ID of any record in Calendars. Add that calendar, or name one that is there."#]),
        line("6.14c", only(13, UNDATED),
            &["77 1 1 0 TaskConstraints record 1: ConstraintDate is not given. Give the date; only the types AS_LATE_AS_POSSIBLE and OTHER may go without one."]),
        Printed { name: "6.14d", bundle: Set::empty().bundle(), whole: true, lines: &[
            "marks 81",
            "0 21 0 0 FileType.txt is missing. Add it; a set must have it.",
            "1 21 0 0 DatasetMetadata.json is missing. Add it; a set must have it.",
            "3 21 0 0 ProjectScheduleData.json is missing. Add it; a set must have it.",
            "36 2 0 0 Not judged, since DatasetMetadata.json does not hold. Mend that file first.",
            "37 2 0 0 Not judged, since ProjectScheduleData.json does not hold. Mend that file first.",
            "65 2 0 0 Not judged, since DatasetMetadata.json does not hold. Mend that file first.",
            "66 2 0 0 Not judged, since DatasetMetadata.json does not hold. Mend that file first.",
            "refused 7",
        ] },
    ]
}
