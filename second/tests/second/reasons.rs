//! Order 6: the reason beside a mark.

use crate::sample::{accepted, schedule, Set};
use second::board::{Mark, HOLDS};
use second::bundle::file_part;
use second::compare::gate::readings::{printed, readings};
use second::fields::{fields_of, FILE_NAMES};
use second::gate::judge;
use second::print::reasons;
use second::reason::{reason, Reason, Shown};
use second::rules::files_read;

/// In the words of the readings.
fn told(bundle: &[u8], mark: usize) -> String {
    let (shown, searched) = match reason(bundle, mark) {
        Reason::Refused(refusal) => return format!("refused {refusal}"),
        Reason::Holds => return "holds".to_string(),
        Reason::NotJudged { file } => return format!("not judged {file}"),
        Reason::OwnMark(Mark { kind, place, companion }) => {
            return format!("file {kind} {place} {companion}")
        }
        Reason::Broken(shown) => (shown, 0),
        Reason::Missing { shown, searched } => (shown, searched),
    };
    let Shown { file, record, companion, field, start, length } = shown;
    let name = fields_of(file).nth(field).unwrap().name;
    let value = match String::from_utf8(shown.value(bundle).to_vec()).unwrap() {
        empty if empty.is_empty() => "empty".to_string(),
        value => value,
    };
    format!(
        "rule {mark} file {file} record {record} companion {companion} field {name} \
        at {start} length {length} value {value} searched {searched}"
    )
}

#[test]
fn the_readings_have_their_answers() {
    for reading in readings() {
        assert_eq!(told(&reading.bundle, reading.mark), reading.answer, "{}", reading.name);
    }
    for printed in printed() {
        let text = reasons(&printed.bundle, false);
        if printed.whole {
            assert_eq!(text, printed.lines.join("\n") + "\n", "{}", printed.name);
        }
        for line in printed.lines {
            assert!(text.lines().any(|other| other == *line), "{}: {text}", printed.name);
        }
    }
}

/// The field and value of the mark's reason, as far as there is one.
fn field_and_value(set: &Set, mark: usize) -> (usize, String, String) {
    let bundle = set.bundle();
    let shown = match reason(&bundle, mark) {
        Reason::Broken(shown) | Reason::Missing { shown, .. } => shown,
        other => panic!("mark {mark}: {other:?}"),
    };
    let value = String::from_utf8(shown.value(&bundle).to_vec()).unwrap();
    (shown.record, shown.field_name().to_string(), value)
}

fn shows(set: &Set, mark: usize, record: usize, field: &str, value: &str) {
    let expected = (record, field.to_string(), value.to_string());
    assert_eq!(field_and_value(set, mark), expected, "mark {mark}");
}

// ---------------------------------------------------------- all the rules

/// One more record of the sample's table, which has a fault of its own.
fn with_more(file: usize, record: &str) -> Set {
    let mut contents = accepted().files[file].clone().unwrap();
    contents.pop();
    let contents = String::from_utf8(contents).unwrap();
    accepted().with(file, &format!("{contents},{record}]"))
}

fn records(file: usize) -> usize {
    second::table::read_file(file, accepted().files[file].as_deref()).unwrap().len()
}

fn shows_last(mark: usize, record: &str, field: &str, value: &str) {
    let file = files_read(mark)[0];
    shows(&with_more(file, record), mark, records(file) + 1, field, value);
}

#[test]
fn a_repeated_key_is_decided_by_its_first_field() {
    shows_last(20, r#"{"Name":"x","CustomFieldID":"Field_01"}"#, "CustomFieldID", r#""Field_01""#);
    shows_last(21, r#"{"Value":"x","CustomFieldID":"FIELD_06"}"#, "CustomFieldID", r#""FIELD_06""#);
    shows_last(22, r#"{"Name":"x","ID":"\u00434"}"#, "ID", r#""\u00434""#);
    shows_last(23, r#"{"Ordinal":-3.0,"CalendarID":"C4"}"#, "CalendarID", r#""C4""#);
    let exception = r#"{"ExceptionDate":"2020-12-25","CalendarID":"c2"}"#;
    shows_last(24, exception, "CalendarID", r#""c2""#);
    shows_last(25, r#"{"Name":"x","ID":"t\/4 B","TaskTypeID":"HAMMOCK"}"#, "ID", r#""t\/4 B""#);
    shows_last(26, &schedule("S2", "C1", ""), "TaskID", r#""S2""#);
    shows_last(27, r#"{"Name":"x","CustomFieldID":"field_08"}"#, "CustomFieldID", r#""field_08""#);
    let value = r#"{"Value":"x","CustomFieldID":"FIELD_10","TaskID":"T1"}"#;
    shows_last(28, value, "TaskID", r#""T1""#);
    let constraint = r#"{"ConstraintTypeID":"OTHER","TaskID":"t1"}"#;
    shows_last(29, constraint, "TaskID", r#""t1""#);
    let link = r#"{"RelationshipTypeID":"finish_to_start","SuccessorTaskID":"T1","PredecessorTaskID":"t2"}"#;
    shows_last(30, link, "PredecessorTaskID", r#""t2""#);
    shows_last(31, r#"{"Level":2,"TaskID":"t2"}"#, "TaskID", r#""t2""#);
    let resource = r#"{"Name":"x","ID":"eng-01","ElementOfCostID":"LABOR"}"#;
    shows_last(32, resource, "ID", r#""eng-01""#);
    shows_last(33, r#"{"Name":"x","CustomFieldID":"FIELD_05"}"#, "CustomFieldID", r#""FIELD_05""#);
    let value = r#"{"Value":"x","CustomFieldID":"FIELD_09","ResourceID":"eng-01"}"#;
    shows_last(34, value, "ResourceID", r#""eng-01""#);
    shows_last(35, r#"{"TaskID":"t2","ResourceID":"Eng-01"}"#, "ResourceID", r#""Eng-01""#);
}

#[test]
fn enumerations_and_targets_are_decided_by_the_field_compared() {
    shows_last(38, r#"{"Name":"x","CustomFieldID":"F"}"#, "CustomFieldID", r#""F""#);
    let task = r#"{"TaskTypeID":"a","TaskSubtypeID":"b","TaskPlanningLevelID":"c",
        "EarnedValueTechniqueID":"d","Name":"x","ID":"x"}"#;
    shows_last(39, task, "TaskTypeID", r#""a""#);
    shows_last(40, task, "TaskSubtypeID", r#""b""#);
    shows_last(41, task, "TaskPlanningLevelID", r#""c""#);
    shows_last(42, task, "EarnedValueTechniqueID", r#""d""#);
    shows_last(43, r#"{"Name":"x","CustomFieldID":"F"}"#, "CustomFieldID", r#""F""#);
    let constraint = r#"{"ConstraintTypeID":"b","TaskID":"a"}"#;
    shows_last(44, constraint, "ConstraintTypeID", r#""b""#);
    shows_last(55, constraint, "TaskID", r#""a""#);
    let link = r#"{"LagCalendarID":"d","RelationshipTypeID":"c","SuccessorTaskID":"b","PredecessorTaskID":"a"}"#;
    shows_last(45, link, "RelationshipTypeID", r#""c""#);
    shows_last(56, link, "PredecessorTaskID", r#""a""#);
    shows_last(57, link, "SuccessorTaskID", r#""b""#);
    shows_last(58, link, "LagCalendarID", r#""d""#);
    let resource = r#"{"Name":"x","ID":"x","ElementOfCostID":"y"}"#;
    shows_last(46, resource, "ElementOfCostID", r#""y""#);
    shows_last(47, r#"{"Name":"x","CustomFieldID":"F"}"#, "CustomFieldID", r#""F""#);
    shows_last(48, r#"{"Value":"x","CustomFieldID":"F"}"#, "CustomFieldID", r#""F""#);
    shows_last(49, r#"{"CalendarID":"x"}"#, "CalendarID", r#""x""#);
    let exception = r#"{"ExceptionDate":"2020-12-25","CalendarID":"x"}"#;
    shows_last(50, exception, "CalendarID", r#""x""#);
    shows_last(51, &schedule("x", "y", ""), "TaskID", r#""x""#);
    shows_last(52, &schedule("x", "y", ""), "CalendarID", r#""y""#);
    let value = r#"{"Value":"x","CustomFieldID":"b","TaskID":"a"}"#;
    shows_last(53, value, "TaskID", r#""a""#);
    shows_last(54, value, "CustomFieldID", r#""b""#);
    let row = r#"{"ParentTaskID":"b","TaskID":"a","Level":2}"#;
    shows_last(59, row, "TaskID", r#""a""#);
    shows_last(60, row, "ParentTaskID", r#""b""#);
    let value = r#"{"Value":"x","CustomFieldID":"b","ResourceID":"a"}"#;
    shows_last(61, value, "ResourceID", r#""a""#);
    shows_last(62, value, "CustomFieldID", r#""b""#);
    let assignment = r#"{"TaskID":"b","ResourceID":"a"}"#;
    shows_last(63, assignment, "ResourceID", r#""a""#);
    shows_last(64, assignment, "TaskID", r#""b""#);
    let metadata = r#"{"ContractorIDCodeTypeID":"y","SecurityMarking":"U","ReportingPeriodEndDate":"2020-01-31"}"#;
    shows(&accepted().with(1, metadata), 36, 1, "ContractorIDCodeTypeID", r#""y""#);
    let project = r#"{"DurationUnitsID":"y","StatusDate":"2020-01-31","CurrentStartDate":"2020-01-01",
        "CurrentFinishDate":"2020-12-31"}"#;
    shows(&accepted().with(3, project), 37, 1, "DurationUnitsID", r#""y""#);
}

#[test]
fn the_searched_table_is_named_for_targets_only() {
    let searched = [4, 6, 6, 9, 6, 9, 11, 9, 9, 9, 6, 9, 9, 16, 17, 16, 9];
    for (mark, searched) in (48..=64).zip(searched) {
        let bundle = accepted().with(searched, "[]").bundle();
        match reason(&bundle, mark) {
            Reason::Missing { searched: named, .. } => assert_eq!(named, searched, "mark {mark}"),
            other => panic!("mark {mark}: {other:?}"),
        }
    }
    for (mark, emptied) in [(67, 7), (73, 10), (74, 15), (80, 9)] {
        let bundle = accepted().with(emptied, "[]").bundle();
        assert!(matches!(reason(&bundle, mark), Reason::Broken(_)), "mark {mark}");
    }
}

#[test]
fn the_other_rules_are_decided_by_the_fields_named() {
    let metadata = |more: &str| {
        let least = r#""SecurityMarking":"U","ReportingPeriodEndDate":"2020-01-31""#;
        accepted().with(1, &format!("{{{more},{least}}}"))
    };
    shows(&metadata(r#""ContractorIDCode":"\u00e9""#), 65, 1, "ContractorIDCode", r#""\u00e9""#);
    let dated = r#""EVMSAcceptanceDate":"2020-01-01","EVMSAccepted":false"#;
    shows(&metadata(dated), 66, 1, "EVMSAcceptanceDate", r#""2020-01-01""#);
    shows_last(67, r#"{"Name":"x","ID":"new"}"#, "ID", r#""new""#);
    let shift =
        r#"{"SaturdayWorkHours":-1,"FridayWorkHours":-0.50,"SundayWorkHours":-0,"CalendarID":"x"}"#;
    shows_last(68, shift, "FridayWorkHours", "-0.50");
    shows_last(69, shift, "SundayWorkHours", "-0");
    shows_last(69, r#"{"CalendarID":"x","SundayWorkHours":null}"#, "SundayWorkHours", "");
    let exception = r#"{"WorkHours":-1e-15,"ExceptionDate":"2020-01-01","CalendarID":"x"}"#;
    shows_last(70, exception, "WorkHours", "-1e-15");
    for null in ["", r#","TaskPlanningLevelID":null"#, r#","TaskPlanningLevelID":"""#] {
        let task = format!(r#"{{"ID":"x","Name":"x","TaskTypeID":"activity"{null}}}"#);
        shows_last(71, &task, "TaskPlanningLevelID", "");
    }
    let task = r#"{"OtherEarnedValueTechnique":"x","ID":"x","Name":"x","TaskTypeID":"SUMMARY"}"#;
    shows_last(72, task, "OtherEarnedValueTechnique", r#""x""#);
    shows_last(73, task, "ID", r#""x""#);
    shows_last(74, task, "ID", r#""x""#);
    let constraint = r#"{"OtherConstraintType":"x","ConstraintTypeID":"DEADLINE","TaskID":"x"}"#;
    shows_last(76, constraint, "OtherConstraintType", r#""x""#);
    shows_last(77, constraint, "ConstraintDate", "");
    shows_last(78, r#"{"TaskID":"x","Level":4e0}"#, "Level", "4e0");
}

#[test]
fn the_first_null_of_the_five_is_in_the_order_of_the_table() {
    let five = [
        ("BaselineDuration", "1"),
        ("BaselineStartDate", "\"2020-01-01\""),
        ("BaselineFinishDate", "\"2020-01-01\""),
        ("StartVarianceDuration", "0"),
        ("FinishVarianceDuration", "0"),
    ];
    for given in 1..31_usize {
        for null in ["", "null"] {
            // Written from the last to the first.
            let mut more = String::new();
            for (at, (name, value)) in five.iter().enumerate().rev() {
                match (given >> at & 1, null) {
                    (1, _) => more += &format!(r#","{name}":{value}"#),
                    (_, "") => {}
                    _ => more += &format!(r#","{name}":{null}"#),
                }
            }
            let first = five[given.trailing_ones() as usize].0;
            shows_last(75, &schedule("x", "y", &more), first, "");
        }
    }
}

#[test]
fn the_parent_is_the_companion_and_the_childs_field_is_shown() {
    let outline = |rows: &str| {
        let summary = r#"[{"ID":"A","Name":"n","TaskTypeID":"SUMMARY"}]"#;
        Set::empty().with(9, summary).with(15, rows).bundle()
    };
    let right = r#"[{"Level":1,"TaskID":"B"},{"Level":2,"TaskID":"C","ParentTaskID":"b"}]"#;
    let at = 164 + 46 + right.find("\"b\"").unwrap();
    let expected = format!(
        "rule 80 file 15 record 2 companion 1 field ParentTaskID at {at} length 3 value \"b\" searched 0"
    );
    assert_eq!(told(&outline(right), 80), expected);
    assert_eq!(told(&outline(right), 79), "holds");
    let null = r#"[{"Level":1,"TaskID":"B"},{"Level":2,"TaskID":"C"}]"#;
    let expected = "companion 1 field ParentTaskID at 0 length 0 value empty searched 0";
    for mark in [79, 80] {
        let text = told(&outline(null), mark);
        assert_eq!(text, format!("rule {mark} file 15 record 2 {expected}"));
    }
    let first = r#"[{"Level":1,"ParentTaskID":"A","TaskID":"A"}]"#;
    let at = 164 + 46 + first.find("\"A\"").unwrap();
    let expected = format!(
        "rule 79 file 15 record 1 companion 0 field ParentTaskID at {at} length 3 value \"A\" searched 0"
    );
    assert_eq!(told(&outline(first), 79), expected);
}

// ------------------------------------------------------ the whole board

/// Sets in which much is broken.
fn broken_sets() -> Vec<Set> {
    let mut sets = vec![accepted(), Set::empty()];
    for number in 0..20 {
        sets.push(accepted().without(number));
        for contents in ["", "[]", "[{}]", "{}", "[", "null"] {
            sets.push(accepted().with(number, contents));
            sets.push(Set::empty().with(number, contents));
        }
    }
    for file in [6, 9, 10, 15, 16] {
        let text = String::from_utf8(accepted().files[file].clone().unwrap()).unwrap();
        for (from, to) in [("C1", "c2"), ("S1", "x"), ("T1", "t2"), ("SUMMARY", "y"), ("ID", "id")]
        {
            sets.push(accepted().with(file, &text.replace(from, to)));
        }
    }
    sets
}

#[test]
fn a_reason_has_the_numbers_of_the_judged_mark() {
    for set in broken_sets() {
        let bundle = set.bundle();
        let board = judge(&bundle).board;
        for (number, judged) in board.marks.iter().enumerate() {
            let broken = |record: usize, companion: usize| Mark {
                kind: 1,
                place: record as u32,
                companion: companion as u32,
            };
            let mark = match reason(&bundle, number) {
                Reason::Refused(refusal) => panic!("refusal {refusal}"),
                Reason::Holds => HOLDS,
                Reason::NotJudged { file } => {
                    assert!(files_read(number).contains(&file));
                    assert_ne!(board.marks[file], HOLDS);
                    let lower = files_read(number).into_iter().filter(|other| *other < file);
                    assert!(lower.into_iter().all(|other| board.marks[other] == HOLDS));
                    Mark { kind: 2, place: 0, companion: 0 }
                }
                Reason::OwnMark(own) => own,
                Reason::Broken(shown) | Reason::Missing { shown, .. } => {
                    assert_eq!(shown.file, files_read(number)[0]);
                    broken(shown.record, shown.companion)
                }
            };
            assert_eq!(mark, *judged, "mark {number}");
        }
    }
}

#[test]
fn a_value_is_a_part_of_its_file_in_the_bundle() {
    let mut seen = 0;
    for set in broken_sets() {
        let bundle = set.bundle();
        for mark in 20..=80 {
            let (Reason::Broken(shown) | Reason::Missing { shown, .. }) = reason(&bundle, mark)
            else {
                continue;
            };
            let value = shown.value(&bundle);
            if value.is_empty() {
                assert_eq!((shown.start, shown.length), (0, 0));
                continue;
            }
            let file = file_part(&bundle, shown.file).as_ptr_range();
            let part = value.as_ptr_range();
            assert!(file.start <= part.start && part.end <= file.end);
            assert!(value != b"null" && value != b"\"\"");
            seen += 1;
        }
    }
    assert!(seen > 60, "{seen}");
}

#[test]
fn refusals_come_in_their_order() {
    let sample = accepted().bundle();
    let mut count = sample.clone();
    count[0] = 21;
    let longer = [&sample[..], b"x"].concat();
    for mark in [0, 19, 20, 80, 81, 99, 255, 256 + 67, usize::MAX] {
        assert_eq!(told(&sample[..163], mark), "refused 1");
        assert_eq!(told(&vec![0; 1_048_577], mark), "refused 1");
        assert_eq!(told(&count, mark), "refused 2");
        assert_eq!(told(&longer, mark), "refused 3");
        let expected = if mark > 80 { "refused 7" } else { "holds" };
        assert_eq!(told(&sample, mark), expected);
    }
}

#[test]
fn the_files_have_their_names() {
    assert_eq!(FILE_NAMES[0], "FileType.txt");
    assert_eq!(
        [9, 15, 19].map(|file| FILE_NAMES[file]),
        ["Tasks", "TaskOutlineStructure", "ResourceAssignments"]
    );
}
