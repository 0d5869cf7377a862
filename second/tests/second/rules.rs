//! Marks 20 to 80: each broken at a record, beside sets where it holds.

use crate::sample::{accepted, array, schedule, Set, BASELINE};

/// The accepted set with one file changed has that mark broken at that record,
/// and no other record is named with it.
fn breaks(mark: usize, place: u32, file: usize, contents: &str) {
    breaks_with(mark, (place, 0), file, contents);
}

/// The same with the record named beside it.
fn breaks_with(mark: usize, (place, companion): (u32, u32), file: usize, contents: &str) {
    let set = accepted().with(file, contents);
    assert_eq!(set.mark(file), (0, 0, 0), "file {file}: {contents}");
    assert_eq!(set.mark(mark), (1, place, companion), "mark {mark}: {contents}");
}

fn holds(mark: usize, file: usize, contents: &str) {
    let set = accepted().with(file, contents);
    assert_eq!(set.mark(file), (0, 0, 0), "file {file}: {contents}");
    assert_eq!(set.mark(mark), (0, 0, 0), "mark {mark}: {contents}");
}

/// The records of a file of the accepted set, the first one once more at the
/// end: its key is broken there.
fn with_first_again(file: usize) -> (String, u32) {
    let text = String::from_utf8(accepted().files[file].clone().unwrap()).unwrap();
    let inner = text.strip_prefix('[').unwrap().strip_suffix(']').unwrap();
    let first = &inner[..inner.find('}').unwrap() + 1];
    let count = inner.matches('}').count() as u32;
    (format!("[{inner},{first}]"), count + 1)
}

#[test]
fn keys_are_broken_at_the_later_record() {
    for file in 4..=19 {
        let (contents, place) = with_first_again(file);
        breaks_with(file + 16, (place, 1), file, &contents);
        let folded = contents.replace("T1", "t1").replace("C1", "c1");
        breaks_with(file + 16, (place, 1), file, &folded);
    }
}

#[test]
fn every_part_of_a_key_counts() {
    breaks_with(
        24,
        (2, 1),
        8,
        r#"[{"CalendarID":"C","ExceptionDate":"2020-01-01"},{"CalendarID":"c","ExceptionDate":"2020-\u00301-01"}]"#,
    );
    holds(
        24,
        8,
        r#"[{"CalendarID":"C","ExceptionDate":"2020-01-01"},{"CalendarID":"c","ExceptionDate":"2020-01-02"}]"#,
    );
    holds(
        28,
        12,
        r#"[{"TaskID":"A","CustomFieldID":"B","Value":"1"},{"TaskID":"B","CustomFieldID":"A","Value":"1"}]"#,
    );
    holds(
        34,
        18,
        r#"[{"ResourceID":"AB","CustomFieldID":"C","Value":"1"},{"ResourceID":"A","CustomFieldID":"BC","Value":"1"}]"#,
    );
    breaks_with(
        30,
        (3, 1),
        14,
        r#"[{"PredecessorTaskID":"A","SuccessorTaskID":"B","RelationshipTypeID":"X"},
        {"PredecessorTaskID":"A","SuccessorTaskID":"B","RelationshipTypeID":"Y"},
        {"PredecessorTaskID":"a","SuccessorTaskID":"b","RelationshipTypeID":"x"}]"#,
    );
}

#[test]
fn enumerations() {
    breaks(
        36,
        1,
        1,
        r#"{"SecurityMarking":"U","ReportingPeriodEndDate":"2020-01-31","ContractorIDCodeTypeID":"NONE"}"#,
    );
    holds(36, 1, r#"{"SecurityMarking":"U","ReportingPeriodEndDate":"2020-01-31"}"#);
    breaks(
        37,
        1,
        3,
        r#"{"StatusDate":"2020-01-31","CurrentStartDate":"2020-01-01","CurrentFinishDate":"2020-12-31","DurationUnitsID":"WEEKS"}"#,
    );
    for (file, mark) in [(4, 38), (11, 43), (17, 47)] {
        breaks(
            mark,
            2,
            file,
            r#"[{"CustomFieldID":"FIELD_05","Name":"N"},{"CustomFieldID":"FIELD_11","Name":"N"}]"#,
        );
        holds(mark, file, r#"[{"CustomFieldID":"field_05","Name":"N"}]"#);
    }
    let task = |members: &str| {
        format!(
            r#"[{{"ID":"S1","Name":"N","TaskTypeID":"SUMMARY"}},{{"ID":"S2","Name":"N",{members}}}]"#
        )
    };
    breaks(39, 2, 9, &task(r#""TaskTypeID":"SUMMARIES""#));
    breaks(40, 2, 9, &task(r#""TaskTypeID":"SUMMARY","TaskSubtypeID":"MILESTONE""#));
    breaks(41, 2, 9, &task(r#""TaskTypeID":"SUMMARY","TaskPlanningLevelID":"SUMMARY""#));
    breaks(42, 2, 9, &task(r#""TaskTypeID":"SUMMARY","EarnedValueTechniqueID":"FIXED""#));
    for mark in 39..=42 {
        holds(mark, 9, &task(r#""TaskTypeID":"hammock""#));
    }
    breaks(44, 1, 13, r#"[{"TaskID":"T1","ConstraintTypeID":"WHENEVER"}]"#);
    breaks(
        45,
        1,
        14,
        r#"[{"PredecessorTaskID":"T1","SuccessorTaskID":"T2","RelationshipTypeID":"FINISH"}]"#,
    );
    breaks(
        46,
        2,
        16,
        r#"[{"ID":"A","Name":"N","ElementOfCostID":"LABOR"},{"ID":"B","Name":"N","ElementOfCostID":"LABOUR"}]"#,
    );
}

#[test]
fn targets() {
    breaks(
        48,
        2,
        5,
        r#"[{"CustomFieldID":"FIELD_02","Value":"1"},{"CustomFieldID":"FIELD_03","Value":"1"}]"#,
    );
    breaks(49, 1, 7, r#"[{"CalendarID":"C3"}]"#);
    breaks(50, 1, 8, r#"[{"CalendarID":"C3","ExceptionDate":"2020-01-01"}]"#);
    breaks(51, 2, 10, &array(&[schedule("T1", "C1", ""), schedule("T9", "C1", "")]));
    breaks(52, 2, 10, &array(&[schedule("T1", "C1", ""), schedule("T2", "C9", "")]));
    breaks(53, 1, 12, r#"[{"TaskID":"T9","CustomFieldID":"FIELD_10","Value":"1"}]"#);
    breaks(54, 1, 12, r#"[{"TaskID":"T1","CustomFieldID":"FIELD_09","Value":"1"}]"#);
    breaks(55, 1, 13, r#"[{"TaskID":"T9","ConstraintTypeID":"OTHER"}]"#);
    breaks(
        56,
        1,
        14,
        r#"[{"PredecessorTaskID":"T9","SuccessorTaskID":"T2","RelationshipTypeID":"X"}]"#,
    );
    breaks(
        57,
        1,
        14,
        r#"[{"PredecessorTaskID":"T1","SuccessorTaskID":"T9","RelationshipTypeID":"X"}]"#,
    );
    breaks(
        58,
        1,
        14,
        r#"[{"PredecessorTaskID":"T1","SuccessorTaskID":"T9","RelationshipTypeID":"X","LagCalendarID":"C9"}]"#,
    );
    holds(
        58,
        14,
        r#"[{"PredecessorTaskID":"T1","SuccessorTaskID":"T9","RelationshipTypeID":"X","LagCalendarID":""}]"#,
    );
    breaks(59, 1, 15, r#"[{"Level":1,"TaskID":"T9"}]"#);
    breaks(60, 1, 15, r#"[{"Level":1,"TaskID":"T1","ParentTaskID":"T9"}]"#);
    holds(60, 15, r#"[{"Level":1,"TaskID":"T1","ParentTaskID":null}]"#);
    breaks(61, 1, 18, r#"[{"ResourceID":"X","CustomFieldID":"FIELD_03","Value":"1"}]"#);
    breaks(62, 1, 18, r#"[{"ResourceID":"ENG-01","CustomFieldID":"FIELD_04","Value":"1"}]"#);
    breaks(
        63,
        2,
        19,
        r#"[{"ResourceID":"ENG-01","TaskID":"T1"},{"ResourceID":"ENG-1","TaskID":"T1"}]"#,
    );
    breaks(
        64,
        2,
        19,
        r#"[{"ResourceID":"ENG-01","TaskID":"T1"},{"ResourceID":"ENG-01","TaskID":"T"}]"#,
    );
}

#[test]
fn targets_in_an_omitted_file_are_missing() {
    let set = accepted().without(6);
    for mark in [49, 50, 52, 58] {
        let expected = if mark == 58 { (1, 2, 0) } else { (1, 1, 0) };
        assert_eq!(set.mark(mark), expected);
    }
    assert_eq!(set.mark(67), (0, 0, 0));
}

#[test]
fn dataset_metadata() {
    let metadata = |more: &str| {
        format!(r#"{{"SecurityMarking":"U","ReportingPeriodEndDate":"2020-01-31"{more}}}"#)
    };
    breaks(65, 1, 1, &metadata(r#","ContractorIDCode":"1""#));
    breaks(65, 1, 1, &metadata(r#","ContractorIDCode":"1","ContractorIDCodeTypeID":"""#));
    holds(65, 1, &metadata(r#","ContractorIDCode":"""#));
    holds(65, 1, &metadata(r#","ContractorIDCodeTypeID":"X""#));
    breaks(66, 1, 1, &metadata(r#","EVMSAcceptanceDate":"2020-01-01""#));
    breaks(66, 1, 1, &metadata(r#","EVMSAcceptanceDate":"2020-01-01","EVMSAccepted":false"#));
    holds(66, 1, &metadata(r#","EVMSAccepted":false"#));
}

#[test]
fn calendars_and_hours() {
    breaks(67, 2, 7, r#"[{"CalendarID":"C1","MondayWorkHours":1}]"#);
    breaks(67, 1, 7, "[]");
    breaks(
        68,
        2,
        7,
        r#"[{"CalendarID":"C1","SaturdayWorkHours":1},{"CalendarID":"C2","SaturdayWorkHours":-1e-15}]"#,
    );
    breaks(
        69,
        2,
        7,
        r#"[{"CalendarID":"C1","SaturdayWorkHours":1},{"CalendarID":"C2","SaturdayWorkHours":-1}]"#,
    );
    breaks(69, 1, 7, r#"[{"CalendarID":"C1","SaturdayWorkHours":null,"MondayWorkHours":0e3}]"#);
    breaks(
        70,
        2,
        8,
        r#"[{"CalendarID":"C1","ExceptionDate":"2020-01-01"},{"CalendarID":"C1","ExceptionDate":"2020-01-02","WorkHours":-0.5}]"#,
    );
}

/// Zeros that a value doesn't need change no rule (order 1).
#[test]
fn padded_numbers_are_taken_by_value() {
    let shifts = |members: &str| format!(r#"[{{"CalendarID":"C1",{members}}}]"#);
    for hours in ["8.0000000000000000", "1000000000000000", "0.0000000000000010"] {
        holds(69, 7, &shifts(&format!(r#""SundayWorkHours":{hours}"#)));
        breaks(68, 1, 7, &shifts(&format!(r#""SundayWorkHours":-{hours}"#)));
        breaks(69, 1, 7, &shifts(&format!(r#""SundayWorkHours":-{hours}"#)));
    }
    for zero in ["-0.0000000000000000", "-0e99", "0.000e-99999999999999999999"] {
        holds(68, 7, &shifts(&format!(r#""SundayWorkHours":{zero}"#)));
        breaks(69, 1, 7, &shifts(&format!(r#""SundayWorkHours":{zero}"#)));
    }
    let exception = |hours: &str| {
        format!(r#"[{{"CalendarID":"C1","ExceptionDate":"2020-01-01","WorkHours":{hours}}}]"#)
    };
    holds(70, 8, &exception("-0.0000000000000000"));
    breaks(70, 1, 8, &exception("-8.0000000000000000"));
    let ordinals = |second: &str| {
        format!(r#"[{{"CalendarID":"C1","Ordinal":7}},{{"CalendarID":"C1","Ordinal":{second}}}]"#)
    };
    breaks_with(23, (2, 1), 7, &ordinals("7.0000000000000000"));
    breaks_with(23, (2, 1), 7, &ordinals("70000000000000000e-16"));
    holds(23, 7, &ordinals("70000000000000000e-15"));
    holds(78, 15, r#"[{"Level":1.0000000000000000,"TaskID":"S1"},{"Level":200e-2,"TaskID":"S2"}]"#);
}

fn tasks(rows: &[&str]) -> String {
    let row = |(index, members): (usize, &&str)| {
        format!(r#"{{"ID":"{}","Name":"N",{members}}}"#, ["S1", "S2", "T1", "T2"][index])
    };
    array(&rows.iter().enumerate().map(row).collect::<Vec<String>>())
}

#[test]
fn task_rules() {
    breaks(71, 2, 9, &tasks(&[r#""TaskTypeID":"SUMMARY""#, r#""TaskTypeID":"activity""#]));
    holds(71, 9, &tasks(&[r#""TaskTypeID":"activity","TaskPlanningLevelID":"X""#]));
    breaks(72, 1, 9, &tasks(&[r#""TaskTypeID":"X","OtherEarnedValueTechnique":"Y""#]));
    breaks(
        72,
        1,
        9,
        &tasks(&[
            r#""TaskTypeID":"X","OtherEarnedValueTechnique":"Y","EarnedValueTechniqueID":"UNITS""#,
        ]),
    );
    holds(
        72,
        9,
        &tasks(&[
            r#""TaskTypeID":"X","OtherEarnedValueTechnique":"Y","EarnedValueTechniqueID":"Other_Discrete""#,
        ]),
    );
    holds(72, 9, &tasks(&[r#""TaskTypeID":"X","EarnedValueTechniqueID":"OTHER_DISCRETE""#]));
    breaks(73, 2, 10, &array(&[schedule("S1", "C1", ""), schedule("T1", "C1", "")]));
    breaks(74, 2, 15, r#"[{"Level":1,"TaskID":"S1"}]"#);
    holds(74, 15, r#"[{"Level":1,"TaskID":"S1"},{"Level":1,"TaskID":"s2"}]"#);
}

#[test]
fn the_five_baseline_fields_stand_together() {
    let members: Vec<&str> = BASELINE.split(',').skip(1).collect();
    for wanted in 0..32u32 {
        let more: String =
            (0..5).filter(|i| wanted >> i & 1 == 1).map(|i| format!(",{}", members[i])).collect();
        let contents = array(&[schedule("S1", "C1", ""), schedule("S2", "C1", &more)]);
        if wanted == 0 || wanted == 31 {
            holds(75, 10, &contents);
        } else {
            breaks(75, 2, 10, &contents);
        }
    }
}

#[test]
fn constraint_rules() {
    breaks(
        76,
        2,
        13,
        r#"[{"TaskID":"T1","ConstraintTypeID":"OTHER","OtherConstraintType":"X"},{"TaskID":"T1","ConstraintTypeID":"DEADLINE","OtherConstraintType":"X"}]"#,
    );
    breaks(77, 1, 13, r#"[{"TaskID":"T1","ConstraintTypeID":"DEADLINE"}]"#);
    holds(
        77,
        13,
        r#"[{"TaskID":"T1","ConstraintTypeID":"other"},{"TaskID":"T1","ConstraintTypeID":"as_late_as_possible","ConstraintDate":"2020-01-01"}]"#,
    );
}

/// An outline of these levels and parents, with TaskIDs 1, 2, 3 and so on.
fn outline(rows: &[(i64, &str)]) -> Set {
    let row = |(index, (level, parent)): (usize, &(i64, &str))| {
        format!(r#"{{"Level":{level},"TaskID":"{}","ParentTaskID":"{parent}"}}"#, index + 1)
    };
    Set::empty().with(15, &array(&rows.iter().enumerate().map(row).collect::<Vec<String>>()))
}

#[test]
fn level_runs() {
    assert_eq!(outline(&[]).mark(78), (0, 0, 0));
    assert_eq!(outline(&[(2, "")]).mark(78), (1, 1, 0));
    assert_eq!(outline(&[(0, "")]).mark(78), (1, 1, 0));
    assert_eq!(outline(&[(1, ""), (0, "")]).mark(78), (1, 2, 0));
    assert_eq!(outline(&[(1, ""), (2, ""), (3, ""), (1, ""), (3, "")]).mark(78), (1, 5, 0));
    assert_eq!(outline(&[(1, ""), (2, ""), (-999_999_999_999_999, "")]).mark(78), (1, 3, 0));
}

#[test]
fn parents_across_a_broken_run() {
    // Level 0 has a parent only among lower levels.
    assert_eq!(outline(&[(1, ""), (0, "")]).mark(79), (1, 2, 0));
    assert_eq!(outline(&[(-1, ""), (0, "1")]).mark(79), (1, 1, 0));
    assert_eq!(outline(&[(1, ""), (4, "1"), (3, "1"), (4, "3")]).mark(79), (0, 0, 0));
    assert_eq!(outline(&[(1, ""), (4, "1"), (3, "2")]).mark(79), (1, 3, 1));
    // Level 1 has none even if a lower level stands before it.
    assert_eq!(outline(&[(1, ""), (1, "1")]).mark(79), (1, 2, 0));
    assert_eq!(outline(&[(2, "")]).mark(79), (1, 1, 0));
}

fn typed(types: &[&str]) -> String {
    let row = |(index, kind): (usize, &&str)| {
        format!(r#"{{"ID":"{}","Name":"N","TaskTypeID":"{kind}"}}"#, index + 1)
    };
    array(&types.iter().enumerate().map(row).collect::<Vec<String>>())
}

#[test]
fn parents_are_summaries() {
    let rows = [(1, ""), (2, "1"), (3, "2"), (2, "1")];
    let set = outline(&rows);
    assert_eq!(set.with(9, &typed(&["summary", "SUMMARY", "X", "X"])).mark(80), (0, 0, 0));
    assert_eq!(set.with(9, &typed(&["SUMMARY", "X", "X", "X"])).mark(80), (1, 3, 2));
    assert_eq!(set.with(9, &typed(&["X", "SUMMARY", "X", "X"])).mark(80), (1, 2, 1));
    assert_eq!(set.mark(80), (1, 2, 1));
    // The ParentTaskID as given doesn't matter, only the parent itself.
    let wrong = outline(&[(1, ""), (2, "2"), (3, ""), (2, "9")]);
    assert_eq!(wrong.with(9, &typed(&["SUMMARY", "SUMMARY", "X", "X"])).mark(80), (0, 0, 0));
    // No parent, or Level 1: nothing to ask.
    assert_eq!(outline(&[(2, ""), (0, "")]).mark(80), (0, 0, 0));
    assert_eq!(outline(&[(0, ""), (1, "")]).mark(80), (0, 0, 0));
    // One task of that ID is enough.
    let twice =
        r#"[{"ID":"1","Name":"N","TaskTypeID":"X"},{"ID":"1","Name":"N","TaskTypeID":"SUMMARY"}]"#;
    assert_eq!(outline(&[(1, ""), (2, "1")]).with(9, twice).mark(80), (0, 0, 0));
}
