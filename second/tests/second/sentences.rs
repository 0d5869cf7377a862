//! The text that tells the reasons, beside the agreed sentences and by hand.

use crate::agreed::{agreed, Judged, RIGHT};
use crate::sample::{accepted, array, schedule, Set};
use second::compare::sentences::case::TextCase;
use second::compare::sentences::cases::all_cases;
use second::gate::judge;
use second::print::{reasons, reasons_of_input, report};

#[test]
fn the_text_has_the_sentences_that_were_agreed_on() {
    assert_eq!(agreed().rules.keys().copied().collect::<Vec<_>>(), (20..=80).collect::<Vec<_>>());
    let kinds: Vec<u32> = (10..=15).chain(17..=22).chain(30..=34).collect();
    assert_eq!(agreed().kinds.keys().copied().collect::<Vec<_>>(), kinds);
    for TextCase { bundle, grouped } in all_cases(7) {
        let expected = Judged::new(bundle.to_vec(), grouped).text(&RIGHT);
        assert_eq!(reasons(&bundle, grouped), expected);
    }
}

// ------------------------------------------------------- hand-made cases

/// The line of that mark in the plain text, without its numbers.
fn told(set: &Set, mark: usize) -> String {
    let text = reasons(&set.bundle(), false);
    let front = format!("{mark} ");
    let line = text.lines().find(|line| line.starts_with(&front)).unwrap_or("no line");
    line.splitn(5, ' ').nth(4).unwrap_or("no sentence").to_string()
}

const LINKS: &str = r#"[{"PredecessorTaskID":"T1","SuccessorTaskID":"T2","RelationshipTypeID":"FINISH_TO_START"},
    {"PredecessorTaskID":"T1","SuccessorTaskID":"T-99","RelationshipTypeID":"START_TO_START"}]"#;

#[test]
fn a_line_has_the_numbers_and_the_sentence() {
    let sentence =
        "TaskRelationships record 2: SuccessorTaskID \"T-99\" is not the ID of any record \
        in Tasks. Add that task, or take the link out.";
    let set = accepted().with(14, LINKS);
    let expected = format!("marks 81\n57 1 2 0 {sentence}\nrefused 1\n");
    for grouped in [false, true] {
        assert_eq!(reasons(&set.bundle(), grouped), expected);
    }
    assert_eq!(reasons_of_input(&set.bundle()), expected);
}

#[test]
fn a_repeated_key_names_both_records() {
    let calendars = r#"[{"ID":"C1","Name":"a"},{"ID":"C2","Name":"b"},{"ID":"c4","Name":"c"},{"ID":"c2","Name":"d"}]"#;
    assert_eq!(
        told(&accepted().with(6, calendars), 22),
        "Calendars record 4: ID \"c2\" is that of record 2 too; capital and small letters count \
        as the same. Give each calendar an ID of its own."
    );
}

#[test]
fn a_singleton_has_no_record() {
    let project = r#"{"StatusDate":"2020-01-31","CurrentStartDate":"2020-01-01",
        "CurrentFinishDate":"2020-12-31","DurationUnitsID":"WEEKS"}"#;
    assert_eq!(
        told(&accepted().with(3, project), 37),
        "ProjectScheduleData: DurationUnitsID \"WEEKS\" is no unit of duration. Write DAYS or HOURS."
    );
}

#[test]
fn null_is_written_as_such_where_a_value_may_be() {
    for null in ["", r#","SundayWorkHours":null"#] {
        let shifts = format!(r#"[{{"CalendarID":"C1"{null}}}]"#);
        assert_eq!(
            told(&accepted().with(7, &shifts), 69),
            "CalendarWorkshifts record 1: no day from SundayWorkHours to SaturdayWorkHours has \
            hours above zero; SundayWorkHours is null. Give a day its hours."
        );
    }
    let shifts = r#"[{"CalendarID":"C1","SundayWorkHours":-0.0}]"#;
    assert!(told(&accepted().with(7, shifts), 69).contains("; SundayWorkHours is -0.0. Give"));
    let tail = "A record of Level 1 has no ParentTaskID; any other has the TaskID of its parent, \
        the nearest earlier record of lower Level.";
    for null in ["", r#","ParentTaskID":null"#, r#","ParentTaskID":"""#] {
        let rows = format!(r#"[{{"Level":1,"TaskID":"S1"}},{{"Level":2,"TaskID":"T1"{null}}}]"#);
        let front = "TaskOutlineStructure record 2: ParentTaskID is null, and the parent by Level";
        let expected = format!("{front} is record 1. {tail}");
        assert_eq!(told(&accepted().with(15, &rows), 79), expected);
    }
    let rows = r#"[{"Level":1,"TaskID":"S1","ParentTaskID":"x"}]"#;
    let front = "TaskOutlineStructure record 1: ParentTaskID is \"x\", and the parent by Level";
    assert_eq!(told(&accepted().with(15, rows), 79), format!("{front} is none. {tail}"));
}

#[test]
fn what_is_not_given_is_named() {
    let constraint = r#"[{"TaskID":"T1","ConstraintTypeID":"DEADLINE"}]"#;
    assert_eq!(
        told(&accepted().with(13, constraint), 77),
        "TaskConstraints record 1: ConstraintDate is not given. Give the date; only the types \
        AS_LATE_AS_POSSIBLE and OTHER may go without one."
    );
    let half = array(&[schedule("T1", "C1", r#","BaselineDuration":1"#)]);
    assert!(told(&accepted().with(10, &half), 75)
        .starts_with("TaskScheduleData record 1: BaselineStartDate is not given, but others of"));
}

// ---------------------------------------------------------------- values

/// The value as it stands in the sentence of mark 65.
fn shown_value(value: &str) -> String {
    let metadata = format!(
        r#"{{"SecurityMarking":"U","ReportingPeriodEndDate":"2020-01-31","ContractorIDCode":{value}}}"#
    );
    let line = told(&accepted().with(1, &metadata), 65);
    let rest = line.strip_prefix("DatasetMetadata: ContractorIDCode ").unwrap();
    rest.split(" is given without").next().unwrap().to_string()
}

#[test]
fn a_value_stands_as_it_is_written() {
    for value in [r#""1ABC2""#, r#""é\"\u0041\\""#, r#""@!#$%&^~""#] {
        assert_eq!(shown_value(value), value);
    }
}

#[test]
fn a_value_of_more_than_80_bytes_is_cut() {
    let quoted = |length: usize| format!("\"{}\"", "x".repeat(length - 2));
    assert_eq!(shown_value(&quoted(79)), quoted(79));
    assert_eq!(shown_value(&quoted(80)), quoted(80));
    let cut = format!("\"{}...", "x".repeat(79));
    for length in [81, 82, 83, 1000] {
        assert_eq!(shown_value(&quoted(length)), cut);
    }
}

#[test]
fn no_character_is_cut_in_two() {
    for (character, width) in [("é", 2), ("世", 3), ("😀", 4)] {
        for letters in 0..width {
            let front = format!("\"{}", "x".repeat(letters));
            let value = format!("{front}{}\"", character.repeat(60));
            let fitting = (80 - front.len()) / width;
            assert_eq!(shown_value(&value), format!("{front}{}...", character.repeat(fitting)));
        }
    }
    // Whole characters up to the 80th byte and no further: nothing is cut.
    let value = format!("\"{}\"", "é".repeat(39));
    assert_eq!((value.len(), shown_value(&value)), (80, value.clone()));
    // The quote alone is too much.
    let value = format!("\"x{}\"", "é".repeat(39));
    assert_eq!(shown_value(&value), format!("\"x{}...", "é".repeat(39)));
    // An escape is bytes like others.
    let value = format!("\"{}\\u0041\"", "x".repeat(77));
    assert_eq!(shown_value(&value), format!("\"{}\\u...", "x".repeat(77)));
}

// ---------------------------------------------------------------- places

/// Where the fault of file 6 stands.
fn place(contents: &str) -> String {
    let line = told(&Set::empty().with(6, contents), 6);
    let rest = line.strip_prefix("Calendars.json ").unwrap();
    rest.split(": ").next().unwrap().to_string()
}

#[test]
fn a_place_is_a_line_and_a_column() {
    assert_eq!(place("x"), "line 1, column 1");
    assert_eq!(place(""), "line 1, column 1");
    assert_eq!(place("[x"), "line 1, column 2");
    assert_eq!(place("[\nx"), "line 2, column 1");
    assert_eq!(place("[\n\n  x"), "line 3, column 3");
    // A carriage return is a character of its line.
    assert_eq!(place("[\r\n x"), "line 2, column 2");
    assert_eq!(place("[\rx"), "line 1, column 3");
    // The file's end.
    assert_eq!(place("["), "line 1, column 2");
    assert_eq!(place("[\n"), "line 2, column 1");
    assert_eq!(place("\u{feff}[]"), "line 1, column 1");
}

#[test]
fn a_column_counts_characters() {
    assert_eq!(place("[{\"ID\":\"A\",\"Name\":\"é世😀\"}x"), "line 1, column 25");
    assert_eq!(place("[{\"ID\":\"A\",\"Name\":\"abc\"}x"), "line 1, column 25");
    assert_eq!(place("[{\"ID\":\"A\",\"Name\":\"é世😀\"},\n {\"id"), "line 2, column 6");
    assert_eq!(place("[{\"Name\":\"é  x\"}]"), "line 1, column 13, record 1");
    assert_eq!(place("[{\"Name\":\"é\\u0000\"}]"), "line 1, column 12, record 1");
    assert_eq!(place("[{\"Name\":\"é\",\n\"ID\":\"世\"}]"), "line 2, column 7, record 1");
}

#[test]
fn the_record_of_a_fault_is_named_where_the_mark_names_it() {
    let good = r#"{"ID":"A","Name":"N"}"#;
    assert_eq!(place(&format!("[{good},\n{good},{{\"id\":1}}]")), "line 2, column 24, record 3");
    // A record that lacks a value is found by its closing brace.
    assert_eq!(place(&format!("[{good},\n{{\"ID\":\"B\"}}]")), "line 2, column 10");
    assert_eq!(place(&format!("[{good},1]")), "line 1, column 24");
}

#[test]
fn files_that_are_missing_or_wrong_have_no_place() {
    let missing = "is missing. Add it; a set must have it.";
    let text = |number: usize| told(&accepted().without(number), number);
    assert_eq!(text(0), format!("FileType.txt {missing}"));
    assert_eq!(text(1), format!("DatasetMetadata.json {missing}"));
    assert_eq!(text(3), format!("ProjectScheduleData.json {missing}"));
    let wrong = accepted().with(0, "IPMDAR_SCHEDULE_PERFORMANCE_DATASET/1.0\n");
    assert_eq!(
        told(&wrong, 0),
        "FileType.txt does not consist of the 39 bytes IPMDAR_SCHEDULE_PERFORMANCE_DATASET/1.0. \
        Write these alone, with no line feed, space or byte order mark."
    );
}

// ------------------------------------------------------------- not judged

#[test]
fn a_mark_that_is_not_judged_names_the_file() {
    let text = reasons(&Set::empty().bundle(), false);
    let missing = "is missing. Add it; a set must have it.";
    let dataset = "Not judged, since DatasetMetadata.json does not hold. Mend that file first.";
    let project = "Not judged, since ProjectScheduleData.json does not hold. Mend that file first.";
    let lines = [
        "marks 81".to_string(),
        format!("0 21 0 0 FileType.txt {missing}"),
        format!("1 21 0 0 DatasetMetadata.json {missing}"),
        format!("3 21 0 0 ProjectScheduleData.json {missing}"),
        format!("36 2 0 0 {dataset}"),
        format!("37 2 0 0 {project}"),
        format!("65 2 0 0 {dataset}"),
        format!("66 2 0 0 {dataset}"),
        "refused 7".to_string(),
    ];
    assert_eq!(text, lines.join("\n") + "\n");
    let both = accepted().with(9, "[").with(15, "[");
    assert_eq!(
        told(&both, 80),
        "Not judged, since Tasks.json does not hold. Mend that file first."
    );
    let outline =
        "Not judged, since TaskOutlineStructure.json does not hold. Mend that file first.";
    assert_eq!(told(&both, 78), outline);
}

#[test]
fn in_a_folder_such_marks_have_one_line_for_each_file() {
    let text = reasons(&Set::empty().bundle(), true);
    let missing = "is missing. Add it; a set must have it.";
    let lines = [
        "marks 81".to_string(),
        format!("0 21 0 0 FileType.txt {missing}"),
        format!("1 21 0 0 DatasetMetadata.json {missing}"),
        format!("3 21 0 0 ProjectScheduleData.json {missing}"),
        "DatasetMetadata.json does not hold, so that 3 marks which read it were not judged. Mend \
        that file first."
            .to_string(),
        "ProjectScheduleData.json does not hold, so that 1 mark which reads it was not judged. \
        Mend that file first."
            .to_string(),
        "refused 7".to_string(),
    ];
    assert_eq!(text, lines.join("\n") + "\n");
    // Each mark counts for one file, and broken ones stand in front.
    let set = accepted().with(9, "[").with(15, "[").with(6, r#"[{"ID":"new","Name":"n"}]"#);
    let text = reasons(&set.bundle(), true);
    let lines: Vec<&str> = text.lines().collect();
    let back = &lines[lines.len() - 3..];
    assert!(back[0].starts_with("Tasks.json does not hold, so that 18 marks which read it were"));
    let outline = "TaskOutlineStructure.json does not hold, so that 3 marks which read it were";
    assert!(back[1].starts_with(outline));
    assert_eq!(back[2], format!("refused {}", judge(&set.bundle()).board.faults().count()));
    assert!(lines[1..lines.len() - 3]
        .iter()
        .all(|line| line.starts_with(|c: char| c.is_ascii_digit())));
    assert!(lines[lines.len() - 4].starts_with("67 1 1 0 "));
}

// ------------------------------------------------------------- whole texts

/// But for the sentences and what is grouped, the text is the judging program's.
#[test]
fn all_but_the_sentences_is_the_judging_programs_print() {
    for TextCase { bundle, .. } in all_cases(8).into_iter().step_by(3) {
        let (plain, told) = (report(&bundle), reasons_of_input(&bundle));
        assert_eq!(plain.lines().count(), told.lines().count());
        for (plain, told) in plain.lines().zip(told.lines()) {
            let rest = told.strip_prefix(plain).unwrap();
            let is_mark = plain.starts_with(|first: char| first.is_ascii_digit());
            assert_eq!(is_mark, rest.starts_with(' ') && rest.ends_with('.'), "{told}");
            assert!(is_mark || rest.is_empty(), "{told}");
        }
    }
}

#[test]
fn refused_and_accepted_bundles_have_no_sentence() {
    let sample = accepted().bundle();
    let mut count = sample.clone();
    count[0] = 19;
    for grouped in [false, true] {
        assert_eq!(reasons(&sample, grouped), "marks 81\naccepted\n");
        assert_eq!(reasons(&sample[..163], grouped), "bundle 1\n");
        assert_eq!(reasons(&count, grouped), "bundle 2\n");
        assert_eq!(reasons(&[&sample[..], b"x"].concat(), grouped), "bundle 3\n");
        assert_eq!(reasons(&vec![0; 1_048_577], grouped), "bundle 1\n");
    }
    // What the program takes from standard input is less than what a folder may have.
    let long = |length: usize| {
        let spaces = " ".repeat(length - accepted().with(19, "[]").bundle().len());
        accepted().with(19, &format!("[]{spaces}")).bundle()
    };
    assert_eq!(reasons_of_input(&long(65_536)), "marks 81\naccepted\n");
    assert_eq!(reasons_of_input(&long(65_537)), "bundle 1\n");
    assert_eq!(reasons(&long(65_537), true), "marks 81\naccepted\n");
    assert_eq!(reasons(&long(1_048_576), true), "marks 81\naccepted\n");
}
