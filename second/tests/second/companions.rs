//! Order 5: the record that a mark names beside its place.

use crate::sample::{accepted, array, file_mark, Set};
use second::board::{Board, Mark};
use second::compare::random::Random;
use second::gate::{judge, touched_marks, try_change};
use second::print::report;

// ------------------------------------------------------------------ keys

fn calendars(ids: &[&str]) -> (u32, u32, u32) {
    let records: Vec<String> =
        ids.iter().map(|id| format!(r#"{{"ID":"{id}","Name":"N"}}"#)).collect();
    Set::empty().with(6, &array(&records)).mark(22)
}

#[test]
fn a_repeated_key_names_the_earliest_record_that_has_it() {
    assert_eq!(calendars(&["A", "a"]), (1, 2, 1));
    assert_eq!(calendars(&["A", "B", "a"]), (1, 3, 1));
    assert_eq!(calendars(&["A", "B", "b"]), (1, 3, 2));
    assert_eq!(calendars(&["A", "B", "C", "D", "b", "E"]), (1, 5, 2));
    assert_eq!(calendars(&["A", "B", "C", "D", "E", "\\u0041"]), (1, 6, 1));
    assert_eq!(calendars(&["A", "B", "C"]), (0, 0, 0));
}

/// The first copy is the mark, and what stands behind it changes nothing.
#[test]
fn of_many_equal_keys_the_first_copy_counts() {
    assert_eq!(calendars(&["A", "a", "A"]), (1, 2, 1));
    assert_eq!(calendars(&["X", "A", "Y", "a", "A", "x"]), (1, 4, 2));
    assert_eq!(calendars(&["A", "B", "C", "c", "b", "a"]), (1, 4, 3));
    assert_eq!(calendars(&["A", "B", "C", "B", "A"]), (1, 4, 2));
}

#[test]
fn every_part_of_a_key_counts_for_the_companion() {
    let shift = |id: &str, ordinal: &str| format!(r#"{{"CalendarID":"{id}"{ordinal}}}"#);
    let shifts = array(&[
        shift("C", r#","Ordinal":1"#),
        shift("D", ""),
        shift("C", r#","Ordinal":2"#),
        shift("c", r#","Ordinal":null"#),
        shift("d", r#","Ordinal":0.0"#),
    ]);
    assert_eq!(Set::empty().with(7, &shifts).mark(23), (1, 5, 2));
    let link = |from: &str, to: &str, kind: &str| {
        let ids = format!(r#""PredecessorTaskID":"{from}","SuccessorTaskID":"{to}""#);
        format!(r#"{{{ids},"RelationshipTypeID":"{kind}"}}"#)
    };
    let links = array(&[
        link("A", "B", "X"),
        link("A", "B", "Y"),
        link("B", "A", "Y"),
        link("a", "b", "y"),
    ]);
    assert_eq!(Set::empty().with(14, &links).mark(30), (1, 4, 2));
}

// --------------------------------------------------------------- outline

/// Marks 79 and 80 of an outline of these levels and parents, with TaskIDs 1,
/// 2, 3 and so on; the tasks of these numbers are SUMMARY.
fn outline(rows: &[(i64, &str)], summaries: &[usize]) -> [(u32, u32, u32); 2] {
    let row = |(at, (level, parent)): (usize, &(i64, &str))| {
        format!(r#"{{"Level":{level},"TaskID":"{}","ParentTaskID":"{parent}"}}"#, at + 1)
    };
    let rows: Vec<String> = rows.iter().enumerate().map(row).collect();
    let task = |id: &usize| format!(r#"{{"ID":"{id}","Name":"N","TaskTypeID":"SUMMARY"}}"#);
    let tasks: Vec<String> = summaries.iter().map(task).collect();
    let set = Set::empty().with(15, &array(&rows)).with(9, &array(&tasks));
    [set.mark(79), set.mark(80)]
}

const ALL: [usize; 5] = [1, 2, 3, 4, 5];
const HOLDS: (u32, u32, u32) = (0, 0, 0);

#[test]
fn a_level_of_one_names_no_parent() {
    assert_eq!(outline(&[(1, "1"), (1, ""), (1, "")], &ALL), [(1, 1, 0), HOLDS]);
    assert_eq!(outline(&[(1, ""), (1, "1"), (1, "")], &ALL), [(1, 2, 0), HOLDS]);
    assert_eq!(outline(&[(1, ""), (2, "1"), (1, "1")], &ALL), [(1, 3, 0), HOLDS]);
    // Not even where a lower Level stands before it: 79 is broken at once here,
    // and 80 has nothing to ask of Level 1.
    assert_eq!(outline(&[(0, ""), (1, "1")], &[]), [(1, 1, 0), HOLDS]);
}

#[test]
fn a_missing_parent_is_none() {
    assert_eq!(outline(&[(2, "1"), (1, "")], &ALL), [(1, 1, 0), HOLDS]);
    assert_eq!(outline(&[(1, ""), (0, "1"), (1, "")], &ALL), [(1, 2, 0), HOLDS]);
    assert_eq!(outline(&[(1, ""), (2, "1"), (0, "")], &ALL), [(1, 3, 0), HOLDS]);
    assert_eq!(outline(&[(1, ""), (2, "1"), (-3, "2")], &ALL), [(1, 3, 0), HOLDS]);
}

#[test]
fn a_wrong_parent_names_the_right_one() {
    assert_eq!(outline(&[(1, ""), (2, "2"), (2, "1")], &ALL)[0], (1, 2, 1));
    assert_eq!(outline(&[(1, ""), (2, ""), (2, "1")], &ALL)[0], (1, 2, 1));
    assert_eq!(outline(&[(1, ""), (2, "1"), (3, "1")], &ALL)[0], (1, 3, 2));
    assert_eq!(outline(&[(1, ""), (2, "1"), (2, "2")], &ALL)[0], (1, 3, 1));
    assert_eq!(outline(&[(1, ""), (2, "1"), (3, "2"), (3, "3"), (2, "1")], &ALL)[0], (1, 4, 2));
    assert_eq!(outline(&[(1, ""), (2, "1"), (3, "2"), (3, "2"), (2, "2")], &ALL)[0], (1, 5, 1));
    // The nearest row of lower Level, also across a broken run.
    assert_eq!(outline(&[(1, ""), (4, "1"), (4, "1"), (3, "2")], &ALL)[0], (1, 4, 1));
    assert_eq!(outline(&[(1, ""), (2, "1"), (1, ""), (4, "3"), (3, "2")], &ALL)[0], (1, 5, 3));
}

#[test]
fn a_child_of_no_summary_names_its_parent() {
    let rows = [(1, ""), (2, "1"), (3, "2"), (3, "2"), (2, "1")];
    assert_eq!(outline(&rows, &[1, 2]), [HOLDS, HOLDS]);
    assert_eq!(outline(&rows, &[2]), [HOLDS, (1, 2, 1)]);
    assert_eq!(outline(&rows, &[1]), [HOLDS, (1, 3, 2)]);
    let late = [(1, ""), (1, ""), (2, "2"), (1, ""), (2, "4")];
    assert_eq!(outline(&late, &[2]), [HOLDS, (1, 5, 4)]);
    let far = [(1, ""), (2, "1"), (3, "2"), (4, "3"), (3, "2")];
    assert_eq!(outline(&far, &[1, 2]), [HOLDS, (1, 4, 3)]);
    let back = [(1, ""), (1, ""), (3, "2"), (3, "2"), (2, "2")];
    assert_eq!(outline(&back, &[1]), [HOLDS, (1, 3, 2)]);
    // Below Level 1 the parent may stand further up, behind a row of Level 1.
    assert_eq!(outline(&[(-1, ""), (1, ""), (0, "1")], &[2])[1], (1, 3, 1));
    // The parent by the Levels, whatever is given.
    assert_eq!(outline(&[(1, ""), (2, "1"), (2, "9")], &[2, 9]), [(1, 3, 1), (1, 2, 1)]);
}

// ----------------------------------------------------------------- files

/// A file of three calendars, the one at `at` as given.
fn with_calendar(at: usize, record: &str) -> (u32, u32, u32) {
    let mut records = vec![r#"{"ID":"C1","Name":"{N"}"#.to_string(); 3];
    records[at] = record.to_string();
    file_mark(6, array(&records).as_bytes())
}

/// The same of three workshifts and of three calendar exceptions.
fn with_shift(at: usize, record: &str) -> (u32, u32, u32) {
    let mut records = vec![r#"{"CalendarID":"C1"}"#.to_string(); 3];
    records[at] = record.to_string();
    file_mark(7, array(&records).as_bytes())
}

fn with_exception(at: usize, record: &str) -> (u32, u32, u32) {
    let mut records = vec![r#"{"CalendarID":"C1","ExceptionDate":"2020-01-01"}"#.to_string(); 3];
    records[at] = record.to_string();
    file_mark(8, array(&records).as_bytes())
}

#[test]
fn a_fault_names_the_record_that_it_stands_in() {
    for at in 0..3 {
        let calendars = [
            (13, r#"{"id":"C1"}"#),
            (14, r#"{"ID":"C1","ID":"C1"}"#),
            (15, r#"{"ID":1}"#),
            (30, r#"{"ID":"\u0000"}"#),
            (31, r#"{"ID":" C1"}"#),
            (32, r#"{"ID":"é"}"#),
            (33, r#"{"Name":"\ud800"}"#),
        ];
        for (kind, record) in calendars {
            let (found, _, companion) = with_calendar(at, record);
            assert_eq!((found, companion), (kind, at as u32 + 1), "{record}");
        }
        let shifts = [(18, r#"{"MondayWorkHours":1e99}"#), (34, r#"{"Ordinal":0.5}"#)];
        for (kind, record) in shifts {
            let (found, _, companion) = with_shift(at, record);
            assert_eq!((found, companion), (kind, at as u32 + 1), "{record}");
        }
        let (kind, _, companion) = with_exception(at, r#"{"ExceptionDate":"2020-02-30"}"#);
        assert_eq!((kind, companion), (17, at as u32 + 1));
    }
}

#[test]
fn other_faults_name_no_record() {
    for at in 0..3 {
        let records = [
            (11, r#"{"ID":tru}"#),
            (11, r#"{"ID" "C1"}"#),
            (11, r#"{"ID":"C1",}"#),
            (12, "[]"),
            (12, "1"),
            (19, r#"{"ID":"C1"}"#),
            (19, "{}"),
        ];
        for (kind, record) in records {
            let (found, _, companion) = with_calendar(at, record);
            assert_eq!((found, companion), (kind, 0), "{record}");
        }
    }
    assert_eq!(file_mark(6, b"[{\"ID\":\"\xFF\"}]"), (10, 8, 0));
    assert_eq!(file_mark(6, b"[{\"\xFF\":1}]"), (10, 3, 0));
    assert_eq!(file_mark(0, b""), (22, 0, 0));
    assert_eq!(Set::empty().mark(3), (21, 0, 0));
}

#[test]
fn the_record_of_a_singleton_is_the_first() {
    assert_eq!(file_mark(2, br#"{"x":1}"#), (13, 1, 1));
    assert_eq!(file_mark(2, br#"{"Data_SoftwareName":null,"Data_SoftwareName":1}"#), (14, 26, 1));
    assert_eq!(file_mark(1, br#"{"EVMSAccepted":0}"#), (15, 16, 1));
    assert_eq!(file_mark(3, br#"{"StatusDate":""}"#), (17, 14, 1));
    assert_eq!(file_mark(1, br#"{"SecurityMarking":"U"}"#), (19, 22, 0));
    assert_eq!(file_mark(3, b"[{}]"), (12, 0, 0));
}

#[test]
fn the_last_record_and_one_too_many() {
    let good = r#"{"ID":"C1","Name":"CC"}"#;
    let with_last = |count: usize, last: &str| {
        let mut records = vec![good.to_string(); count];
        records[count - 1] = last.to_string();
        file_mark(6, array(&records).as_bytes())
    };
    let last = 1 + 4095 * 24;
    assert_eq!(with_last(4096, r#"{"id":1}"#), (13, last + 1, 4096));
    assert_eq!(with_last(4096, "{}"), (19, last + 1, 0));
    assert_eq!(with_last(4097, r#"{"id":1}"#), (20, last + 24, 0));
}

/// Counted by the opening braces outside of strings up to the fault.
fn records_before(front: &[u8]) -> u32 {
    let (mut records, mut in_string, mut is_escaped) = (0, false, false);
    for byte in front {
        match byte {
            _ if is_escaped => is_escaped = false,
            b'\\' if in_string => is_escaped = true,
            b'"' => in_string = !in_string,
            b'{' if !in_string => records += 1,
            _ => {}
        }
    }
    records
}

#[test]
fn the_place_lies_in_the_record_that_is_named() {
    let mut random = Random::new(5);
    let mut named = 0;
    for number in 1..20 {
        let contents = accepted().files[number].clone().unwrap();
        for _ in 0..400 {
            let mut file = contents.clone();
            let at = random.below(file.len());
            file[at] = random.pick(b"\"{}[]x0. \x7F\xC3");
            let (kind, place, companion) = file_mark(number, &file);
            let expected = match kind {
                13..=18 | 30..=34 => records_before(&file[..place as usize]),
                _ => 0,
            };
            assert_eq!(companion, expected, "{number} {kind} {place}");
            named += u32::from(companion > 1);
        }
    }
    assert!(named > 200);
}

// ----------------------------------------------------------------- board

#[test]
fn marks_that_hold_or_are_not_judged_name_none() {
    assert!(accepted().board().marks.iter().all(|mark| mark.companion == 0));
    let fresh = judge(b"").board;
    assert!(fresh.marks.iter().all(|mark| (mark.kind, mark.place, mark.companion) == (2, 0, 0)));
    let unread = accepted().with(6, "x");
    for mark in [22, 49, 50, 52, 58, 67] {
        assert_eq!(unread.mark(mark), (2, 0, 0));
    }
}

#[test]
fn all_other_rules_name_none() {
    let set = accepted();
    for (number, file) in set.files.iter().enumerate().skip(4) {
        // One record less in one file breaks many rules of others.
        let text = String::from_utf8(file.clone().unwrap()).unwrap();
        let end = text.find('}').unwrap() + 1;
        let rest = text[end..].trim_start_matches(|c: char| c == ',' || c.is_whitespace());
        let without_first = set.with(number, &format!("[{rest}"));
        for (mark, (kind, _, companion)) in without_first.faults() {
            assert_eq!(kind, 1);
            let may_name = (20..=35).contains(&mark) || mark == 79 || mark == 80;
            assert!(may_name || companion == 0, "mark {mark}");
        }
    }
}

/// Every mark with a companion that no judgement gives.
fn wild_board() -> Board {
    let mut board = Board::fresh();
    for (number, mark) in board.marks.iter_mut().enumerate() {
        let number = number as u32;
        *mark = Mark { kind: number % 3, place: 9 * number, companion: u32::MAX - number };
    }
    board
}

#[test]
fn a_change_keeps_the_companions_of_all_that_it_does_not_touch() {
    let bundle = accepted().bundle();
    let tasks = r#"[{"ID":"S1","Name":"N","TaskTypeID":"SUMMARY"},
        {"ID":"s1","Name":"N","TaskTypeID":"SUMMARY"}]"#;
    let verdict = try_change(&bundle, &wild_board(), 9, Some(tasks.as_bytes()));
    assert_eq!(verdict.refusal, 0);
    let touched = touched_marks(9);
    for (number, mark) in verdict.board.marks.iter().enumerate() {
        if !touched.contains(&number) {
            assert_eq!(*mark, wild_board().marks[number]);
        }
    }
    let mark = |number: usize| {
        let Mark { kind, place, companion } = verdict.board.marks[number];
        (kind, place, companion)
    };
    assert_eq!(mark(9), (0, 0, 0));
    assert_eq!(mark(25), (1, 2, 1));
    assert_eq!(mark(39), (0, 0, 0));
    assert_eq!(mark(51).2, 0);
    // The first child of the first parent that is no SUMMARY any more.
    assert_eq!(mark(80).0, 1);
    assert!(0 < mark(80).2 && mark(80).2 < mark(80).1);
}

#[test]
fn a_refused_change_keeps_all_companions() {
    let bundle = accepted().bundle();
    assert_eq!(try_change(&bundle, &wild_board(), 20, None).board, wild_board());
    assert_eq!(try_change(&bundle[..163], &wild_board(), 9, None).board, wild_board());
}

#[test]
fn a_changed_file_names_its_own_record() {
    let bundle = Set::empty().bundle();
    let calendars = br#"[{"ID":"C1","Name":"N"},{"ID":"C2","Name":"N"},{"ID":3}]"#;
    let board = try_change(&bundle, &wild_board(), 6, Some(calendars)).board;
    assert_eq!(board.marks[6], Mark { kind: 15, place: 53, companion: 3 });
    assert_eq!(board.marks[22], Mark { kind: 2, place: 0, companion: 0 });
}

#[test]
fn a_printed_mark_ends_in_its_companion() {
    let set = accepted()
        .with(6, r#"[{"ID":"C1","Name":"N"},{"ID":"C2","Name":"N"},{"ID":"C4","Name":" N"}]"#);
    let expected = "marks 81\n6 31 66 3\n22 2 0 0\n49 2 0 0\n50 2 0 0\n52 2 0 0\n58 2 0 0\n\
        67 2 0 0\nrefused 7\n";
    assert_eq!(report(&set.bundle()), expected);
    let only = Set::empty().with(
        16,
        r#"[{"ID":"R1","Name":"A","ElementOfCostID":"LABOR"},
        {"ID":"R2","Name":"B","ElementOfCostID":"LABOR"},
        {"ID":"r1","Name":"C","ElementOfCostID":"LABOR"}]"#,
    );
    let expected = "marks 81\n0 21 0 0\n1 21 0 0\n3 21 0 0\n32 1 3 1\n36 2 0 0\n37 2 0 0\n\
        65 2 0 0\n66 2 0 0\nrefused 8\n";
    assert_eq!(report(&only.bundle()), expected);
}
