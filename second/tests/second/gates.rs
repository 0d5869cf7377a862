//! Orders 8 and 9: the baseline profile and the contract side's gate.

use second::board::{Mark, HOLDS, NOT_JUDGED};
use second::bundle::FileState;
use second::compare::gates::files::Files;
use second::compare::gates::readings::{readings, Said};
use second::compare::gates::Which::{self, Baseline, Contract};
use second::gates::calls::{judge, make_change, try_change};
use second::gates::layout::look_up;
use second::gates::print::report;
use second::gates::reason::reason;
use second::gates::Gate;
use second::reason::{Reason, Shown};

/// In the words of the readings.
fn told(gate: &Gate, bundle: &[u8], mark: usize) -> String {
    let (shown, searched) = match reason(gate, bundle, mark) {
        Reason::Refused(refusal) => return format!("refused {refusal}"),
        Reason::Holds => return "holds".to_string(),
        Reason::NotJudged { file } => return format!("not judged {file}"),
        Reason::OwnMark(Mark { kind, place, companion }) => {
            return format!("file {kind} {place} {companion}")
        }
        Reason::Broken(shown) => (shown, 0),
        Reason::Missing { shown, searched } => (shown, searched),
    };
    let Shown { file, record, companion, field, start, length } = shown;
    let name = (gate.fields)(file)[field].name;
    let value = match String::from_utf8(shown.value(bundle).to_vec()).unwrap() {
        empty if empty.is_empty() => "empty".to_string(),
        value => value,
    };
    format!(
        "rule {mark} file {file} record {record} companion {companion} field {name} \
        at {start} length {length} value {value} searched {searched}"
    )
}

fn triple(mark: Mark) -> (u32, u32, u32) {
    (mark.kind, mark.place, mark.companion)
}

#[test]
fn the_readings_have_their_answers() {
    for reading in readings() {
        let gate = reading.which.gate();
        match reading.answer {
            Said::Printed(lines) => {
                let expected = lines.replace(" / ", "\n");
                assert_eq!(report(gate, &reading.bundle), expected, "{}", reading.name);
            }
            Said::Marks(marks) => {
                let board = judge(gate, &reading.bundle).marks;
                for (number, mark) in marks {
                    assert_eq!(triple(board[*number]), *mark, "{} {number}", reading.name);
                }
            }
            Said::Reason(mark, words) => {
                assert_eq!(told(gate, &reading.bundle, mark), words, "{}", reading.name);
            }
        }
    }
}

/// 8.6, 9.9 and 9.10.
#[test]
fn a_change_touches_the_marks_that_read_the_file() {
    let touched = |which: Which, file| which.gate().touched_marks(file);
    assert_eq!(touched(Baseline, 19), [19, 35, 63, 64, 84]);
    assert_eq!(touched(Baseline, 10), [10, 26, 51, 52, 73, 75, 81, 82, 83]);
    assert_eq!(touched(Baseline, 3), [3, 37]);
    assert_eq!(touched(Contract, 0), [0, 4, 8]);
    assert_eq!(touched(Contract, 1), [1, 5, 9, 11, 13, 15, 17]);
    assert_eq!(touched(Contract, 2), [2, 6, 8, 10, 12, 14, 16, 18]);
    assert_eq!(touched(Contract, 3), [3, 7, 11, 12, 17, 18]);
}

/// 8.6 and 9.13: as many marks as the gate has, handed back by every refusal.
#[test]
fn refusals_have_the_boards_of_their_gate() {
    for (which, marks, files, header) in [(Baseline, 85, 20, 164), (Contract, 19, 4, 36)] {
        let gate = which.gate();
        let none = Files::empty(which).bundle();
        assert_eq!(none.len(), header);
        let refused = judge(gate, &none[1..]);
        assert_eq!((refused.refusal, refused.marks), (1, vec![NOT_JUDGED; marks]));
        let board = vec![Mark { kind: 9, place: 9, companion: 9 }; marks];
        let tried = try_change(gate, &none, &board, files, None);
        assert_eq!((tried.refusal, tried.length, &tried.marks), (4, 0, &board));
        let long = vec![b' '; 1_048_577 - header];
        let tried = try_change(gate, &none, &board, 0, Some(&long));
        assert_eq!((tried.refusal, &tried.marks), (6, &board));
        let mut output = vec![7; header + 1];
        let made = make_change(gate, &none, &board, 0, Some(b"[]"), &mut output);
        assert_eq!((made.refusal, &made.marks), (5, &board));
        assert_eq!(output, vec![7; header + 1]);
        let mut output = vec![7; header + 3];
        let made = make_change(gate, &none, &board, 1, Some(b"[]"), &mut output);
        assert_eq!((made.refusal, made.length), (0, header + 2));
        assert_eq!(output[..header + 2], Files::empty(which).with(1, b"[]").bundle());
        assert_eq!(output[header + 2..], [7]);
        assert_eq!(look_up(gate, &none, files), (FileState::Refused(4), &b""[..]));
        assert_eq!(look_up(gate, &none, 1), (FileState::Omitted, &b""[..]));
        assert_eq!(look_up(gate, &output[..header + 2], 1), (FileState::Present, &b"[]"[..]));
        assert_eq!(told(gate, &none, marks), "refused 7");
        assert_eq!(told(gate, &none[1..], marks), "refused 1");
    }
}

/// Order 8: without the four marks the profile is the schedule gate.
#[test]
fn the_profile_keeps_the_first_81_marks() {
    let set = crate::sample::accepted();
    let gate = Baseline.gate();
    for number in 0..20 {
        for contents in ["[", "", "[]", "{}"] {
            let bundle = set.with(number, contents).bundle();
            let judged = judge(gate, &bundle).marks;
            assert_eq!(judged[..81], second::gate::judge(&bundle).board.marks);
            for mark in 0..81 {
                assert_eq!(reason(gate, &bundle, mark), second::reason::reason(&bundle, mark));
            }
        }
    }
    let marks = judge(gate, &set.bundle()).marks;
    assert_eq!(marks[81..].iter().map(|mark| mark.place).collect::<Vec<_>>(), [1, 4, 0, 4]);
}

fn contract(contents: &[(usize, &str)]) -> Files {
    contents
        .iter()
        .fold(Files::empty(Contract), |set, (file, text)| set.with(*file, text.as_bytes()))
}

const TREE: &str = r#"[{"Level":1,"ID":"A","Name":"n"},{"Level":2,"ID":"B","Name":"n","ParentID":"a"},
    {"Level":3,"ID":"C","Name":"n","ParentID":"B"}]"#;

/// The reasons of the contract side: the field of each rule, and the file
/// searched by 8 to 12.
#[test]
fn the_contract_side_has_reasons() {
    let gate = Contract.gate();
    let of = |contents: &[(usize, &str)], mark: usize, expected: &str| {
        assert_eq!(told(gate, &contract(contents).bundle(), mark), expected);
    };
    let twice = r#"[{"ID":"x","Name":"n"},{"Name":"n","ID":"\u0058"}]"#;
    of(
        &[(0, twice)],
        4,
        r#"rule 4 file 0 record 2 companion 1 field ID at 76 length 8 value "\u0058" searched 0"#,
    );
    let obs = r#"[{"Level":1,"ID":"o","Name":"n","SubcontractorID":"z","ParentID":"y"}]"#;
    of(
        &[(0, "[]"), (2, obs)],
        8,
        r#"rule 8 file 2 record 1 companion 0 field SubcontractorID at 88 length 3 value "z" searched 0"#,
    );
    of(
        &[(2, obs)],
        10,
        r#"rule 10 file 2 record 1 companion 0 field ParentID at 101 length 3 value "y" searched 2"#,
    );
    of(
        &[(2, obs)],
        16,
        r#"rule 16 file 2 record 1 companion 0 field ParentID at 101 length 3 value "y" searched 0"#,
    );
    let on_b = r#"[{"ID":"k","Name":"n","WBSElementID":"b","OBSElementID":"q"}]"#;
    of(
        &[(1, TREE), (3, on_b)],
        17,
        r#"rule 17 file 3 record 1 companion 0 field WBSElementID at 205 length 3 value "b" searched 0"#,
    );
    of(
        &[(1, TREE), (3, on_b)],
        12,
        r#"rule 12 file 3 record 1 companion 0 field OBSElementID at 224 length 3 value "q" searched 2"#,
    );
    of(&[(1, TREE), (3, on_b)], 11, "holds");
    of(&[(1, TREE), (3, on_b)], 18, "holds");
    let second_root = TREE.replace("\"Level\":3", "\"Level\":1");
    of(
        &[(1, &second_root)],
        13,
        "rule 13 file 1 record 3 companion 0 field Level at 130 length 1 value 1 searched 0",
    );
    let no_parent = TREE.replace(r#","ParentID":"B""#, r#","ParentID":"""#);
    of(
        &[(1, &no_parent)],
        15,
        "rule 15 file 1 record 3 companion 2 field ParentID at 0 length 0 value empty searched 0",
    );
    of(&[(1, "["), (3, "[")], 17, "not judged 1");
    of(&[(0, "["), (3, "[")], 17, "not judged 3");
    of(&[(1, "[{}]")], 1, "file 19 2 0");
}

/// The baseline's marks by themselves: which record, and which field decides.
#[test]
fn the_profile_has_reasons() {
    let gate = Baseline.gate();
    let fields = |set: &Files, mark: usize| match reason(gate, &set.bundle(), mark) {
        Reason::Broken(shown) => {
            let value = String::from_utf8(shown.value(&set.bundle()).to_vec()).unwrap();
            (shown.record, (gate.fields)(shown.file)[shown.field].name, value)
        }
        other => panic!("{other:?}"),
    };
    let schedules = |more: &[&str]| {
        let rows: Vec<String> =
            more.iter().map(|more| crate::sample::schedule("T", "C", more)).collect();
        Files::empty(Baseline).with(10, crate::sample::array(&rows).as_bytes())
    };
    let whole = crate::sample::BASELINE;
    let late = whole.replace("2020-01-01", "2020-01-07");
    let half = r#","FinishVarianceDuration":1,"BaselineDuration":0"#;
    let actual = r#","ActualFinishDate":"2020-02-02","ActualStartDate":"2020-02-01""#;
    let given = |text: &str| text.to_string();
    assert_eq!(fields(&schedules(&[whole, half]), 81), (2, "BaselineStartDate", given("")));
    let start = given("\"2020-02-01\"");
    assert_eq!(fields(&schedules(&[whole, actual]), 82), (2, "ActualStartDate", start));
    let start = given("\"2020-01-07\"");
    assert_eq!(fields(&schedules(&[whole, &late]), 83), (2, "BaselineStartDate", start));
    assert_eq!(judge(gate, &schedules(&[whole, half]).bundle()).marks[83], HOLDS);
}

/// 8.3 and 8.5: other actual dates and amounts are not asked about.
#[test]
fn only_files_10_and_19_have_progress() {
    let project = r#"{"StatusDate":"2020-01-31","CurrentStartDate":"2020-01-01",
        "CurrentFinishDate":"2020-12-31","DurationUnitsID":"DAYS","BaselineStartDate":"2020-02-01",
        "BaselineFinishDate":"2020-01-01","ActualStartDate":"2020-01-01"}"#;
    let amounts = r#"[{"ResourceID":"R","TaskID":"T","Budget_AtCompletion_Dollars":1,
        "Budget_AtCompletion_Hours":1,"Estimate_ToComplete_Dollars":1,
        "Estimate_ToComplete_Hours":1,"PhysicalPercentComplete":50}]"#;
    let set = Files::empty(Baseline).with(3, project.as_bytes()).with(19, amounts.as_bytes());
    assert_eq!(set.board()[81..], [HOLDS; 4]);
    assert_eq!(set.board()[3], HOLDS);
}

/// 9.13: the program takes 65,536 bytes.
#[test]
fn a_program_takes_no_more_than_its_limit() {
    for which in [Baseline, Contract] {
        let gate = which.gate();
        let room = 65_536 - gate.header();
        let full = Files::empty(which).with(2, &vec![b' '; room]).bundle();
        assert!(report(gate, &full).starts_with("marks "));
        let over = Files::empty(which).with(2, &vec![b' '; room + 1]).bundle();
        assert_eq!(report(gate, &over), "bundle 1\n");
        assert_eq!(judge(gate, &over).refusal, 0);
    }
}

#[test]
fn the_programs_know_the_gates() {
    use std::io::Write;
    use std::process::{Command, Stdio};
    let run = |program: &str, arguments: &[&str], input: &[u8]| {
        let mut command = Command::new(program);
        command.args(arguments).stdin(Stdio::piped()).stdout(Stdio::piped()).stderr(Stdio::null());
        let mut child = command.spawn().unwrap();
        // A program that is used in a wrong way doesn't read.
        let _ = child.stdin.take().unwrap().write_all(input);
        String::from_utf8(child.wait_with_output().unwrap().stdout).unwrap()
    };
    let judging = env!("CARGO_BIN_EXE_second_judge");
    let telling = env!("CARGO_BIN_EXE_second_reasons");
    let none = Files::empty(Contract).bundle();
    assert_eq!(run(judging, &["--gate", "contract"], &none), "marks 19\naccepted\n");
    assert_eq!(run(telling, &["--gate", "contract", "--grouped"], &none), "marks 19\naccepted\n");
    assert_eq!(run(judging, &["--gate", "baseline"], &none), "bundle 1\n");
    let none = Files::empty(Baseline).bundle();
    assert!(run(judging, &["--gate", "baseline"], &none).starts_with("marks 85\n0 21 0 0\n"));
    assert!(run(telling, &["--gate", "baseline"], &none).starts_with("marks 85\n0 21 0 0 FileType"));
    assert!(run(judging, &[], &none).starts_with("marks 81\n"));
    assert_eq!(run(judging, &["--gate", "other"], &none), "");
    assert_eq!(run(telling, &["--gate"], &none), "");
}
