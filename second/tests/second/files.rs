//! Marks 0 to 19: each kind, and the order in which faults are found.

use crate::sample::{accepted, file_mark, Set};
use second::compare::random::Random;

/// Kind, place and companion.
type Triple = (u32, u32, u32);

fn marks(number: usize, expected: &[(&[u8], Triple)]) {
    for (contents, mark) in expected {
        let shown = String::from_utf8_lossy(contents);
        assert_eq!(file_mark(number, contents), *mark, "{number}: {shown}");
    }
}

#[test]
fn the_file_type_is_exact() {
    assert_eq!(file_mark(0, b"IPMDAR_SCHEDULE_PERFORMANCE_DATASET/1.0"), (0, 0, 0));
    for wrong in
        ["", "IPMDAR_SCHEDULE_PERFORMANCE_DATASET/1.0\n", "IPMDAR_SCHEDULE_PERFORMANCE_DATASET/1.1"]
    {
        assert_eq!(file_mark(0, wrong.as_bytes()), (22, 0, 0));
    }
}

#[test]
fn only_three_files_must_be_there() {
    for number in 0..20 {
        let set = accepted().without(number);
        let expected = if [0, 1, 3].contains(&number) { (21, 0, 0) } else { (0, 0, 0) };
        assert_eq!(set.mark(number), expected);
    }
}

#[test]
fn files_that_end_early() {
    marks(
        4,
        &[
            (b"", (11, 0, 0)),
            (b" \n", (11, 2, 0)),
            (b"[", (11, 1, 0)),
            (b"[{", (11, 2, 0)),
            (b"[{\"", (11, 3, 0)),
        ],
    );
    marks(
        1,
        &[
            (b"", (11, 0, 0)),
            (b"{", (11, 1, 0)),
            (b"{\"ContractName\"", (11, 15, 0)),
            (b"{\"ContractName\":", (11, 16, 0)),
        ],
    );
    let whole = br#" [ {"ID" : "C1" , "Name" : "N\u00e9" } , {"ID":"C2","Name":null} ] "#;
    for length in 0..whole.len() - 40 {
        assert_eq!(file_mark(6, &whole[..length]).0, 11, "{length}");
    }
}

#[test]
fn tables_are_arrays_of_objects() {
    marks(
        6,
        &[
            (b"{}", (12, 0, 0)),
            (b" {", (12, 1, 0)),
            (b"\"a\"", (12, 0, 0)),
            (b"\"a", (11, 2, 0)),
            (b"\"\xFF", (10, 1, 0)),
            (b" 12", (12, 1, 0)),
            (b"-", (11, 1, 0)),
            (b"true", (12, 0, 0)),
            (b"trux", (11, 3, 0)),
            (b"null", (12, 0, 0)),
            (b"x", (11, 0, 0)),
            (b"]", (11, 0, 0)),
            (b"[ 1", (12, 2, 0)),
            (b"[[]]", (12, 1, 0)),
            (b"[null]", (12, 1, 0)),
            (b"[nul]", (11, 4, 0)),
            (b"[\"\\x\"]", (11, 3, 0)),
            (b"[,]", (11, 1, 0)),
            (b"[] x", (11, 3, 0)),
            (b"[] []", (11, 3, 0)),
            (b"\xEF\xBB\xBF[]", (11, 0, 0)),
        ],
    );
    marks(
        2,
        &[
            (b"[", (12, 0, 0)),
            (b"[{}]", (12, 0, 0)),
            (b"1.", (11, 2, 0)),
            (b"{}", (0, 0, 0)),
            (b"{} {", (11, 3, 0)),
        ],
    );
}

#[test]
fn arrays_and_objects_are_punctuated() {
    marks(
        6,
        &[
            (br#"[{"ID":"C1","Name":"N"},]"#, (11, 24, 0)),
            (br#"[{"ID":"C1","Name":"N"} {"#, (11, 24, 0)),
            (br#"[{"ID":"C1","Name":"N",}]"#, (11, 23, 0)),
            (br#"[{"ID":"C1" "Name":"N"}]"#, (11, 12, 0)),
            (br#"[{"ID" "C1"}]"#, (11, 7, 0)),
            (br#"[{"ID":,}]"#, (11, 7, 0)),
            (br#"[{,}]"#, (11, 2, 0)),
            (br#"[{ID:1}]"#, (11, 2, 0)),
            (br#"[{"ID":"C1","Name":"N"}}"#, (11, 23, 0)),
            (b"[{\"ID\":\xC3\xA9}]", (11, 7, 0)),
            (b"[\t{ \"ID\"\n:\r\"C1\" , \"Name\" : \"N\" } ]\n", (0, 0, 0)),
        ],
    );
}

#[test]
fn names_are_judged_before_their_colon() {
    marks(
        6,
        &[
            (br#"[{"id":"C1"}]"#, (13, 2, 1)),
            (br#"[{"nope" x"#, (13, 2, 1)),
            (br#"[{"":1}]"#, (13, 2, 1)),
            (br#"[{"no\pe":1}]"#, (11, 6, 0)),
            (br#"[{"\uD800":1}]"#, (13, 2, 1)),
            (br#"[{"\u0049D":"C1","Name":"N"}]"#, (0, 0, 0)),
            (br#"[{"ID":"C1","\u0049\u0044" x"#, (14, 12, 1)),
            (br#"[{"ID":null,"ID":"C1","Name":"N"}]"#, (14, 12, 1)),
        ],
    );
    // A name of another table is unknown.
    marks(16, &[(br#"[{"TaskID":"T"}]"#, (13, 2, 1))]);
}

#[test]
fn values_have_the_json_kind_of_their_type() {
    marks(
        6,
        &[
            (br#"[{"ID":01}]"#, (15, 7, 1)),
            (br#"[{"ID":1.}]"#, (11, 9, 0)),
            (br#"[{"ID":true}]"#, (15, 7, 1)),
            (br#"[{"ID":trux}]"#, (11, 10, 0)),
            (br#"[{"ID":["#, (15, 7, 1)),
            (br#"[{"ID":{]"#, (15, 7, 1)),
            (br#"[{"ID":1e99}]"#, (15, 7, 1)),
        ],
    );
    marks(
        15,
        &[
            (br#"[{"Level":01}]"#, (11, 11, 0)),
            (br#"[{"Level":"1"}]"#, (15, 10, 1)),
            (br#"[{"Level":" \u0000"}]"#, (15, 10, 1)),
            (br#"[{"Level":false}]"#, (15, 10, 1)),
            (br#"[{"Level":1.5}]"#, (34, 10, 1)),
            (br#"[{"Level":1.5e-15}]"#, (18, 10, 1)),
            (br#"[{"Level":0.5e16}]"#, (18, 10, 1)),
            (br#"[{"Level":1000000000000000e-16}]"#, (34, 10, 1)),
            (br#"[{"Level":1000000000000001e-16}]"#, (18, 10, 1)),
            (br#"[{"Level":10000000000000000e-16,"TaskID":"T"}]"#, (0, 0, 0)),
            (br#"[{"Level":[1]}]"#, (15, 10, 1)),
        ],
    );
    marks(
        1,
        &[
            (br#"{"EVMSAccepted":1}"#, (15, 16, 1)),
            (br#"{"EVMSAccepted":"true"}"#, (15, 16, 1)),
            (br#"{"EVMSAccepted":truex}"#, (11, 20, 0)),
            (br#"{"EVMSAcceptanceDate":20200101}"#, (15, 22, 1)),
            (br#"{"EVMSAcceptanceDate":""}"#, (17, 22, 1)),
            (br#"{"EVMSAcceptanceDate":"2020-01-01\u0000"}"#, (17, 22, 1)),
            (br#"{"EVMSAcceptanceDate":"2020-01-0\x"}"#, (11, 33, 0)),
        ],
    );
}

#[test]
fn string_rules_by_type() {
    marks(
        6,
        &[
            ("[{\"ID\":\"é\"}]".as_bytes(), (32, 8, 1)),
            (br#"[{"ID":"\u0000"}]"#, (30, 8, 1)),
            (br#"[{"ID":"C1","Name":" N"}]"#, (31, 20, 1)),
            (br#"[{"ID":"C1","Name":"N\t"}]"#, (31, 21, 1)),
            (br#"[{"ID":"C1","Name":"N","Comments":"\ud800"}]"#, (33, 35, 1)),
            (b"[{\"ID\":\"C1\",\"Name\":\"N\",\"Comments\":\"\x7F\"}]", (30, 35, 1)),
            (b"[{\"ID\":\"C1\",\"Name\":\"N\t\"}]", (11, 21, 0)),
            (
                "[{\"ID\":\"C1\",\"Name\":\"é€\",\"Comments\":\" \\t\\n\\r \"}]".as_bytes(),
                (0, 0, 0),
            ),
            (br#"[{"ID":"C1","Name":"\uD83D\uDE00"}]"#, (0, 0, 0)),
            ("[{\"ID\":\"C1\",\"Name\":\"N\u{a0}1\"}]".as_bytes(), (31, 21, 1)),
            (br#"[{"ID":"C1","Name":"N\u00a0"}]"#, (31, 21, 1)),
            (br#"[{"ID":"C1","Name":"N","Comments":"\u00a0\u2028"}]"#, (0, 0, 0)),
            (br#"[{"ID":"C\u00a0"}]"#, (32, 9, 1)),
        ],
    );
}

/// A string is read whole before its characters are judged, and judged before
/// what follows it; a Date or a value of another JSON kind has no string rule.
#[test]
fn a_wrong_character_stands_in_reading_order() {
    marks(
        6,
        &[
            (br#"[{"ID":"  \x"}]"#, (11, 11, 0)),
            (b"[{\"ID\":\"  \xFF\"}]", (10, 10, 0)),
            (br#"[{"ID":"  "#, (11, 10, 0)),
            (br#"[{"ID":"  " x"#, (31, 8, 1)),
            (br#"[{"ID":"A\u0000","Name":" "}]"#, (30, 9, 1)),
            (br#"[{"Name":" ","ID":"\u0000"}]"#, (31, 10, 1)),
            (br#"[{"Name":" "}]"#, (31, 10, 1)),
            (br#"[{"ID":"C1","Name":"N"},{"ID":" C2","Name":"N"}]"#, (31, 31, 2)),
            (br#"[{" ID":"  "}]"#, (13, 2, 1)),
        ],
    );
    marks(8, &[(br#"[{"ExceptionDate":" \u0000"}]"#, (17, 18, 1))]);
    marks(
        7,
        &[
            (br#"[{"SundayWorkHours":" \ud800"}]"#, (15, 20, 1)),
            (br#"[{"Ordinal":"\t"}]"#, (15, 12, 1)),
        ],
    );
}

/// Outside strings only the four spaces of JSON are any, names are compared as
/// they are, and a Date is one or isn't.
#[test]
fn white_characters_elsewhere_are_judged_as_before() {
    marks(
        6,
        &[
            ("[\u{a0}]".as_bytes(), (11, 1, 0)),
            ("\u{2028}[]".as_bytes(), (11, 0, 0)),
            ("[]\u{3000}".as_bytes(), (11, 2, 0)),
            (b"[\x0B]", (11, 1, 0)),
            ("[{\"ID\u{a0}\":1}]".as_bytes(), (13, 2, 1)),
            (br#"[{"\u3000ID":1}]"#, (13, 2, 1)),
            ("[{\"ID\":\"C1\",\"Name\":\"\u{a0}".as_bytes(), (11, 22, 0)),
            (b"[{\"ID\":\"C1\",\"Name\":\"\xC2\"}]", (10, 20, 0)),
        ],
    );
    marks(8, &[("[{\"ExceptionDate\":\"2020-01-01\u{a0}\"}]".as_bytes(), (17, 18, 1))]);
    marks(15, &[("[{\"Level\":\"\u{a0}\"}]".as_bytes(), (15, 10, 1))]);
}

#[test]
fn nulls_are_missing_values() {
    marks(
        6,
        &[
            (br#"[{"ID":null,"Name":"N"}]"#, (19, 22, 0)),
            (br#"[{"ID":"","Name":"N"}]"#, (19, 20, 0)),
            (br#"[{"ID":"C1","Name":"N","Comments":""}]"#, (0, 0, 0)),
            (br#"[{"ID":"C1","Name":"N","Comments":null }]"#, (0, 0, 0)),
            (br#"[{"ID":"C1","Name":"N"},{"ID":"C2"   }]"#, (19, 37, 0)),
        ],
    );
    marks(1, &[(br#"{"SecurityMarking":"U","ReportingPeriodEndDate":null}"#, (19, 52, 0))]);
    marks(2, &[(br#"{"Data_SoftwareName":null,"Data_SoftwareVersion":""}"#, (0, 0, 0))]);
}

/// A table of so many records, each of 23 bytes and a comma, then more.
fn many_records(count: usize, more: &str) -> Vec<u8> {
    let record = r#"{"ID":"C1","Name":"CC"}"#;
    format!("[{}{more}", vec![record; count].join(",")).into_bytes()
}

#[test]
fn at_most_4096_records() {
    assert_eq!(file_mark(6, &many_records(4096, "]")), (0, 0, 0));
    let after = 1 + 4096 * 24;
    assert_eq!(file_mark(6, &many_records(4096, ",{")), (20, after, 0));
    assert_eq!(file_mark(6, &many_records(4096, ", {}]")), (20, after + 1, 0));
    assert_eq!(file_mark(6, &many_records(4096, ",[")), (12, after, 0));
    assert_eq!(file_mark(6, &many_records(4096, ",1]")), (12, after, 0));
    assert_eq!(file_mark(6, &many_records(4096, ",]")), (11, after, 0));
    assert_eq!(file_mark(6, &many_records(4096, ",tru")), (11, after + 3, 0));
}

#[test]
fn an_unreadable_file_leaves_its_rules_unjudged() {
    for number in 1..20 {
        let set = accepted().with(number, "x");
        let touched = second::gate::touched_marks(number);
        for (number_of_mark, mark) in set.faults() {
            let expected = if number_of_mark == number { (11, 0, 0) } else { (2, 0, 0) };
            assert_eq!(mark, expected);
            assert!(touched.contains(&number_of_mark));
        }
        assert_eq!(set.faults().len(), touched.len());
    }
}

#[test]
fn the_sample_is_accepted() {
    assert_eq!(accepted().faults(), []);
    assert_eq!(Set::empty().faults().len(), 7);
}

/// The file with one to three bytes changed, taken out or put in.
fn damaged(contents: &[u8], random: &mut Random) -> Vec<u8> {
    let bytes = b"\"\\{}[]:,-+.eE019tnf u\x00\x1F\x7F\x80\xC3\xFF";
    let mut changed = contents.to_vec();
    for _ in 0..1 + random.below(3) {
        let at = random.below(changed.len());
        match random.below(3) {
            0 => changed[at] = random.pick(bytes),
            1 => changed.insert(at, random.pick(bytes)),
            _ => drop(changed.remove(at)),
        }
    }
    changed
}

/// Up to the place of a kind 11 the text could have gone on, so what stands
/// before it either ends early just there or is a whole file. What follows an
/// opening byte judged at once is never read.
#[test]
fn faults_stand_at_the_first_place_they_can() {
    let mut random = Random::new(11);
    for number in 1..20 {
        let contents = accepted().files[number].clone().unwrap();
        for _ in 0..400 {
            let file = damaged(&contents, &mut random);
            let (kind, place, companion) = file_mark(number, &file);
            let front = &file[..place as usize];
            if kind == 11 {
                let expected = [(11, place, 0), (0, 0, 0)];
                assert!(expected.contains(&file_mark(number, front)), "{number} {place}");
            }
            let at_once = matches!(file.get(place as usize), Some(b'{' | b'['));
            if at_once && kind != 0 {
                let cut = &file[..place as usize + 1];
                assert_eq!(file_mark(number, cut), (kind, place, companion));
            }
        }
    }
}
