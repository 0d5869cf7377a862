//! The cases P1 to P12 and the printed case of the empty bundle.

use crate::sample::{accepted, file_mark, Set};
use second::gate::touched_marks;
use second::print::report;

#[test]
fn p1_ids_are_compared_without_case() {
    let resources = r#"[{"ID":"ENG-01","Name":"A","ElementOfCostID":"LABOR"},
        {"ID":"eng-01","Name":"B","ElementOfCostID":"labor"}]"#;
    let set = Set::empty().with(16, resources);
    assert_eq!(set.mark(32), (1, 2, 1));
    assert_eq!(set.mark(46), (0, 0, 0));
}

#[test]
fn p2_ordinal_null_zero_and_zero_point_zero_are_one_value() {
    let forms =
        [r#","Ordinal":null"#, "", r#","Ordinal":0"#, r#","Ordinal":0.0"#, r#","Ordinal":-0"#];
    for first in forms {
        for second in forms {
            let shifts = format!(r#"[{{"CalendarID":"C"{first}}},{{"CalendarID":"c"{second}}}]"#);
            assert_eq!(Set::empty().with(7, &shifts).mark(23), (1, 2, 1));
        }
    }
    let shifts = r#"[{"CalendarID":"C"},{"CalendarID":"C","Ordinal":1}]"#;
    assert_eq!(Set::empty().with(7, shifts).mark(23), (0, 0, 0));
}

fn level(number: &str) -> (u32, u32, u32) {
    file_mark(15, format!(r#"[{{"Level":{number},"TaskID":"T"}}]"#).as_bytes())
}

fn hours(number: &str) -> (u32, u32, u32) {
    let text = format!(r#"[{{"CalendarID":"C","SundayWorkHours":{number}}}]"#);
    file_mark(7, text.as_bytes())
}

#[test]
fn p3_an_integer_is_whole_by_value() {
    assert_eq!(level("10e-1"), (0, 0, 0));
    assert_eq!(Set::empty().with(15, r#"[{"Level":10e-1,"TaskID":"T"}]"#).mark(78), (0, 0, 0));
    // 15 in document 01; 34 since order 4.
    assert_eq!(level("0.5"), (34, 10, 1));
}

#[test]
fn p4_minus_zero_is_not_below_zero() {
    let shifts = |number: &str| {
        let text = format!(r#"[{{"CalendarID":"C","SundayWorkHours":{number}}}]"#);
        Set::empty().with(7, &text)
    };
    assert_eq!(shifts("-0").mark(68), (0, 0, 0));
    assert_eq!(shifts("-0.1").mark(68), (1, 1, 0));
    assert_eq!(shifts("-0").mark(69), (1, 1, 0));
}

/// The second half as order 1 has it: c 1, p 15 as a Decimal.
#[test]
fn p5_fifteen_digits_fit() {
    assert_eq!(hours("999999999999999"), (0, 0, 0));
    assert_eq!(hours("1000000000000000"), (0, 0, 0));
    assert_eq!(hours("1000000000000001"), (18, 37, 1));
    assert_eq!(level("999999999999999"), (0, 0, 0));
    assert_eq!(level("1000000000000000"), (18, 10, 1));
}

#[test]
fn p6_powers_of_ten() {
    assert_eq!(hours("1e15"), (0, 0, 0));
    assert_eq!(hours("1e16"), (18, 37, 1));
    assert_eq!(level("1e15"), (18, 10, 1));
}

/// The numbers that order 1 names.
#[test]
fn order_1_trailing_zeros_do_not_count() {
    assert_eq!(hours("8.0000000000000000"), (0, 0, 0));
    assert_eq!(hours("0e99"), (0, 0, 0));
    assert_eq!(hours("10e15"), (18, 37, 1));
    assert_eq!(level("8.0000000000000000"), (0, 0, 0));
    assert_eq!(level("0e99"), (0, 0, 0));
    assert_eq!(level("10e15"), (18, 10, 1));
}

#[test]
fn p7_leap_days() {
    let exception = |date: &str| {
        file_mark(8, format!(r#"[{{"CalendarID":"C","ExceptionDate":"{date}"}}]"#).as_bytes())
    };
    assert_eq!(exception("2000-02-29"), (0, 0, 0));
    assert_eq!(exception("1900-02-29"), (17, 35, 1));
}

#[test]
fn p8_two_spaces_break_string_and_not_text() {
    assert_eq!(file_mark(2, br#"{"Data_SoftwareName":"A  B"}"#), (31, 24, 1));
    assert_eq!(file_mark(2, br#"{"Data_SoftwareComments":"A  B"}"#), (0, 0, 0));
}

fn software(name: &str, value: &str) -> (u32, u32, u32) {
    file_mark(2, format!(r#"{{"{name}":"{value}"}}"#).as_bytes())
}

fn calendar_id(id: &str) -> (u32, u32, u32) {
    file_mark(6, format!(r#"[{{"ID":"{id}","Name":"N"}}]"#).as_bytes())
}

/// A mark with its place counted from a byte of the file, if it has one.
fn counted_from(start: u32, (kind, place, companion): (u32, u32, u32)) -> (u32, u32, u32) {
    (kind, if kind == 0 { place } else { place - start }, companion)
}

/// The mark of a file with such a value; its place is counted from the byte
/// after the value's opening quote.
fn as_string(value: &str) -> (u32, u32, u32) {
    counted_from(22, software("Data_SoftwareName", value))
}

fn as_text(value: &str) -> (u32, u32, u32) {
    counted_from(26, software("Data_SoftwareComments", value))
}

fn as_id(value: &str) -> (u32, u32, u32) {
    counted_from(8, calendar_id(value))
}

/// The characters of the list, but for the space that may stand single and
/// inside, and those that JSON has to escape.
const WHITE_CHARACTERS: [char; 19] = [
    '\u{85}', '\u{a0}', '\u{1680}', '\u{2000}', '\u{2001}', '\u{2002}', '\u{2003}', '\u{2004}',
    '\u{2005}', '\u{2006}', '\u{2007}', '\u{2008}', '\u{2009}', '\u{200a}', '\u{2028}', '\u{2029}',
    '\u{202f}', '\u{205f}', '\u{3000}',
];

#[test]
fn order_2_a_string_has_no_whitespace_but_single_inner_spaces() {
    for c in WHITE_CHARACTERS {
        let code = u32::from(c);
        for written in [c.to_string(), format!("\\u{code:04x}"), format!("\\u{code:04X}")] {
            for (front, back) in
                [("", ""), ("", "A"), ("A", "B"), ("A", ""), ("A", "*B"), ("A ", "B"), ("A", " B")]
            {
                let value = format!("{front}*{back}").replace('*', &written);
                let place = front.len() as u32;
                assert_eq!(as_string(&value), (31, place, 1), "{value}");
                assert_eq!(as_text(&value), (0, 0, 0), "{value}");
                assert_eq!(as_id(&value), (32, place, 1), "{value}");
            }
        }
    }
    for escape in ["\\t", "\\n", "\\r", "\\u0009", "\\u000a", "\\u000D"] {
        let value = format!("A{escape}B");
        assert_eq!(as_string(&value), (31, 1, 1), "{value}");
        assert_eq!(as_text(&value), (0, 0, 0), "{value}");
        assert_eq!(as_id(&value), (31, 1, 1), "{value}");
    }
    // These two are barred, so Text takes them no more than the others.
    for escape in ["\\u000b", "\\u000C", "\\f"] {
        let value = format!("A{escape}B");
        assert_eq!(as_string(&value), (30, 1, 1), "{value}");
        assert_eq!(as_text(&value), (30, 1, 1), "{value}");
        assert_eq!(as_id(&value), (30, 1, 1), "{value}");
    }
    assert_eq!(as_string("A B"), (0, 0, 0));
    assert_eq!(as_id("A B"), (0, 0, 0));
}

#[test]
fn order_2_only_the_list_is_whitespace() {
    let beside = "\u{84}\u{86}\u{9f}\u{a1}\u{167f}\u{1681}\u{1fff}\u{200b}\u{2027}\u{202a}\u{202e}\
        \u{2030}\u{205e}\u{2060}\u{2fff}\u{3001}";
    let unseen = "\u{180e}\u{200c}\u{2800}\u{3164}\u{feff}";
    // The low 16 bits of the first three, and the low 8 of the others, are white.
    let alike = "\u{12000}\u{12028}\u{13000}\u{1f0a0}\u{120}\u{1a0}";
    for c in [beside, unseen, alike].concat().chars() {
        assert_eq!(as_string(&format!("{c}A {c}{c}")), (0, 0, 0), "{c:?}");
        assert_eq!(as_id(&format!("A{c}")), (32, 1, 1), "{c:?}");
    }
    for pair in ["\\uD808\\uDC00", "\\ud80c\\udc00", "\\uD83C\\uDCA0"] {
        assert_eq!(as_string(pair), (0, 0, 0), "{pair}");
    }
}

#[test]
fn order_4_a_wrong_space_is_at_an_end_or_after_another() {
    for judged in [as_string, as_id] {
        assert_eq!(judged("A B"), (0, 0, 0));
        assert_eq!(judged(r"A\u0020B"), (0, 0, 0));
        assert_eq!(judged(" A"), (31, 0, 1));
        assert_eq!(judged("A "), (31, 1, 1));
        assert_eq!(judged("A  "), (31, 2, 1));
        assert_eq!(judged("A  B"), (31, 2, 1));
        assert_eq!(judged(r"A\u0020 B"), (31, 7, 1));
        assert_eq!(judged(r"A \u0020B"), (31, 2, 1));
        assert_eq!(judged(r"\u0020A"), (31, 0, 1));
        assert_eq!(judged(r"A\u0020"), (31, 1, 1));
    }
    assert_eq!(as_text(r"  A\u0020 "), (0, 0, 0));
}

/// The numbers are the places in the whole file.
#[test]
fn order_4_the_place_is_the_first_byte_of_the_wrong_character() {
    assert_eq!(file_mark(2, br#"{"Data_SoftwareName":"A  "}"#), (31, 24, 1));
    assert_eq!(file_mark(2, br#"{"Data_SoftwareName":" A"}"#), (31, 22, 1));
    assert_eq!(file_mark(2, br#"{"Data_SoftwareName":"A "}"#), (31, 23, 1));
    assert_eq!(file_mark(2, br#"{"Data_SoftwareName":"A\u0020 B"}"#), (31, 29, 1));
    assert_eq!(file_mark(2, br#"{"Data_SoftwareName":"A\u000B"}"#), (30, 23, 1));
    assert_eq!(file_mark(6, br#"[{"ID":"A\u00e9","Name":"N"}]"#), (32, 9, 1));
    assert_eq!(file_mark(2, br#"{"Data_SoftwareComments":"\ud800"}"#), (33, 26, 1));
}

/// As Text, String and StringID.
#[test]
fn order_4_one_character_with_two_faults_takes_the_lower_kind() {
    let kinds = |value: &str| [as_text(value), as_string(value), as_id(value)].map(|mark| mark.0);
    assert_eq!(kinds(r"A\tB"), [0, 31, 31]);
    assert_eq!(kinds(r"A\u000BB"), [30, 30, 30]);
    assert_eq!(kinds("A\u{7f}B"), [30, 30, 30]);
    assert_eq!(kinds("A\u{a0}B"), [0, 31, 32]);
    assert_eq!(kinds(r"A\u00a0B"), [0, 31, 32]);
    assert_eq!(kinds("A\u{e9}B"), [0, 0, 32]);
    assert_eq!(kinds(r"A\uD800B"), [33, 33, 32]);
    assert_eq!(kinds(r"A\uDC00B"), [33, 33, 32]);
    assert_eq!(kinds(r"A\uD83D\uDE00B"), [0, 0, 32]);
}

#[test]
fn order_4_the_first_wrong_character_counts() {
    // Behind a character of four bytes.
    assert_eq!(as_string("\u{1f600}  B"), (31, 5, 1));
    assert_eq!(as_string("\u{1f600}\u{a0}"), (31, 4, 1));
    assert_eq!(as_text("\u{1f600}\u{7f}"), (30, 4, 1));
    assert_eq!(as_text("\u{1f600}\\ud800"), (33, 4, 1));
    assert_eq!(as_string(r"\uD83D\uDE00\t"), (31, 12, 1));
    // The last one before the closing quote.
    assert_eq!(as_string("AB\u{a0}"), (31, 2, 1));
    assert_eq!(as_text(r"AB\u0000"), (30, 2, 1));
    assert_eq!(as_id("AB\u{1f600}"), (32, 2, 1));
    assert_eq!(as_string(r"AB\ud800"), (33, 2, 1));
    // One behind another, of a lower kind or a higher one.
    assert_eq!(as_string(r"A  \u0000"), (31, 2, 1));
    assert_eq!(as_string(r"A\u0000  B"), (30, 1, 1));
    assert_eq!(as_text(r"A\uD800\u0000"), (33, 1, 1));
    assert_eq!(as_text(r"A\u0000\uD800"), (30, 1, 1));
    assert_eq!(as_id("A\u{e9} "), (32, 1, 1));
    assert_eq!(as_id("A  \u{e9}"), (31, 2, 1));
    assert_eq!(as_text(r"A\t \u0000"), (30, 4, 1));
}

#[test]
fn order_4_a_number_that_is_not_whole_is_34_and_no_number_15() {
    assert_eq!(level("0.5"), (34, 10, 1));
    assert_eq!(level("-15e-1"), (34, 10, 1));
    assert_eq!(level("1.0"), (0, 0, 0));
    assert_eq!(level("1e-16"), (18, 10, 1));
    assert_eq!(level(r#""x""#), (15, 10, 1));
    assert_eq!(level(r#"" ""#), (15, 10, 1));
    assert_eq!(level("true"), (15, 10, 1));
    assert_eq!(level("[0.5]"), (15, 10, 1));
    assert_eq!(hours("0.5"), (0, 0, 0));
    assert_eq!(hours(r#""0.5""#), (15, 37, 1));
    assert_eq!(file_mark(2, br#"{"Data_SoftwareName":0.5}"#), (15, 21, 1));
}

fn calendars(ids: [&str; 2]) -> Set {
    let [first, second] = ids.map(|id| format!(r#"{{"ID":"{id}","Name":"N"}}"#));
    Set::empty().with(6, &format!("[{first},{second}]"))
}

fn shift_of(calendar: &str, id: &str) -> Set {
    let shift = format!(r#"[{{"CalendarID":"{id}"}}]"#);
    let calendar = format!(r#"[{{"ID":"{calendar}","Name":"N"}}]"#);
    Set::empty().with(6, &calendar).with(7, &shift)
}

/// Both in one file, and one in each of two.
fn are_one(first: &str, second: &str) -> bool {
    let (key, target) = (calendars([first, second]).mark(22), shift_of(first, second).mark(49));
    assert_eq!(key == (1, 2, 1), target == (0, 0, 0));
    assert_eq!(key == (0, 0, 0), target == (1, 1, 0));
    key == (1, 2, 1)
}

/// The promise that stays when IDs are compared where they stand.
#[test]
fn order_3_ids_are_one_by_their_folded_characters_however_long_and_written() {
    for count in [0, 1, 20, 200_000] {
        let front = "K/".repeat(count / 2);
        let ids = |first: &str, second: &str| {
            are_one(&format!("{front}{first}"), &format!("{front}{second}"))
        };
        for same in ["A", "a", "\\u0041", "\\u0061"] {
            assert!(ids("A", same) && ids(same, "a"), "{count} {same}");
        }
        assert!(ids("/", "\\/") && ids("\\u002f", "\\u002F"));
        for other in ["B", "\\u0042", "@", "`", "\\\\u0041", "AA", "A\\u0041", "u0041"] {
            assert!(!ids("A", other) && !ids(other, "\\u0061"), "{count} {other}");
        }
    }
    let front = "K/".repeat(100_000);
    let escaped = "k\\/".repeat(100_000);
    assert!(are_one(&format!("{front}A"), &format!("{escaped}a")));
    assert!(!are_one(&format!("{front}A"), &format!("{escaped}b")));
    assert!(!are_one(&format!("A{front}"), &format!("B{escaped}")));
    assert!(!are_one(&front, &format!("{escaped}k")));
}

/// An outline of these levels and parents, with TaskIDs 1, 2, 3 and so on.
fn outline(rows: &[(i64, &str)]) -> Set {
    let row = |(index, (level, parent)): (usize, &(i64, &str))| {
        format!(r#"{{"Level":{level},"TaskID":"{}","ParentTaskID":"{parent}"}}"#, index + 1)
    };
    let rows: Vec<String> = rows.iter().enumerate().map(row).collect();
    Set::empty().with(15, &format!("[{}]", rows.join(",")))
}

#[test]
fn p9_parents() {
    let rows = [(1, ""), (2, "1"), (3, "2"), (3, "2"), (2, "1")];
    let parents = [0, 1, 2, 2, 1];
    assert_eq!(outline(&rows).mark(79), (0, 0, 0));
    for wrong in 0..5 {
        for parent in ["", "1", "2", "3", "4", "5"] {
            let mut changed = rows;
            if changed[wrong].1 == parent {
                continue;
            }
            changed[wrong].1 = parent;
            assert_eq!(outline(&changed).mark(79), (1, wrong as u32 + 1, parents[wrong]));
        }
    }
}

#[test]
fn p10_level_runs() {
    assert_eq!(outline(&[(1, ""), (3, "1")]).mark(78), (1, 2, 0));
    assert_eq!(outline(&[(1, ""), (1, "")]).mark(78), (0, 0, 0));
}

#[test]
fn p11_missing_values() {
    assert_eq!(file_mark(16, br#"[{"ID":"R1","Name":"Fitter"}]"#), (19, 27, 0));
    assert_eq!(file_mark(16, b"[{}]"), (19, 2, 0));
    assert_eq!(file_mark(16, b"[]"), (0, 0, 0));
}

#[test]
fn p12_marks_touched_by_file_9() {
    let expected: Vec<usize> = [9, 25]
        .into_iter()
        .chain(39..=42)
        .chain([51, 53])
        .chain(55..=57)
        .chain([59, 60, 64])
        .chain(71..=74)
        .chain([80])
        .collect();
    assert_eq!(touched_marks(9), expected);
    assert_eq!(expected.len(), 19);
}

#[test]
fn the_empty_bundle_prints_seven_marks() {
    let expected = "marks 81\n0 21 0 0\n1 21 0 0\n3 21 0 0\n36 2 0 0\n37 2 0 0\n65 2 0 0\n\
        66 2 0 0\nrefused 7\n";
    assert_eq!(report(&Set::empty().bundle()), expected);
}

#[test]
fn an_accepted_bundle_prints_so() {
    assert_eq!(report(&accepted().bundle()), "marks 81\naccepted\n");
}

#[test]
fn a_refused_bundle_prints_only_its_refusal() {
    assert_eq!(report(b""), "bundle 1\n");
    assert_eq!(report(&[0; 163]), "bundle 1\n");
    assert_eq!(report(&[0; 164]), "bundle 2\n");
    let mut longer = Set::empty().bundle();
    longer.push(0);
    assert_eq!(report(&longer), "bundle 3\n");
}

#[test]
fn the_judging_program_takes_65536_bytes() {
    let spaces = |count: usize| Set::empty().with(4, &format!("[]{}", " ".repeat(count)));
    let fits = spaces(65_536 - 164 - 2).bundle();
    assert_eq!(fits.len(), 65_536);
    assert!(report(&fits).starts_with("marks 81\n"));
    assert_eq!(report(&spaces(65_536 - 164 - 1).bundle()), "bundle 1\n");
}
