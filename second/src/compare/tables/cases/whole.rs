//! Files as a whole: omitted, empty, of another JSON kind, with more after
//! their value; and file 0.

use super::draft::{text, Draft};
use super::values::VALUES;
use super::{inserted, joined, removed, replaced, tables, Cases, FOUR_SPACES, ODD_BYTES};
use crate::table::{is_singleton, FILE_TYPE};

pub(super) fn add(cases: &mut Cases) {
    for number in 0..20 {
        cases.omitted(number);
        cases.file(number, b"");
        add_only_spaces(cases, number);
    }
    add_file_types(cases);
    for table in tables() {
        add_other_top_values(cases, table);
        add_other_elements(cases, table);
        add_nearly_empty(cases, table);
        add_trailing(cases, table);
    }
    for table in [2, 6] {
        add_every_byte(cases, table);
    }
}

fn add_only_spaces(cases: &mut Cases, number: usize) {
    for space in FOUR_SPACES {
        cases.file(number, space);
        cases.file(number, &space.repeat(5));
    }
    cases.file(number, b" \t\n\r\r\n\t ");
}

// ---------------------------------------------------------------- file 0

fn add_file_types(cases: &mut Cases) {
    cases.file(0, FILE_TYPE);
    for length in 0..FILE_TYPE.len() {
        cases.file(0, &FILE_TYPE[..length]);
        cases.file(0, &FILE_TYPE[length..]);
        cases.file(0, &removed(FILE_TYPE, length));
        add_changed_file_types(cases, length);
    }
    for byte in ODD_BYTES {
        for at in [0, 20, FILE_TYPE.len()] {
            cases.file(0, &inserted(FILE_TYPE, at, byte));
        }
    }
    cases.file(0, &joined(&[FILE_TYPE, b"\r\n"]));
    cases.file(0, &joined(&[b"\xEF\xBB\xBF", FILE_TYPE]));
    cases.file(0, &joined(&[b"\"", FILE_TYPE, b"\""]));
    cases.file(0, &joined(&[FILE_TYPE, FILE_TYPE]));
    cases.file(0, &FILE_TYPE.repeat(2000));
    for other in ["IPMDAR_CONTRACT_PERFORMANCE_DATASET/1.0", "[]", "{}", "null"] {
        cases.file(0, other.as_bytes());
    }
}

fn add_changed_file_types(cases: &mut Cases, at: usize) {
    let byte = FILE_TYPE[at];
    for other in [byte + 1, byte - 1, byte ^ 0x20, byte | 0x80, 0] {
        cases.file(0, &replaced(FILE_TYPE, at, other));
    }
}

// ------------------------------------------------------- other JSON kinds

fn add_other_top_values(cases: &mut Cases, table: usize) {
    for value in VALUES {
        cases.file(table, value);
        let space = cases.random.pick(&FOUR_SPACES);
        cases.file(table, &joined(&[space, value, b" "]));
    }
}

/// Elements of every kind, alone and after a record; for a singleton too, which
/// is no array.
fn add_other_elements(cases: &mut Cases, table: usize) {
    let record = Draft::least(table, 0).text();
    for value in VALUES {
        cases.file(table, &joined(&[b"[", value, b"]"]));
        cases.file(table, &joined(&[b"[", &record, b",", value, b"]"]));
        cases.file(table, &joined(&[b"[ ", value, b" ,", &record, b"]"]));
    }
}

fn add_nearly_empty(cases: &mut Cases, table: usize) {
    let texts = [
        "[]",
        " [ ] ",
        "{}",
        "\t{\n}\r",
        "[{}]",
        "[ { } ]",
        "[{},{}]",
        "[[]]",
        "[",
        "[ ",
        "[,",
        "[,]",
        "[{]",
        "[{}",
        "[{},",
        "[{},]",
        "{",
        "{ ",
        "{,",
        "{,}",
        "{]",
        "{:",
        "{\"",
        "{\"\"",
        "{\"\":",
        "]",
        "}",
        "[]]",
        "{}}",
        "[}",
        "[:]",
        "[{:}]",
        "[{\"\"}]",
        "[{\"\":}]",
        "[{\"\":1}]",
        "{\"\":1}",
        "[]{}",
        "{}[]",
        "[] []",
        "{} {}",
        "null null",
        "[null",
        "[{}{}]",
        "[{} {}]",
    ];
    for text in texts {
        cases.file(table, text.as_bytes());
    }
}

// ----------------------------------------------------- after the value

fn a_whole_file(table: usize) -> Vec<u8> {
    text(table, &[Draft::least(table, 0), Draft::least(table, 1)])
}

fn add_trailing(cases: &mut Cases, table: usize) {
    let whole = a_whole_file(table);
    for byte in ODD_BYTES {
        cases.file(table, &joined(&[&whole, &[byte]]));
        cases.file(table, &joined(&[&whole, b" \n", &[byte], b" "]));
    }
    let empty: &[u8] = if is_singleton(table) { b"{}" } else { b"[]" };
    for more in
        [&whole[..], b"[]", b"{}", b"null", b"\"\"", b"0", b"//", b"\xEF\xBB\xBF", b"\xC2\xA0"]
    {
        cases.file(table, &joined(&[&whole, more]));
        cases.file(table, &joined(&[&whole, b"\r", more]));
        cases.file(table, &joined(&[empty, more]));
    }
}

/// Every byte there is, before the value and after it.
fn add_every_byte(cases: &mut Cases, table: usize) {
    let whole = a_whole_file(table);
    for byte in 0..=255 {
        cases.file(table, &[byte]);
        cases.file(table, &joined(&[&[byte], &whole]));
        cases.file(table, &joined(&[&whole, &[byte]]));
    }
}
