//! Few large files: as many records as a table may have, as many bytes as a
//! file may have, and long or deep things that need no more than one look.

use super::draft::{text, Draft};
use super::{joined, tables, Cases};
use crate::compare::wire::LONGEST;
use crate::fields::{fields_of, Type};
use crate::table::{is_singleton, MOST_RECORDS};

/// Long enough for what a short one may miss; a few are longer.
const LONG: usize = 10_000;
const LONGER: usize = 100_000;

pub(super) fn add(cases: &mut Cases) {
    for table in tables().filter(|table| !is_singleton(*table)) {
        add_most_records(cases, table);
    }
    add_after_the_most_records(cases);
    add_most_bytes(cases);
    add_most_zeros(cases);
    add_deep(cases);
    add_long_strings(cases);
    add_long_numbers(cases);
    add_long_spaces(cases);
}

/// The shortest record that holds.
fn shortest_record(table: usize) -> Vec<u8> {
    let mut draft = Draft::least(table, 0);
    for field in fields_of(table).filter(|field| !field.nullable) {
        let value: &[u8] = match field.kind {
            Type::Boolean => b"true",
            Type::Date => b"\"2016-01-31\"",
            Type::Decimal | Type::Integer => b"1",
            Type::String | Type::StringID | Type::Text => b"\"A\"",
        };
        draft = draft.with_value(field.name, value);
    }
    draft.text()
}

/// An array that begins with so many shortest records, and goes on so.
fn many_records(table: usize, count: usize, more: &[u8]) -> Vec<u8> {
    let records = vec![shortest_record(table); count];
    joined(&[b"[", &records.join(&b","[..]), more])
}

/// As many records as hold and one more; table 10 has no room for so many.
fn add_most_records(cases: &mut Cases, table: usize) {
    let room = (LONGEST - 2) / (shortest_record(table).len() + 1);
    cases.file(table, &many_records(table, room.min(MOST_RECORDS), b"]"));
    if room > MOST_RECORDS {
        cases.file(table, &many_records(table, MOST_RECORDS, b",{}]"));
    }
}

/// What may stand where the 4,097th record would.
fn add_after_the_most_records(cases: &mut Cases) {
    let table = 15;
    let after: [&[u8]; 20] = [
        b" ] ",
        b"",
        b" ",
        b",",
        b",]",
        b", \n{",
        b",{\"Level\":1,\"TaskID\":\"A\"}]",
        b",{x",
        b",[",
        b",[]]",
        b",1]",
        b",-",
        b",\"a\"]",
        b",\"a",
        b",\"\xFF",
        b",null]",
        b",tru",
        b",}",
        b"]x",
        b"}",
    ];
    for more in after {
        cases.file(table, &many_records(table, MOST_RECORDS, more));
    }
    cases.file(table, &many_records(table, MOST_RECORDS - 1, b",{}]"));
    cases.file(table, &many_records(table, MOST_RECORDS - 1, b",{\"Level\":0.5}]"));
    cases.file(table, &many_records(table, MOST_RECORDS - 1, b",1]"));
}

/// Files of exactly as many bytes as a file may have.
fn add_most_bytes(cases: &mut Cases) {
    let front = b"{\"Data_SoftwareComments\":\"";
    let long = b"a".repeat(LONGEST - front.len() - 2);
    cases.file(2, &joined(&[front, &long, b"\"}"]));
    cases.file(2, &joined(&[front, &long, b"\"."]));
    // The last character is a wrong one.
    cases.file(2, &joined(&[front, &long[1..], b"\x7F\"}"]));
    cases.file(2, &joined(&[front, &long[6..], b"\\uD800\"}"]));
}

/// A number that nearly fills the file with zeros, after its point or before.
fn add_most_zeros(cases: &mut Cases) {
    let front = b"[{\"CalendarID\":\"C\",\"SundayWorkHours\":8";
    let count = LONGEST - front.len() - b"e-1048576}]".len();
    let zeros = "0".repeat(count);
    let numbers = [
        format!(".{zeros}"),
        format!(".{zeros}1"),
        format!(".{zeros}e15"),
        format!(".{zeros}e16"),
        format!("{zeros}e-{count}"),
    ];
    for number in numbers {
        cases.file(7, &joined(&[front, number.as_bytes(), b"}]"]));
    }
}

/// Arrays and objects are judged at their opening byte, however deep they go.
fn add_deep(cases: &mut Cases) {
    for opening in [&b"["[..], b"{", b"[{", b"{\"ID\":", b"[[],", b"\\", b"]"] {
        let length = if opening.len() == 1 { LONGER } else { LONG };
        let deep = opening.repeat(length / opening.len());
        cases.file(2, &deep);
        cases.file(6, &deep);
        cases.file(6, &joined(&[b"[{\"ID\":", &deep]));
        cases.file(2, &joined(&[b"{\"Data_SoftwareName\":", &deep]));
    }
}

fn add_long_strings(cases: &mut Cases) {
    let pieces: [&[u8]; 10] = [
        b"A",
        b"A ",
        b"\xC3\xA9",
        b"\xE2\x80\x8B",
        b"A\xC2\xA0",
        b"\\u0041",
        b"\\n",
        b"\\\"",
        b"\\uD83D\\uDE00",
        b"\xF0\x9F\x98\x80",
    ];
    for piece in pieces {
        let long = piece.repeat(LONG / piece.len());
        let cut: [&[u8]; 3] = [b"", b"\xFF\"", b"\\"];
        let whole: [&[u8]; 7] = [
            b"A\"",
            b" \"",
            b"\xE3\x80\x80\"",
            b"\xC3\xA9\"",
            b"\\u0000\"",
            b"\x7FA\"",
            b"\\uDC00\"",
        ];
        for end in cut.into_iter().chain(whole) {
            add_long_string(cases, &joined(&[b"\"", &long, end]));
        }
    }
    add_long_string(cases, &joined(&[b"\"", &b"A ".repeat(LONGER / 2), b" A\""]));
    add_long_name(cases);
}

/// The string as a value of each type of text, and where none belongs.
fn add_long_string(cases: &mut Cases, string: &[u8]) {
    for name in ["ID", "Name", "Comments"] {
        cases.record(6, &Draft::least(6, 0).with_value(name, string));
    }
    match cases.random.below(4) {
        0 => cases.file(1, string),
        1 => cases.record(15, &Draft::least(15, 0).with_value("Level", string)),
        2 => cases.record(8, &Draft::least(8, 0).with_value("ExceptionDate", string)),
        _ => cases.file(6, &joined(&[b"[{", string])),
    }
}

/// A name that begins as a right one.
fn add_long_name(cases: &mut Cases) {
    let name = joined(&[b"\"ID", &b"D".repeat(LONGER), b"\""]);
    cases.file(6, &joined(&[b"[{", &name, b":1}]"]));
    cases.file(6, &joined(&[b"[{", &name[..name.len() - 1]]));
}

fn add_long_numbers(cases: &mut Cases) {
    for digits in [LONG, LONGER] {
        let nines = "9".repeat(digits);
        for number in long_numbers(digits) {
            let number = number.as_bytes();
            cases.record(15, &Draft::least(15, 0).with_value("Level", number));
            cases.record(8, &Draft::least(8, 0).with_value("WorkHours", number));
        }
        cases.record(6, &Draft::least(6, 0).with_value("ID", nines.as_bytes()));
        cases.file(6, nines.as_bytes());
        cases.file(6, format!("[{nines}]").as_bytes());
    }
}

/// Numbers of which the count of digits decides, or only the last of them.
fn long_numbers(digits: usize) -> Vec<String> {
    let zeros = "0".repeat(digits);
    let nines = "9".repeat(digits);
    let mut numbers = vec![
        nines.clone(),
        format!("0.{zeros}"),
        format!("0.{zeros}1e{}", digits + 1),
        format!("1e-{zeros}5"),
        format!("1e{nines}"),
        format!("8.{zeros}"),
        format!("7{zeros}e-{digits}"),
    ];
    if digits < LONGER {
        numbers.extend([
            format!("1{zeros}"),
            format!("-1{zeros}e-{}", digits - 15),
            format!("1{zeros}e-{}", digits - 16),
            format!("1{zeros}e-{}", digits + 15),
            format!("-1{zeros}e-{}", digits + 16),
            format!("999999999999999{zeros}.{zeros}e-{digits}"),
            format!("1000000000000001{zeros}.{zeros}e-{}", digits + 1),
            format!("1.{zeros}1"),
            format!("0.{zeros}1e{}", digits + 16),
            format!("0.{zeros}1e{}", digits + 17),
            format!("0.{zeros}e{digits}"),
            format!("1e{zeros}15"),
            format!("1e{zeros}16"),
            format!("0e-{nines}"),
            format!("{nines}."),
            format!("1.{nines}e"),
            format!("{zeros}1"),
        ]);
    }
    numbers
}

fn add_long_spaces(cases: &mut Cases) {
    let spaces = b" \t\n\r".repeat(LONG / 4);
    let whole = text(6, &[Draft::least(6, 0)]);
    cases.file(6, &joined(&[&spaces, &whole, &spaces]));
    cases.file(6, &joined(&[&whole, &spaces, b"x"]));
    for at in [1, 2, whole.len() - 1] {
        cases.file(6, &joined(&[&whole[..at], &spaces, &whole[at..]]));
    }
    cases.file(2, &b" ".repeat(LONGER));
}
