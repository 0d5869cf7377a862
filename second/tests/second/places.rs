//! Where the values of a readable file stand.

use second::fields::fields_of;
use second::table::{read_file, Record};

fn records(number: usize, contents: &str) -> Vec<Record> {
    read_file(number, Some(contents.as_bytes())).unwrap()
}

fn place(record: &Record, name: &str) -> (u32, u32) {
    let place = record.place(name);
    (place.start, place.end)
}

/// The places of all fields in the order of the table.
fn places(number: usize, record: &Record) -> Vec<(u32, u32)> {
    fields_of(number).map(|field| place(record, field.name)).collect()
}

/// The value as it is written, quotes included.
fn written<'a>(contents: &'a str, record: &Record, name: &str) -> &'a str {
    let (start, end) = place(record, name);
    &contents[start as usize..end as usize]
}

#[test]
fn places_are_those_of_the_bytes_as_written() {
    let contents = r#"[{"ID":"C1","Name":"N"},{"ID":"C22","Name":"NN","Comments":"x"}]"#;
    let read = records(6, contents);
    assert_eq!(places(6, &read[0]), [(7, 11), (19, 22), (0, 0)]);
    assert_eq!(places(6, &read[1]), [(30, 35), (43, 47), (59, 62)]);
}

#[test]
fn fields_have_the_order_of_the_table_not_of_the_file() {
    let contents = r#"[{"Comments":"x","Name":"N","ID":"C1"}]"#;
    assert_eq!(places(6, &records(6, contents)[0]), [(33, 37), (24, 27), (13, 16)]);
}

#[test]
fn spaces_are_no_part_of_a_value() {
    let contents = " [ { \"Level\" :\n1e0\t, \"TaskID\"\r:  \"T 1\"  } ] ";
    let read = records(15, contents);
    assert_eq!(written(contents, &read[0], "Level"), "1e0");
    assert_eq!(written(contents, &read[0], "TaskID"), "\"T 1\"");
    assert_eq!(places(15, &read[0]), [(15, 18), (33, 38), (0, 0)]);
}

#[test]
fn a_written_null_has_a_start_and_no_end() {
    let contents = r#"{"Data_SoftwareVersion":"", "Data_SoftwareName" : null }"#;
    let read = records(2, contents);
    assert_eq!(place(&read[0], "Data_SoftwareVersion"), (24, 0));
    assert_eq!(place(&read[0], "Data_SoftwareName"), (50, 0));
    assert_eq!(place(&read[0], "Data_SoftwareComments"), (0, 0));
    let contents = r#"[{"CalendarID":"C","Ordinal":null,"SundayWorkHours":-0}]"#;
    let read = records(7, contents);
    assert_eq!(places(7, &read[0])[..3], [(15, 18), (29, 0), (52, 54)]);
}

#[test]
fn escapes_count_as_they_are_written() {
    let contents = r#"[{"\u0049D":"\u0043\"","Nam\u0065":"é€\uD83D\uDE00","Comments":"\\"}]"#;
    let read = records(6, contents);
    assert_eq!(written(contents, &read[0], "ID"), r#""\u0043\"""#);
    assert_eq!(written(contents, &read[0], "Name"), r#""é€\uD83D\uDE00""#);
    assert_eq!(written(contents, &read[0], "Comments"), r#""\\""#);
}

#[test]
fn every_type_has_its_place() {
    let contents = r#"{"SecurityMarking":"U","ReportingPeriodEndDate":"2020-01-31",
        "EVMSAccepted":false,"EVMSAcceptanceDate":null,"DistributionStatement":" "}"#;
    let read = records(1, contents);
    assert_eq!(written(contents, &read[0], "SecurityMarking"), "\"U\"");
    assert_eq!(written(contents, &read[0], "ReportingPeriodEndDate"), "\"2020-01-31\"");
    assert_eq!(written(contents, &read[0], "EVMSAccepted"), "false");
    assert_eq!(written(contents, &read[0], "DistributionStatement"), "\" \"");
    assert_eq!(place(&read[0], "EVMSAcceptanceDate").1, 0);
    let contents = r#"[{"CalendarID":"C","ExceptionDate":"2020-01-31","WorkHours":-12.50e+3}]"#;
    assert_eq!(written(contents, &records(8, contents)[0], "WorkHours"), "-12.50e+3");
}

#[test]
fn only_readable_files_have_records() {
    assert!(records(6, "[]").is_empty());
    assert_eq!(records(2, "{}").len(), 1);
    assert!(read_file(6, None).unwrap().is_empty());
    assert!(read_file(6, Some(b"[{}]")).is_err());
    assert!(read_file(1, None).is_err());
}
