//! Sets whose tables are odd in one way each, of nearly a megabyte: none may take much longer, byte for byte, than a plain one.

use second::bench::sets::linked_set;
use second::compare::gate::sample::Set;

const ROOM: usize = 1_000_000;

/// The odd sets by name. Of each only the odd table counts; files 0, 1 and 3 are there and small.
pub fn odd_sets() -> Vec<(&'static str, Set)> {
    vec![
        ("all escapes", named(&"\\u0061".repeat(100))),
        ("four-byte characters", named(&"\u{1F6A7}".repeat(100))),
        ("one string of a megabyte", tasks(&[task(0, &"x".repeat(ROOM))])),
        ("64 KB of spaces between tokens", spaced()),
        ("names that begin alike", assignments(false)),
        ("fields in reverse order", assignments(true)),
        ("4,096 records of {}", tasks(&vec!["{}".to_string(); 4_096])),
    ]
}

fn with_table(number: usize, records: &[String]) -> Set {
    linked_set(1).without(14).without(15).with(number, &format!("[{}]", records.join(",")))
}

fn tasks(records: &[String]) -> Set {
    with_table(9, records)
}

fn task(index: usize, name: &str) -> String {
    format!(r#"{{"ID":"T{index:04}","Name":"{name}","TaskTypeID":"SUMMARY"}}"#)
}

/// As many tasks of this name as there is room for.
fn named(name: &str) -> Set {
    let count = ROOM / task(0, name).len();
    tasks(&(0..count).map(|index| task(index, name)).collect::<Vec<_>>())
}

/// Two tasks with 64 KB of spaces before each token.
fn spaced() -> Set {
    let spaces = " ".repeat(65_536);
    let tokens = [
        "{",
        "\"ID\"",
        ":",
        "\"A\"",
        ",",
        "\"Name\"",
        ":",
        "\"n\"",
        ",",
        "\"TaskTypeID\"",
        ":",
        "\"SUMMARY\"",
        "}",
    ];
    tasks(&[tokens.map(|token| format!("{spaces}{token}")).concat()])
}

/// Assignments of all fields, six of which begin alike in pairs, in the table's order or in reverse.
fn assignments(reversed: bool) -> Set {
    let record = |index: usize| {
        let mut fields = vec![
            format!(r#""ResourceID":"R{index:04}""#),
            format!(r#""TaskID":"T{index:04}""#),
            r#""Budget_AtCompletion_Dollars":1"#.to_string(),
            r#""Budget_AtCompletion_Hours":2"#.to_string(),
            r#""Estimate_ToComplete_Dollars":3"#.to_string(),
            r#""Estimate_ToComplete_Hours":4"#.to_string(),
            r#""Actual_ToDate_Dollars":5"#.to_string(),
            r#""Actual_ToDate_Hours":6"#.to_string(),
        ];
        if reversed {
            fields.reverse();
        }
        format!("{{{}}}", fields.join(","))
    };
    with_table(19, &(0..4_000).map(record).collect::<Vec<_>>())
}
