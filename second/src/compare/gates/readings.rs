//! The readings of orders 8 and 9: sentences that can be read in two ways, each
//! with a small case and the answer that is held to.

use super::contract_draft::{account, element, subcontractor, table_text};
use super::files::Files;
use super::Which;
use crate::compare::draft::Draft;
use crate::compare::gate::sample::{schedule, BASELINE};

/// A bundle and what is said of it.
pub struct Reading {
    pub name: &'static str,
    pub which: Which,
    pub bundle: Vec<u8>,
    pub answer: Said,
}

pub enum Said {
    /// The whole print, its lines joined by ` / `.
    Printed(&'static str),
    /// Some marks, each of three numbers.
    Marks(&'static [(usize, (u32, u32, u32))]),
    /// The reason of a mark, in the words of the readings.
    Reason(usize, &'static str),
}

fn schedule_set() -> Files {
    Files::empty(Which::Baseline)
}

fn contract_set() -> Files {
    Files::empty(Which::Contract)
}

fn one_schedule(more: &str) -> Files {
    schedule_set().with(10, format!("[{}]", schedule("T", "C", more)).as_bytes())
}

const HOURS_OF_ZERO: &[u8] = br#"[{"ResourceID":"R","TaskID":"T","Actual_ToDate_Hours":0}]"#;

/// WBS with these elements: level, ID, parent.
fn wbs(rows: &[(i64, &str, Option<&str>)]) -> Files {
    contract_set().with(1, &outline(rows))
}

fn outline(rows: &[(i64, &str, Option<&str>)]) -> Vec<u8> {
    let rows: Vec<Draft> =
        rows.iter().map(|(level, id, parent)| element(*level, id, *parent)).collect();
    table_text(&rows)
}

fn baseline_readings() -> Vec<Reading> {
    let which = Which::Baseline;
    let reading = |name, set: Files, answer| Reading { name, which, bundle: set.bundle(), answer };
    let same_day = BASELINE.replace("2020-01-06", "2020-01-01");
    vec![
        reading("8.1", one_schedule(""), Said::Marks(&[(75, (0, 0, 0)), (81, (1, 1, 0))])),
        reading(
            "8.2",
            one_schedule(&same_day),
            Said::Marks(&[(81, (0, 0, 0)), (82, (0, 0, 0)), (83, (0, 0, 0)), (84, (0, 0, 0))]),
        ),
        reading(
            "8.3",
            schedule_set().with(19, HOURS_OF_ZERO),
            Said::Marks(&[(81, (0, 0, 0)), (82, (0, 0, 0)), (83, (0, 0, 0)), (84, (1, 1, 0))]),
        ),
        reading(
            "8.4",
            schedule_set().with(19, HOURS_OF_ZERO),
            Said::Reason(
                84,
                "rule 84 file 19 record 1 companion 0 field Actual_ToDate_Hours at 218 length 1 \
                value 0 searched 0",
            ),
        ),
        reading(
            "8.5",
            schedule_set(),
            Said::Printed(
                "marks 85 / 0 21 0 0 / 1 21 0 0 / 3 21 0 0 / 36 2 0 0 / 37 2 0 0 / 65 2 0 0 / \
                66 2 0 0 / refused 7 / ",
            ),
        ),
    ]
}

#[rustfmt::skip]
fn contract_readings() -> Vec<Reading> {
    let reading = |name, set: Files, printed| {
        let answer = Said::Printed(printed);
        Reading { name, which: Which::Contract, bundle: set.bundle(), answer }
    };
    let accounts = |rows: &[(&str, &str)]| {
        let numbered = rows.iter().enumerate();
        let rows: Vec<Draft> = numbered.map(|(at, (w, o))| account(&at.to_string(), w, o)).collect();
        table_text(&rows)
    };
    let two_roots = outline(&[(1, "A", None), (1, "B", None)]);
    let named = subcontractor("S").with_value("Name", br#""x\u00a0y""#);
    let misnamed = account("A", "w", "o").with_member(0, b"\"BaselineFinishDate\"", b"null");
    vec![
        reading("9.1", contract_set().with(1, &two_roots).with(2, &two_roots),
            "marks 19 / 13 1 2 0 / 14 1 2 0 / 15 1 2 0 / 16 1 2 0 / refused 4 / "),
        reading("9.2", contract_set(), "marks 19 / accepted / "),
        reading("9.2, no bytes", contract_set().with(0, b""),
            "marks 19 / 0 11 0 0 / 4 2 0 0 / 8 2 0 0 / refused 3 / "),
        reading("9.3", wbs(&[(2, "A", None)]), "marks 19 / 13 1 1 0 / refused 1 / "),
        reading("9.4", wbs(&[(1, "A", None), (1, "B", Some("A"))]),
            "marks 19 / 13 1 2 0 / 15 1 2 0 / refused 2 / "),
        reading("9.5", wbs(&[(0, "A", None), (1, "B", None)]),
            "marks 19 / 13 1 1 0 / 15 1 2 1 / refused 2 / "),
        reading("9.6", wbs(&[(1, "A", None), (2, "B", Some("a")), (2, "C", Some("B"))]),
            "marks 19 / 15 1 3 1 / refused 1 / "),
        reading("9.7",
            wbs(&[(1, "A", None), (3, "B", None)]).with(2, &outline(&[(1, "O", None)]))
                .with(3, &accounts(&[("a", "o")])),
            "marks 19 / 13 1 2 0 / 15 1 2 1 / 17 1 1 0 / refused 3 / "),
        reading("9.8",
            wbs(&[(1, "A", None), (2, "a", Some("A"))]).with(3, &accounts(&[("A", "x")])),
            "marks 19 / 5 1 2 1 / 12 1 1 0 / 17 1 1 0 / refused 3 / "),
        reading("9.9", contract_set().with(1, b"["),
            "marks 19 / 1 11 1 0 / 5 2 0 0 / 9 2 0 0 / 11 2 0 0 / 13 2 0 0 / 15 2 0 0 / 17 2 0 0 / refused 7 / "),
        reading("9.11", contract_set().with(3, &table_text(&[misnamed])),
            "marks 19 / 3 13 2 1 / 7 2 0 0 / 11 2 0 0 / 12 2 0 0 / 17 2 0 0 / 18 2 0 0 / refused 6 / "),
        reading("9.12", contract_set().with(0, &table_text(&[named])),
            "marks 19 / 0 31 20 1 / 4 2 0 0 / 8 2 0 0 / refused 3 / "),
    ]
}

/// 9.13: the bundles that are refused by 1, 2 and 3.
fn refused_readings() -> Vec<Reading> {
    let reading = |name, bundle, printed| {
        let answer = Said::Printed(printed);
        Reading { name, which: Which::Contract, bundle, answer }
    };
    let counted = |count: u8, zeros: usize| [&[count, 0, 0, 0][..], &vec![0; zeros]].concat();
    let mut one_length = counted(4, 32);
    one_length[35] = 1;
    vec![
        reading("9.13, 35 bytes", counted(4, 31), "bundle 1 / "),
        reading("9.13, count 20", counted(20, 160), "bundle 2 / "),
        reading("9.13, a length alone", one_length, "bundle 3 / "),
    ]
}

pub fn readings() -> Vec<Reading> {
    let mut readings = baseline_readings();
    readings.extend(contract_readings());
    readings.extend(refused_readings());
    readings
}
