//! The bundles of both gates whose text is compared, taken from the cases of
//! `compare_gates`; values around the length from which they are cut; faults on
//! several lines; and some of the schedule gate's own.

use std::collections::BTreeSet;
use std::sync::Arc;

use super::super::case::TextCase;
use super::super::cases as of_schedule;
use super::case::GateTextCase;
use crate::compare::draft::quoted;
use crate::compare::gate::case::Bytes;
use crate::compare::gates::case::{Call, GatesCase};
use crate::compare::gates::cases as of_gates;
use crate::compare::gates::contract_draft::{table_text, ContractDraft};
use crate::compare::gates::files::Files;
use crate::compare::gates::Which;
use crate::gates::reason::reason;
use crate::print::LARGEST_INPUT;
use crate::reason::{Reason, Shown};
use crate::table::MOST_RECORDS;

/// One of so many of the schedule gate's cases is asked again.
const SCHEDULE_STEP: usize = 8;

/// Larger bundles than this only now and then.
const SMALL: usize = 20_000;

pub fn all_cases(seed: u64) -> Vec<GateTextCase> {
    let mut cases = Cases { list: Vec::new() };
    let schedule = of_schedule::all_cases(seed).into_iter().step_by(SCHEDULE_STEP);
    cases.list.extend(schedule.map(|text| GateTextCase { which: None, text }));
    add_of_gates(&mut cases, seed);
    add_values(&mut cases);
    add_lines(&mut cases);
    for (file, table) in of_gates::long_tables(MOST_RECORDS + 1).iter().enumerate() {
        cases.in_both(&Files::empty(Which::Contract).with(file, &table_text(table)));
    }
    cases.list
}

struct Cases {
    list: Vec<GateTextCase>,
}

impl Cases {
    /// In one of the two forms by turns, plain only what that program takes.
    fn push(&mut self, which: Which, bundle: &Bytes, grouped: bool) {
        let grouped = grouped || bundle.len() > LARGEST_INPUT;
        let text = TextCase { bundle: bundle.clone(), grouped };
        self.list.push(GateTextCase { which: Some(which), text });
    }

    fn in_both(&mut self, files: &Files) {
        let bundle = Arc::new(files.bundle());
        if bundle.len() <= LARGEST_INPUT {
            self.push(files.which, &bundle, false);
        }
        self.push(files.which, &bundle, true);
    }
}

/// The bundles that are judged there or asked for a reason: each once, the
/// contract side's one in three, the schedule's by the marks that they show.
fn add_of_gates(cases: &mut Cases, seed: u64) {
    let mut seen: BTreeSet<(Which, *const Vec<u8>)> = BTreeSet::new();
    let mut shown: BTreeSet<(usize, u32)> = BTreeSet::new();
    let asked = of_gates::all_cases(seed);
    for (number, case) in asked.iter().enumerate() {
        let GatesCase { which, bundle, call } = case;
        let is_large = bundle.len() > SMALL && number % 20 > 0;
        if is_large || !seen.insert((*which, Arc::as_ptr(bundle))) {
            continue;
        }
        let take = match (which, call) {
            (_, Call::Try(_) | Call::Make(..) | Call::LookUp(_)) => false,
            (Which::Contract, _) => number % 3 == 0,
            (Which::Baseline, _) => {
                let marks = crate::gates::calls::judge(which.gate(), bundle).marks;
                let faults = marks.iter().enumerate().filter(|(_, mark)| mark.kind != 0);
                let mut is_new = false;
                for (mark, judged) in faults {
                    is_new |= shown.insert((mark, judged.kind));
                }
                is_new || number % 12 == 0
            }
        };
        if take {
            cases.push(*which, bundle, number % 2 == 0);
        }
    }
    add_each_unread(cases);
}

/// Each file unreadable, and all up to it, in both forms.
fn add_each_unread(cases: &mut Cases) {
    for which in crate::compare::gates::BOTH {
        let base = of_gates::accepted_files(which);
        cases.in_both(&base);
        let mut up_to = base.clone();
        for number in 0..which.gate().files {
            for contents in [&b"["[..], b"", b"\n1", b"{"] {
                cases.in_both(&base.with(number, contents));
            }
            cases.in_both(&base.without(number));
            up_to = up_to.with(number, b"\n\n[");
            cases.in_both(&up_to);
        }
    }
    let none = |which: Which| Files::empty(which).bundle();
    for which in crate::compare::gates::BOTH {
        let mut count = none(which);
        count[0] = 9;
        let mut offset = none(which);
        offset[4] = 1;
        for bundle in [none(which)[1..].to_vec(), count, offset] {
            let bundle = Arc::new(bundle);
            cases.push(which, &bundle, false);
            cases.push(which, &bundle, true);
        }
    }
}

// ----------------------------------------------------------------- values

/// For each rule that shows one a value of 79 to 82 and more bytes, and one of
/// escapes that is cut inside one.
fn add_values(cases: &mut Cases) {
    let base = ContractDraft::accepted();
    for mark in 4..=18 {
        let broken = of_gates::broken_contract(mark, &base).into_iter();
        let with_shown = broken.filter_map(|set| {
            let bundle = set.files().bundle();
            match reason(Which::Contract.gate(), &bundle, mark) {
                Reason::Broken(shown) | Reason::Missing { shown, .. } if shown.length > 0 => {
                    Some((set, shown))
                }
                _ => None,
            }
        });
        let (set, shown) = with_shown.last().expect("some value breaks the rule");
        for length in [79, 80, 81, 82, 200] {
            let value = match mark {
                13 | 14 => padded(b"7.", length),
                _ => quoted(&"x".repeat(length - 2)),
            };
            cases.in_both(&with_value(&set, mark, shown, &value).files());
        }
        if ![13, 14].contains(&mark) {
            for letters in [0, 3] {
                let value = quoted(&("x".repeat(letters) + &"\\u0041".repeat(20)));
                cases.in_both(&with_value(&set, mark, shown, &value).files());
            }
        }
    }
    for length in [79, 80, 81, 82, 200] {
        let amount = String::from_utf8(padded(b"5.", length)).expect("digits are ASCII");
        let row = format!(r#"[{{"ResourceID":"R","TaskID":"T","Actual_ToDate_Hours":{amount}}}]"#);
        cases.in_both(&Files::empty(Which::Baseline).with(19, row.as_bytes()));
    }
}

/// A number of so many bytes, with zeros at the end.
fn padded(start: &[u8], length: usize) -> Vec<u8> {
    let mut value = start.to_vec();
    value.resize(length, b'0');
    value
}

/// The value in the field shown, and in what has to be like it: a key's other
/// record, or an element with a child for a leaf rule.
fn with_value(set: &ContractDraft, mark: usize, shown: Shown, value: &[u8]) -> ContractDraft {
    let name = (Which::Contract.gate().fields)(shown.file)[shown.field].name;
    let set = set.with_value(shown.file, shown.record - 1, name, Some(value));
    match mark {
        4..=7 => set.with_value(shown.file, shown.companion - 1, name, Some(value)),
        17 | 18 => set.with_value(mark - 16, 0, "ID", Some(value)),
        _ => set,
    }
}

// ------------------------------------------------------------------ lines

/// Faults of each kind on one line and on several that end in either way.
fn add_lines(cases: &mut Cases) {
    let base = ContractDraft::accepted();
    for file in 0..4 {
        let mut kinds: BTreeSet<u32> = BTreeSet::new();
        let last = base.tables[file].len() - 1;
        for (kind, spoilt) in of_gates::spoilt_records(file, &base.tables[file][last]) {
            if !kinds.insert(kind) {
                continue;
            }
            let good = table_text(&base.tables[file][..last]);
            let good = &good[1..good.len() - 1];
            for (front, between) in [("", ""), ("", "\n"), ("\r\n", ""), ("\u{20}\n\n", "\r\n\t")] {
                let contents =
                    [front.as_bytes(), b"[", good, b",", between.as_bytes(), &spoilt, b"]"]
                        .concat();
                cases.in_both(&Files::empty(Which::Contract).with(file, &contents));
            }
        }
    }
}
