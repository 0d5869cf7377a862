//! The reason beside a mark (order 6): which record breaks the rule, by which
//! field, and where that field's value stands in the bundle.

use crate::board::{Mark, HOLDS, MARKS};
use crate::bundle::{files, Files, FILES, HEADER, NO_SUCH_MARK};
use crate::fields::{fields_of, Type};
use crate::rules::{files_read, judge_rule, rule, Rule, BASELINE_FIELDS};
use crate::table::{read_file, Place, Reading, Record};

#[derive(Clone, Copy, Debug, PartialEq, Eq)]
pub enum Reason {
    /// 1, 2 and 3 of the bundle, then 7 for a mark number over 80.
    Refused(u32),
    Holds,
    /// The lowest-numbered unreadable file among those that the rule reads.
    NotJudged {
        file: usize,
    },
    /// A file's own mark that doesn't hold.
    OwnMark(Mark),
    Broken(Shown),
    /// A broken rule of 48 to 64, and the file in which the target is missing.
    Missing {
        shown: Shown,
        searched: usize,
    },
}

/// What breaks a rule.
#[derive(Clone, Copy, Debug, PartialEq, Eq)]
pub struct Shown {
    /// The table named first in the rule's line.
    pub file: usize,
    /// Both by their numbers from 1; companion 0 is none.
    pub record: usize,
    pub companion: usize,
    /// The deciding field, counted from 0 within its table in the order of
    /// section 2.2 of document 002.
    pub field: usize,
    /// Its value in the bundle as written, quotes included; both 0 for null.
    pub start: usize,
    pub length: usize,
}

impl Shown {
    /// The value as that part of the bundle itself; empty for null.
    pub fn value<'a>(&self, bundle: &'a [u8]) -> &'a [u8] {
        &bundle[self.start..self.start + self.length]
    }

    pub fn field_name(&self) -> &'static str {
        fields_of(self.file).nth(self.field).expect("the field is one of its table").name
    }
}

/// Why that mark of the bundle is what it is. Only the files that the mark
/// reads are looked into.
pub fn reason(bundle: &[u8], mark: usize) -> Reason {
    let files = match files(bundle) {
        Ok(files) => files,
        Err(refusal) => return Reason::Refused(refusal),
    };
    if mark >= MARKS {
        return Reason::Refused(NO_SUCH_MARK);
    }
    if mark < FILES {
        return match read_file(mark, files[mark]) {
            Ok(_) => Reason::Holds,
            Err(own) => Reason::OwnMark(own),
        };
    }
    reason_of_rule(&files, mark)
}

fn reason_of_rule(files: &Files, mark: usize) -> Reason {
    let mut numbers = files_read(mark);
    let named_first = numbers[0];
    numbers.sort_unstable();
    let readings: Vec<Reading> =
        numbers.iter().map(|number| read_file(*number, files[*number])).collect();
    if let Some(lowest) = readings.iter().position(Reading::is_err) {
        return Reason::NotJudged { file: numbers[lowest] };
    }
    let reading_of = |number: usize| {
        let at = numbers.iter().position(|read| *read == number);
        &readings[at.expect("a rule asks for files that it reads")]
    };
    let judged = judge_rule(mark, reading_of);
    if judged == HOLDS {
        return Reason::Holds;
    }
    let records = reading_of(named_first).as_ref().expect("all its files are readable");
    let shown = shown(files, mark, named_first, records, judged);
    match rule(mark) {
        Rule::Target { other, .. } => Reason::Missing { shown, searched: other },
        _ => Reason::Broken(shown),
    }
}

fn shown(files: &Files, mark: usize, file: usize, records: &[Record], judged: Mark) -> Shown {
    let breaking = &records[judged.place as usize - 1];
    let name = deciding_field(mark, breaking);
    let field = fields_of(file).position(|field| field.name == name);
    let (start, length) = match breaking.place(name) {
        // Absent, or a null that is written.
        Place { end: 0, .. } => (0, 0),
        Place { start, end } => (start_of(files, file) + start as usize, (end - start) as usize),
    };
    Shown {
        file,
        record: judged.place as usize,
        companion: judged.companion as usize,
        field: field.expect("a rule is decided by a field of its table"),
        start,
        length,
    }
}

/// Where a present file starts: behind the header and all earlier ones.
fn start_of(files: &Files, number: usize) -> usize {
    HEADER + files[..number].iter().flatten().map(|file| file.len()).sum::<usize>()
}

/// The field that decides over the record, which breaks the rule.
pub(crate) fn deciding_field(mark: usize, record: &Record) -> &'static str {
    match (mark, rule(mark)) {
        (_, Rule::Key { fields, .. }) => fields[0],
        (_, Rule::OneOf { field, .. }) | (_, Rule::Target { field, .. }) => field,
        // The one whose null is asked about.
        (65, _) => "ContractorIDCode",
        (66, _) => "EVMSAcceptanceDate",
        (71, _) => "TaskPlanningLevelID",
        (72, _) => "OtherEarnedValueTechnique",
        (76, _) => "OtherConstraintType",
        (77, _) => "ConstraintDate",
        (69, _) => "SundayWorkHours",
        (67, _) | (73, _) | (74, _) => "ID",
        (75, _) => first_null_of_baseline(record),
        (78, _) => "Level",
        (79, _) | (80, _) => "ParentTaskID",
        (_, Rule::Each { file, .. }) => first_below_zero(file, record),
        _ => unreachable!("order 6 names a field for each rule"),
    }
}

/// In the table's order, not as the record is written.
fn first_null_of_baseline(record: &Record) -> &'static str {
    let mut baseline = fields_of(10).filter(|field| BASELINE_FIELDS.contains(&field.name));
    let null = baseline.find(|field| record.is_null(field.name));
    null.expect("a baseline in part has a null").name
}

/// 68 and 70: of their tables every Decimal counts hours.
fn first_below_zero(file: usize, record: &Record) -> &'static str {
    let mut hours = fields_of(file).filter(|field| field.kind == Type::Decimal);
    let below = hours.find(|field| {
        record.decimal(field.name).map_or(false, |number| number.sign() == std::cmp::Ordering::Less)
    });
    below.expect("some hours are below zero").name
}
