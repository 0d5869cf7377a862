//! The contract side's gate (order 9): Subcontractors, WBS, OBS and
//! ControlAccounts of document 000, with 19 marks.

pub mod fields;
mod outline;
mod rules;

use crate::gates::Gate;
use crate::table::read_array;

pub const SUBCONTRACTORS: usize = 0;
pub const WBS: usize = 1;
pub const OBS: usize = 2;
pub const ACCOUNTS: usize = 3;

pub static CONTRACT: Gate = Gate {
    files: 4,
    marks: 19,
    file_names: &["Subcontractors", "WBS", "OBS", "ControlAccounts"],
    fields: fields::of_table,
    read: |file, contents| read_array(fields::of_table(file), contents),
    reads: |mark| rules::rule(mark).reads(),
    breaks: |mark, tables| rules::rule(mark).breaks(tables),
    deciding: |mark, _| rules::rule(mark).deciding(),
    searched: |mark| rules::rule(mark).searched(),
};
