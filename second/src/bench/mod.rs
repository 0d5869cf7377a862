//! The sets that `./bench` measures: `plan` invents a schedule, `files` writes
//! its tables, `sets` makes whole sets of a size, and `chains` of links alone.

pub mod chains;
mod files;
mod plan;
pub mod sets;
