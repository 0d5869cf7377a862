//! A second program for the schedule gate, written from its requirements
//! alone: a plain record reader with maps and sets, to be compared with the
//! gate case by case.

pub mod baseline;
pub mod bench;
pub mod board;
pub mod bundle;
pub mod compare;
pub mod contract;
pub mod desks;
pub mod drawer;
pub mod fields;
pub mod gate;
pub mod gates;
pub mod json;
pub mod listed;
pub mod loops;
pub mod print;
pub mod quarter;
pub mod reason;
pub mod rules;
pub mod sentence;
pub mod table;
