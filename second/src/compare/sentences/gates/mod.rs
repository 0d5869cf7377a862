//! The text with the reasons of all three gates. A case has the gate's number in
//! it: twice that number, 0 for the schedule gate by itself, is added to the form.

pub mod case;
pub mod cases;
mod sights;
