//! The two desks of order 10 and their calendars: judged on the join, changes
//! tried and made.

pub mod case;
pub mod cases;
pub mod sights;
