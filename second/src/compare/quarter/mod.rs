//! The quarter of order 11: one more set taken into handed totals.

pub mod case;
pub mod cases;
pub mod sample;
pub mod sights;
