//! The loops of order 14. Which loop is shown may vary, so each one is checked.

pub mod case;
pub mod cases;
pub mod sights;
