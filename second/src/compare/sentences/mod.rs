//! The text of the programs that tell the reasons: each mark that doesn't hold
//! with its sentence.

pub mod case;
pub mod cases;
pub mod gates;
mod sights;
