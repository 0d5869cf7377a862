//! The whole gate: judging a bundle, trying and making a change, looking up a
//! file, and the reason of a mark.

pub mod answer;
pub mod case;
pub mod cases;
pub mod readings;
pub mod reason_sights;
pub mod sample;
pub(super) mod set_draft;
pub mod sights;
pub(crate) mod styles;
