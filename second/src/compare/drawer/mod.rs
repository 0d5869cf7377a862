//! The drawer of order 12: judged, looked into, changed; bundles put in and
//! taken out.

pub mod case;
pub mod cases;
pub mod sights;
