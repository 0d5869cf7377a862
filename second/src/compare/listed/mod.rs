//! The second engine (order 7): the calls that are lent a list, and what they
//! leave in it.

pub mod case;
pub mod cases;
pub mod sights;
