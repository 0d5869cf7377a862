//! Either desk first (order 13): two changes to different files in both orders,
//! and changes undone at once, in bundles, drawers and desks. The steps are
//! cases of the comparisons of these; each is asked of the state that this
//! program left before it, so where every answer is right the ends are those
//! that are compared here.

pub mod bundles;
pub mod case;
pub mod desks;
pub mod drawers;
