// Made from crates/drain/src/lib.rt by tools/portable: do not change it here.
//! The drain of an image in place.

pub mod drains;
pub mod events_out;
pub mod move_up;
pub mod shifts;
pub mod weave;
