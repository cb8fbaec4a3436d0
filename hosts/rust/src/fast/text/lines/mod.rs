// Made from crates/lines/src/lib.rt by tools/portable: do not change it here.
//! What moves the lines of an image in place.

pub mod enter_leave;
pub mod events;
pub mod halves;
pub mod masking;
pub mod service;
