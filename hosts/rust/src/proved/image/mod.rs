// Made from crates/image/src/lib.rt by tools/portable: do not change it here.
//! The boundary's bytes: the form of the saved image.

pub mod bad_bytes;
pub mod bodies;
pub mod faults;
pub mod form;
pub mod head;
pub mod quick;
pub mod unused;
