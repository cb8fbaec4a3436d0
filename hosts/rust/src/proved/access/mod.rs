// Made from crates/access/src/lib.rt by tools/portable: do not change it here.
//! Reads and writes of what stands at an offset, in place.

pub mod cells;
pub mod narrow;
pub mod wide;
