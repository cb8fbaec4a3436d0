// Made from crates/device/src/lib.rt by tools/portable: do not change it here.
//! The device as the Rust has it: its state, its map, its window, and the decisions that both the port and the calls in place make.

pub mod decide;
pub mod map;
pub mod map_low;
pub mod state;
pub mod window;
