// Made from crates/ by tools/portable: do not change it here.
//! The proved sources of the library as Rust: a module for each crate of `crates/`, copied without what is ghost. What each function requires and ensures stands in its docs, as
//! the proofs have it. docs/PORTABLE.md tells what is dropped and what is rewritten.

#![forbid(unsafe_code)]
// Names stand for themselves where a comment would only say them again: fields, variants, constants.
#![allow(missing_docs)]
// The session program uses some functions that no exported call comes to.
#![allow(dead_code)]
// Patterns name all that a variant holds, though not every arm uses it.
#![allow(unused_variables)]
// The text is copied as it is proved: its loops and comparisons are not put into other words here.
#![allow(clippy::style, clippy::complexity)]

#[cfg(not(any(target_pointer_width = "64", target_arch = "wasm32")))]
compile_error!("the proofs are of a machine whose usize has 64 bits, and this text of it and of WebAssembly");

pub mod access;
pub mod answer;
pub mod bits;
pub mod device;
pub mod difference;
pub mod drain;
pub mod fields;
pub mod image;
pub mod ledger;
pub mod lines;
pub mod pch_pic;
pub mod pch_pic_board;
pub mod pch_pic_convert;
pub mod pch_pic_hoist;
pub mod pch_pic_salvage;
pub mod pch_pic_sheet;
pub mod pch_pic_table;
pub mod pch_pic_tally;
pub mod pch_pic_trace;
pub mod six_calls;
pub mod stored;
pub mod table;
pub mod trace;

/// Every call that a host makes. It may use some of them only.
#[allow(unused_imports)]
pub mod calls {
    pub use super::difference::pch_pic_difference;
    pub use super::pch_pic::{pch_pic_drain, pch_pic_level, pch_pic_poll, pch_pic_read, pch_pic_reset, pch_pic_waiting, pch_pic_write};
    pub use super::pch_pic_convert::pch_pic_convert;
    pub use super::pch_pic_trace::{pch_pic_play, pch_pic_play_on};
    pub use super::pch_pic_salvage::pch_pic_salvage;
    pub use super::pch_pic_board::{pch_pic_board_drain, pch_pic_board_event, pch_pic_board_level, pch_pic_board_poll, pch_pic_board_read, pch_pic_board_reset, pch_pic_board_write};
    pub use super::pch_pic_hoist::{pch_pic_hoist_end_startup, pch_pic_hoist_read, pch_pic_hoist_reset, pch_pic_hoist_write};
    pub use super::pch_pic_sheet::pch_pic_sheet;
    pub use super::pch_pic_tally::{pch_pic_tally_add, pch_pic_tally_begin, pch_pic_tally_sheet};
    pub use super::pch_pic_table::{pch_pic_table_read, pch_pic_table_write};
}
