// Made from crates/ by tools/portable: do not change it here.
//! The proved sources as Rust, made fast: the plain copy with steps on it that docs/PORTABLE.md tells, one copy of the text for each front.

#![forbid(unsafe_code)]
// The same files stand behind each front, so that what has one caller becomes a part of it.
#![allow(clippy::duplicate_mod)]

#[cfg(not(any(target_pointer_width = "64", target_arch = "wasm32")))]
compile_error!("the proofs are of a machine whose usize has 64 bits, and this text of it and of WebAssembly");

#[path = "text/mod.rs"]
mod for_difference;
#[path = "text/mod.rs"]
mod for_pch_pic;
#[path = "text/mod.rs"]
mod for_pch_pic_convert;
#[path = "text/mod.rs"]
mod for_pch_pic_trace;
#[path = "text/mod.rs"]
mod for_pch_pic_salvage;
#[path = "text/mod.rs"]
mod for_pch_pic_board;
#[path = "text/mod.rs"]
mod for_pch_pic_hoist;
#[path = "text/mod.rs"]
mod for_pch_pic_sheet;
#[path = "text/mod.rs"]
mod for_pch_pic_tally;
#[path = "text/mod.rs"]
mod for_pch_pic_table;

/// Every call that a host makes. It may use some of them only.
#[allow(unused_imports)]
pub mod calls {
    pub use super::for_difference::difference::pch_pic_difference;
    pub use super::for_pch_pic::pch_pic::{pch_pic_drain, pch_pic_level, pch_pic_poll, pch_pic_read, pch_pic_reset, pch_pic_waiting, pch_pic_write};
    pub use super::for_pch_pic_convert::pch_pic_convert::pch_pic_convert;
    pub use super::for_pch_pic_trace::pch_pic_trace::{pch_pic_play, pch_pic_play_on};
    pub use super::for_pch_pic_salvage::pch_pic_salvage::pch_pic_salvage;
    pub use super::for_pch_pic_board::pch_pic_board::{pch_pic_board_drain, pch_pic_board_event, pch_pic_board_level, pch_pic_board_poll, pch_pic_board_read, pch_pic_board_reset, pch_pic_board_write};
    pub use super::for_pch_pic_hoist::pch_pic_hoist::{pch_pic_hoist_end_startup, pch_pic_hoist_read, pch_pic_hoist_reset, pch_pic_hoist_write};
    pub use super::for_pch_pic_sheet::pch_pic_sheet::pch_pic_sheet;
    pub use super::for_pch_pic_tally::pch_pic_tally::{pch_pic_tally_add, pch_pic_tally_begin, pch_pic_tally_sheet};
    pub use super::for_pch_pic_table::pch_pic_table::{pch_pic_table_read, pch_pic_table_write};
}
