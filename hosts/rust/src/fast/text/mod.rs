// Made from crates/ by tools/portable: do not change it here.
//! The proved sources with the steps of docs/PORTABLE.md on them: a module for each crate. A crate that no step changes is the plain copy's own.

// As in the plain copy.
#![allow(missing_docs, dead_code, unused_variables, unused_imports)]
#![allow(clippy::style, clippy::complexity)]

pub mod access;
pub mod answer;
pub mod bits;
pub mod device;
#[path = "../../proved/difference/mod.rs"]
pub mod difference;
pub mod drain;
pub mod fields;
pub mod image;
pub mod ledger;
pub mod lines;
pub mod pch_pic;
pub mod pch_pic_board;
pub mod pch_pic_convert;
pub mod pch_pic_hoist;
pub mod pch_pic_salvage;
pub mod pch_pic_sheet;
pub mod pch_pic_table;
pub mod pch_pic_tally;
pub mod pch_pic_trace;
pub mod six_calls;
pub mod stored;
pub mod table;
pub mod trace;
