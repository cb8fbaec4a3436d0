// Made from crates/stored/src/lib.rt by tools/portable: do not change it here.
//! The state stored as an image.

pub mod pairs;
pub mod reset_parts;
pub mod save_parts;
pub mod save_reset;
pub mod save_state;
pub mod save_words;
