// Made from crates/fields/src/lib.rt by tools/portable: do not change it here.
//! The fields of an image, read and written in place.

pub mod entries;
pub mod event_numbers;
pub mod number_bytes;
pub mod ring;
pub mod words;
