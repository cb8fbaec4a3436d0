// Made from crates/table/src/table_rows.rt by tools/portable: do not change it here.
//! The table of the register map: its 1,024 numbers, and that each tells what 01's map says of its offset.

pub mod rows;

/// The whole table where it stands, which no caller copies.
///
/// ```text
/// ensures { Agrees result.now }
/// ```
#[inline]
pub fn lent() -> &'static [[u8; 32]; 32] {
    &rows::TABLE
}

/// The whole table. A caller lends it on: an array that is named again is copied again.
///
/// ```text
/// ensures { Agrees result }
/// ```
#[inline(always)]
pub fn whole() -> [[u8; 32]; 32] {
    rows::TABLE
}
