// Made from crates/ledger/src/cells.rt by tools/portable: do not change it here.
//! The numbers of a sheet or a tally, kept in the bytes that are lent for it, in four bytes each or wide, in eight: read and written, and what a mark does to them.

use super::super::bits::bytes::number;
use super::super::bits::bytes::put_bytes;

/// The columns of a row.
pub const RAISES: usize = 0;

pub const LOWERS: usize = 1;

const ASSERTS: usize = 2;

const DEASSERTS: usize = 3;

const RETURNED: usize = 4;

const OFFERED: usize = 5;

const DROPPED: usize = 6;

pub const GREATEST: usize = 7;

const WITHDRAWN: usize = 8;

pub const OPEN: usize = 9;

/// What becomes of an event.
#[derive(Clone, Copy)]
pub enum Fate {
    Returned,
    Kept,
    Dropped,
}

// ---- where a number stands

/// ```text
/// ensures { result ≡ cell_bytes wide }
/// ```
fn bytes(wide: bool) -> usize {
    if wide { 8 } else { 4 }
}

/// ```text
/// requires { (row < 65) × (column < 10) }
/// ensures { result ≡ cell_place wide row column }
/// ```
pub fn place(wide: bool, row: usize, column: usize) -> usize {
    if wide {
        80 * row + 8 * column
    } else {
        40 * row + 4 * column
    }
}

/// The number in a row and a column.
///
/// ```text
/// requires { Roomy wide sheet.now × (row < 65) × (column < 10) }
/// ensures { Reads wide sheet.now result row column }
/// ```
pub fn cell(sheet: &[u8], wide: bool, row: usize, column: usize) -> u64 {
    let at = place(wide, row, column);
    let end = at + bytes(wide);
    number(&sheet[at..end])
}

/// ```text
/// requires { Roomy wide sheet.old × (row < 65) × (column < 10) }
/// ensures { Puts wide sheet.old sheet.new row column x }
/// ```
pub fn put_cell(sheet: &mut [u8], wide: bool, row: usize, column: usize, x: u64) {
    let at = place(wide, row, column);
    put_bytes(sheet, at, bytes(wide), x);
}

/// One more, in a column that is counted.
///
/// ```text
/// requires { Roomy wide sheet.old × (row < 65) × (column < 10) × (is_wait column ≡ false) }
/// ensures { Becomes wide sheet.old sheet.new (λ f. bump f row column) }
/// ```
pub fn count(sheet: &mut [u8], wide: bool, row: usize, column: usize) {
    let x = cell(sheet, wide, row, column);
    put_cell(sheet, wide, row, column, x.wrapping_add(1));
}

// ---- waits

/// How many records came after the one before `since`, up to k.
///
/// ```text
/// requires { k < 2 ^ 64 - 1 }
/// ensures { result ≡ k + 1 - since }
/// ```
fn elapsed(k: u64, since: u64) -> u64 {
    (k + 1).saturating_sub(since)
}

/// A wait begins at the record k.
///
/// ```text
/// requires { Ready wide sheet.old n k }
/// ensures { Takes wide sheet.old sheet.new (began n k ∷ []) }
/// ```
pub fn begin(sheet: &mut [u8], wide: bool, n: usize, k: u64) {
    put_cell(sheet, wide, n, OPEN, k + 1);
}

/// It ends with the assert at the record k, if it is not over.
///
/// ```text
/// requires { Ready wide sheet.old n k }
/// ensures { Becomes wide sheet.old sheet.new (λ f. settled f n k) }
/// ```
fn settle(sheet: &mut [u8], wide: bool, n: usize, k: u64) {
    let since = cell(sheet, wide, n, OPEN);
    if since == 0 {
        return;
    }
    let most = cell(sheet, wide, n, GREATEST);
    put_cell(sheet, wide, n, GREATEST, most.max(elapsed(k, since)));
    put_cell(sheet, wide, n, OPEN, 0);
}

/// It is taken back, if it is not over.
///
/// ```text
/// requires { Roomy wide sheet.old × (n < 64) }
/// ensures { Takes wide sheet.old sheet.new (taken_back n ∷ []) }
/// ```
pub fn withdraw(sheet: &mut [u8], wide: bool, n: usize) {
    let since = cell(sheet, wide, n, OPEN);
    if since == 0 {
        return;
    }
    count(sheet, wide, n, WITHDRAWN);
    put_cell(sheet, wide, n, OPEN, 0);
}

// ---- events

/// ```text
/// ensures { result ≡ kind_column asserted }
/// ```
fn kind_column(asserted: bool) -> usize {
    if asserted { ASSERTS } else { DEASSERTS }
}

/// A dropped event is among the offered ones.
///
/// ```text
/// requires { Roomy wide sheet.old × (n < 64) }
/// ensures { Becomes wide sheet.old sheet.new (λ f. bumped f n (fate_columns (fate_view fate))) }
/// ```
fn count_fate(sheet: &mut [u8], wide: bool, n: usize, fate: Fate) {
    match fate {
        Fate::Returned => count(sheet, wide, n, RETURNED),
        Fate::Kept => count(sheet, wide, n, OFFERED),
        Fate::Dropped => {
            count(sheet, wide, n, OFFERED);
            count(sheet, wide, n, DROPPED);
        }
    }
}

/// An event of the input n at the record k.
///
/// ```text
/// requires { Ready wide sheet.old n k }
/// ensures { Takes wide sheet.old sheet.new (happened (note_with n k asserted (fate_view fate)) ∷ []) }
/// ```
pub fn event(sheet: &mut [u8], wide: bool, n: usize, k: u64, asserted: bool, fate: Fate) {
    count(sheet, wide, n, kind_column(asserted));
    count_fate(sheet, wide, n, fate);
    if asserted {
        settle(sheet, wide, n, k);
    }
}
