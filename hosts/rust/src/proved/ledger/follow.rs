// Made from crates/ledger/src/follow.rt by tools/portable: do not change it here.
//! Rows of zeros, and the records of a trace, taken one after another.
//! Rows are set to zero for the inputs of a set: of rows counted one after another the compiler makes a call of memset.

use super::super::trace::record_bytes::LENGTH;
use super::super::trace::record_view::record_at;
use super::cells::cell;
use super::cells::put_cell;
use super::totals::COLUMNS;
use super::watch::Watched;
use super::watch_record::step;

/// The set of all inputs.
const ALL: u64 = 0xffff_ffff_ffff_ffff;

// ---- zeros

/// ```text
/// requires { Roomy wide sheet.old × (n < 65) }
/// ensures { Becomes wide sheet.old sheet.new (λ f. row_cleared f n 10) }
/// ```
pub fn zero_row(sheet: &mut [u8], wide: bool, n: usize) {
    for c in 0..COLUMNS {
        put_cell(sheet, wide, n, c, 0);
    }
}

/// The rows of all inputs.
///
/// ```text
/// requires { Roomy wide sheet.old }
/// ensures { Becomes wide sheet.old sheet.new (λ f. cleared f all_inputs) }
/// ```
pub fn zero(sheet: &mut [u8], wide: bool) {
    let mut left = ALL;
    while left != 0 {
        let n = u64::trailing_zeros(left) as usize;
        zero_row(sheet, wide, n);
        left &= left - 1;
    }
}

// ---- rows of another ledger

/// The row of an input, wide in both.
///
/// ```text
/// requires { Roomy true from.now × Roomy true sheet.old × (n < 64) }
/// ensures { CopiesOf from.now sheet.old sheet.new (λ g f. row_from g f n 10) }
/// ```
fn copy_row(from: &[u8], sheet: &mut [u8], n: usize) {
    for c in 0..COLUMNS {
        put_cell(sheet, true, n, c, cell(from, true, n, c));
    }
}

/// The rows of all inputs. Of a copy row by row the compiler would make a call of memcpy, so these go by a set too.
///
/// ```text
/// requires { Roomy true from.now × Roomy true sheet.old }
/// ensures { CopiesOf from.now sheet.old sheet.new (λ g f. rows_from g f all_inputs) }
/// ```
pub fn copy_rows(from: &[u8], sheet: &mut [u8]) {
    let mut left = ALL;
    while left != 0 {
        let n = u64::trailing_zeros(left) as usize;
        copy_row(from, sheet, n);
        left &= left - 1;
    }
}

// ---- the pass

/// The records of a good trace, of which the first has the number `base`, from whatever is kept.
///
/// ```text
/// requires { Reaches trace.now first records × Roomy wide sheet.old × Numbered wide base records }
/// ensures { FollowsDay wide (lines_of kept) kept.waiting sheet.old sheet.new base
///     (map item_of (records_from trace.now records 0)) }
/// ```
pub fn follow(
    trace: &[u8],
    first: usize,
    records: usize,
    sheet: &mut [u8],
    wide: bool,
    kept: Watched,
    base: u64,
) {
    let mut w = kept;
    for k in 0..records {
        let r = record_at(trace, first + LENGTH * k);
        w = step(sheet, wide, w, base + k as u64, r);
    }
}
