// Made from crates/ledger/src/watch_record.rt by tools/portable: do not change it here.
//! One record of a trace as a pass takes it: the call that it is, with base 0 and size 65,536. A refused call does nothing.

use super::super::device::window;
use super::super::trace::record_bytes::Record;
use super::super::trace::record_bytes::LOWER;
use super::super::trace::record_bytes::POLL;
use super::super::trace::record_bytes::RAISE;
use super::super::trace::record_bytes::READ;
use super::super::trace::record_bytes::WRITE;
use super::watch;
use super::watch::Watched;
use super::watch_write;

const INPUTS: u64 = 64;

const SIZE: u64 = 0x1_0000;

// ---- a write

/// ```text
/// requires { Roomy wide sheet.old × (k < record_limit wide) }
/// ensures { FollowsItem wide (lines_of w) w.waiting (lines_of result) result.waiting sheet.old sheet.new k
///     (as_item (asked_by (asked.write 0 65536 address width value))) }
/// ```
#[inline]
fn write(
    sheet: &mut [u8],
    wide: bool,
    w: Watched,
    k: u64,
    address: u64,
    width: u64,
    value: u64,
) -> Watched {
    if window::width_of(width).is_none() {
        return w;
    }
    let Some(offset) = window::locate(0, SIZE, address, width) else {
        return w;
    };
    watch_write::write(sheet, wide, w, k, offset, value, width)
}

// ---- a record

/// A call on no input changes nothing, and a read nothing that is kept; after a drain of all nothing waits.
///
/// ```text
/// requires { Roomy wide sheet.old × (k < record_limit wide) }
/// ensures { FollowsItem wide (lines_of w) w.waiting (lines_of result) result.waiting sheet.old sheet.new k (item_of (record_view r)) }
/// ```
#[inline]
pub fn step(sheet: &mut [u8], wide: bool, w: Watched, k: u64, r: Record) -> Watched {
    let byte = r.byte as u64;
    match r.kind {
        RAISE if byte < INPUTS => watch::raise(sheet, wide, w, byte as usize, k),
        LOWER if byte < INPUTS => watch::lower(sheet, wide, w, byte as usize, k),
        POLL if byte < INPUTS => watch::poll(sheet, wide, w, byte as usize, k),
        RAISE | LOWER | POLL | READ => w,
        WRITE => write(sheet, wide, w, k, r.offset as u64, byte, r.value),
        _ => Watched { waiting: 0, ..w },
    }
}
