// Made from crates/trace/src/good_record.rt by tools/portable: do not change it here.
//! Which records of a trace are good, by value.

use super::record_bytes::Record;
use super::record_bytes::DRAIN;
use super::record_bytes::RAISE;
use super::record_bytes::READ;
use super::record_bytes::WRITE;

/// A kind is 1 to 6, and what it does not use is zero, as the zero bytes are. What is not zero is looked for first: it says which kinds are left, in half the
/// instructions of all tests in a row.
///
/// ```text
/// ensures { result ≡ is_good (record_view r) }
/// ```
#[inline]
pub fn is_good(r: Record) -> bool {
    let kind = r.kind;
    if r.zeros != 0 {
        return false;
    }
    if r.value != 0 {
        return kind == WRITE;
    }
    if r.offset != 0 {
        return (kind == READ) | (kind == WRITE);
    }
    let known = (RAISE <= kind) & (kind <= DRAIN);
    if r.byte != 0 {
        return known & (kind != DRAIN);
    }
    known
}
