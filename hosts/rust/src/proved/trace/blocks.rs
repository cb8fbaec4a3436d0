// Made from crates/trace/src/blocks.rt by tools/portable: do not change it here.
//! The blocks that the contents of a trace list: back to back, none empty, and how many records they have.

use super::record_bytes::LENGTH;

const MOST_RECORDS: usize = 4000;

/// The number of two bytes at a place.
///
/// ```text
/// requires { at + 2 ≤ length trace.now }
/// ensures { (result ≡ two_at at trace.now) × (result < 2 ^ 16) }
/// ```
pub fn two_at(trace: &[u8], at: usize) -> usize {
    let low = trace[at] as usize;
    let high = trace[at + 1] as usize;
    low + 256 * high
}

/// How many records the blocks have together. None if they do not stand as they have to: each block begins where the one before ends and has a record; the first begins right
/// behind the contents.
///
/// ```text
/// requires { (blocks ≤ most_blocks) × (listed_at blocks ≤ length trace.now) }
/// ensures { result ≡ listed_as blocks trace.now }
/// ```
pub fn count_records(trace: &[u8], blocks: usize) -> Option<usize> {
    let first = 2 + 4 * blocks;
    let mut records = 0;
    for b in 0..blocks {
        let at = 2 + 4 * b;
        if two_at(trace, at) != first + LENGTH * records {
            return None;
        }
        let count = two_at(trace, at + 2);
        if count == 0 {
            return None;
        }
        records += count;
        if records > MOST_RECORDS {
            return None;
        }
    }
    Some(records)
}
