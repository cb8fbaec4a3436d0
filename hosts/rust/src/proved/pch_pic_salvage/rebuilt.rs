// Made from crates/pch_pic_salvage/src/rebuilt.rt by tools/portable: do not change it here.
//! The bytes of a salvaged trace, and the list of what was dropped, each written from the front of what is lent. Bytes past them stay.

use super::super::bits::bytes::put_bytes;
use super::super::bits::bytes::put_word;
use super::super::bits::bytes::word_at;
use super::super::trace::record_bytes::LENGTH;
use super::torn::look;

/// Two numbers of two bytes each, as an entry of the contents and of the list is.
///
/// ```text
/// requires { (at + 4 ≤ length out.old) × (m < 2 ^ 16) × (n < 2 ^ 16) }
/// ensures { out.new ≡ with_two at m n out.old }
/// ```
fn put_two(out: &mut [u8], at: usize, m: usize, n: usize) {
    put_bytes(out, at, 4, (m + 65536 * n) as u64);
}

/// A block's records, two words each: copied byte by byte they would become a call of memcpy. Both are read before one is written, so that they are copied as one.
///
/// ```text
/// requires { (length dst.old ≡ record_length * records) × (length src.now ≡ record_length * records) }
/// ensures { dst.new ≡ src.now }
/// ```
fn copy_records(dst: &mut [u8], src: &[u8], records: usize) {
    for k in 0..records {
        let at = LENGTH * k;
        let first = word_at(src, at);
        let second = word_at(src, at + 8);
        put_word(dst, at, first);
        put_word(dst, at + 8, second);
    }
}

/// The contents of what is left: how many blocks, and for each where it will stand and how many records it has.
///
/// ```text
/// requires { Ready bads.now trace.now blocks (new_contents blocks trace.now) out.old × (left ≡ length (left_of blocks trace.now)) }
/// ensures { out.new ≡ in_front (new_contents blocks trace.now) out.old }
/// ```
pub fn put_contents(trace: &[u8], blocks: usize, bads: &[u16; 64], left: usize, out: &mut [u8]) {
    put_bytes(out, 0, 2, left as u64);
    let mut at = 2;
    let mut place = 2 + 4 * left;
    for b in 0..blocks {
        let block = look(trace, bads, b);
        if block.bad.is_none() {
            put_two(out, at, place, block.records);
            at += 4;
            place += LENGTH * block.records;
        }
    }
}

/// The blocks that are left, back to back.
///
/// ```text
/// requires { Ready bads.now trace.now blocks (new_blocks blocks trace.now) out.old }
/// ensures { out.new ≡ in_front (new_blocks blocks trace.now) out.old }
/// ```
pub fn put_blocks(trace: &[u8], blocks: usize, bads: &[u16; 64], out: &mut [u8]) {
    let mut at = 0;
    for b in 0..blocks {
        let block = look(trace, bads, b);
        if block.bad.is_none() {
            let records = block.records;
            let from = block.place;
            let until = from + LENGTH * records;
            let end = at + LENGTH * records;
            copy_records(&mut out[at..end], &trace[from..until], records);
            at = end;
        }
    }
}

/// The blocks that are not, in rising order, each with the first bad record in it.
///
/// ```text
/// requires { Ready bads.now trace.now blocks (new_list blocks trace.now) out.old }
/// ensures { out.new ≡ in_front (new_list blocks trace.now) out.old }
/// ```
pub fn put_list(trace: &[u8], blocks: usize, bads: &[u16; 64], out: &mut [u8]) {
    let mut at = 0;
    for b in 0..blocks {
        if let Some(bad) = look(trace, bads, b).bad {
            put_two(out, at, b, bad);
            at += 4;
        }
    }
}
