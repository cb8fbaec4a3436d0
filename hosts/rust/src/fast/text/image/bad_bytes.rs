// Made from crates/image/src/bad_bytes.rt by tools/portable: do not change it here.
//! The first byte of a ring's pairs or numbers that breaks a rule, searched for from the front. Words of zeros are passed
//! over. Only the bytes of an image that is not accepted come here.

use super::super::bits::bytes::word_at;
use super::form::FLAG;
use super::form::PAIR;

/// Where the last word of the pairs or numbers begins.
const LAST_WORD: usize = 24;

/// The first flag of a waiting pair that is neither 0 nor 1, or the length: no Option, since `First` has the length for none.
///
/// ```text
/// requires { (length pairs.now ≡ 2 * capacity) × (count ≤ capacity) }
/// ensures { First (flag_rule count).bad pairs.now result }
/// ```
#[inline]
pub fn bad_flag(count: usize, pairs: &[u8]) -> usize {
    assert!(pairs.len() == 32 && count <= 16);
    for i in 0..count {
        let flag = PAIR * i + FLAG;
        if pairs[flag] > 1 {
            return flag;
        }
    }
    pairs.len()
}

/// Where words of zeros from a byte on end. A while and no for: where it stops is the answer, past the last word too.
///
/// ```text
/// requires { (length pairs.now ≡ 2 * capacity) × (from ≤ 2 * capacity) }
/// ensures { ZerosTo pairs.now from result }
/// ```
#[inline]
fn zeros_end(pairs: &[u8], from: usize) -> usize {
    assert!(pairs.len() == 32 && from <= 32);
    let mut i = from;
    while i <= LAST_WORD {
        if word_at(pairs, i) != 0 {
            return i;
        }
        i += 8;
    }
    i
}

/// The first byte behind the waiting pairs, or numbers, that is not zero, or the length, as `First` has it.
///
/// ```text
/// requires { (length pairs.now ≡ 2 * capacity) × (count ≤ capacity) }
/// ensures { First (unused_rule rules-form.pairs count).bad pairs.now result }
/// ```
#[inline]
pub fn used_byte(count: usize, pairs: &[u8]) -> usize {
    assert!(pairs.len() == 32 && count <= 16);
    let start = zeros_end(&*pairs, PAIR * count);
    for i in start..pairs.len() {
        if pairs[i] != 0 {
            return i;
        }
    }
    pairs.len()
}
