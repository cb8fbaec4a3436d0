// Made from crates/image/src/unused.rt by tools/portable: do not change it here.
//! The tests of a ring's events, by words: the bits that any pair or number has, and that the unused ones are zero.

use super::super::bits::bytes::word_at;
use super::form::CAPACITY;
use super::form::PAIR;

/// Where the last word of sixteen things of two bytes begins.
const LAST_WORD: usize = 24;

/// The bits that any of the four words of the pairs has.
///
/// ```text
/// requires { length pairs.now ≡ 2 * capacity }
/// ensures { result ≡ bits_of 4 pairs.now }
/// ```
pub fn all_bits(pairs: &[u8]) -> u64 {
    let mut found = 0u64;
    for i in 0..4 {
        found |= word_at(pairs, 8 * i);
    }
    found
}

/// The word at a place, or the last word where the place is past that.
///
/// ```text
/// requires { length events.now ≡ 2 * capacity }
/// ensures { result ≡ register_at (min at last_word) events.now }
/// ```
fn word_or_last(events: &[u8], at: usize) -> u64 {
    if at < LAST_WORD {
        return word_at(events, at);
    }
    word_at(events, LAST_WORD)
}

/// 0 exactly where all behind the first `count` of sixteen things of two bytes is zero. Words are looked at from there on, of which the later ones may overlap. Behind more than
/// twelve fewer bytes than a word are left: those that wait are shifted out of the last.
///
/// ```text
/// requires { (length events.now ≡ 2 * capacity) × (count ≤ capacity) }
/// ensures { (result == 0) ≡ all_zero (drop (2 * count) events.now) }
/// ```
pub fn behind(count: usize, events: &[u8]) -> u64 {
    if count <= 12 {
        let from = PAIR * count;
        return word_at(events, from)
            | word_or_last(events, from + 8)
            | word_or_last(events, from + 16)
            | word_at(events, LAST_WORD);
    }
    if count == CAPACITY {
        return 0;
    }
    word_at(events, LAST_WORD) >> (16 * (count - 12))
}

/// Unused pairs and unused numbers are zero.
///
/// ```text
/// requires { (length pairs.now ≡ 2 * capacity) × (length spare.now ≡ 2 * capacity) × (count ≤ capacity) }
/// ensures { result ≡ (all_zero (drop (2 * count) pairs.now) && all_zero (drop (2 * count) spare.now)) }
/// ```
pub fn unused_zero(count: usize, pairs: &[u8], spare: &[u8]) -> bool {
    behind(count, pairs) | behind(count, spare) == 0
}
