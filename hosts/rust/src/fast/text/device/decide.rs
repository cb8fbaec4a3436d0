// Made from crates/device/src/decide.rt by tools/portable: do not change it here.
//! Which inputs a step meets, as numbers: those of a set that wait or are in service, and those that a new half of MASK unmasks or masks.
//! A state by value and an image in place are moved by these same leaves.

use super::super::bits;

/// The inputs of a set that are latched, unmasked and not in service.
///
/// ```text
/// ensures { result ≡ register (waiting_of set irr mask isr) }
/// ```
#[inline]
pub fn pending(set: u64, irr: u64, mask: u64, isr: u64) -> u64 {
    set & irr & !mask & !isr
}

/// The inputs of a set that are in service.
///
/// ```text
/// ensures { result ≡ register (served_of set isr) }
/// ```
#[inline]
pub fn served(set: u64, isr: u64) -> u64 {
    isr & set
}

/// The inputs that are in old and, once the half is val, no longer.
///
/// ```text
/// ensures { (i : ℕ) → i < 64 → on result i ≡ newly_unmasked old (with_half high old val) i }
/// ```
#[inline]
pub fn newly_unmasked(old: u64, val: u32, high: bool) -> u64 {
    let old_part = bits::half(old, high);
    bits::in_half(old_part & !val, high)
}

/// The inputs that are not in old and, once the half is val, are.
///
/// ```text
/// ensures { (i : ℕ) → i < 64 → on result i ≡ newly_masked old (with_half high old val) i }
/// ```
#[inline]
pub fn newly_masked(old: u64, val: u32, high: bool) -> u64 {
    let old_part = bits::half(old, high);
    bits::in_half(!old_part & val, high)
}
