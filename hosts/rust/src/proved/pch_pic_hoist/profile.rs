// Made from crates/pch_pic_hoist/src/profile.rt by tools/portable: do not change it here.
//! The hoist profile's tests by value: which accesses are aligned Dwords, which offsets are ISR's or the vectors', and whether a Dword would change a vector byte
//! whose input is in service.

use super::super::bits;
use super::super::device::map::Width;
use super::super::device::state::PchPicState;

// ---- an access

/// A Dword at an offset that 4 divides.
///
/// ```text
/// ensures { result ≡ aligned_dword (width_view width) offset }
/// ```
pub fn is_aligned_dword(width: Width, offset: usize) -> bool {
    matches!(width, Width::Dword) && offset % 4 == 0
}

// ---- a write

/// ```text
/// ensures { result ≡ is_isr offset }
/// ```
pub fn is_isr(offset: usize) -> bool {
    (offset == PchPicState::INT_ISR_LO) | (offset == PchPicState::INT_ISR_HI)
}

/// ```text
/// ensures { result ≡ in_vectors offset }
/// ```
pub fn in_vectors(offset: usize) -> bool {
    (PchPicState::HTMSI_VEC_BASE <= offset) & (offset < PchPicState::HTMSI_VEC_BASE + 64)
}

/// Byte k of a Dword of vector bytes, the first of which is the input's: its own input is in service, and it would change.
///
/// ```text
/// requires { (k < 4) × (input + k < 64) }
/// ensures { result ≡ changes_byte isr input old new k }
/// ```
fn changes_byte(isr: u64, input: usize, old: u32, new: u32, k: usize) -> bool {
    let n = input + k;
    ((isr >> n) % 2 == 1) & (bits::byte_of(new, k) != bits::byte_of(old, k))
}

/// One of the four does.
///
/// ```text
/// requires { input + 4 ≤ 64 }
/// ensures { result ≡ changes_four isr input old new }
/// ```
pub fn changes_served(isr: u64, input: usize, old: u32, new: u32) -> bool {
    let a = changes_byte(isr, input, old, new, 0);
    let b = changes_byte(isr, input, old, new, 1);
    let c = changes_byte(isr, input, old, new, 2);
    let d = changes_byte(isr, input, old, new, 3);
    a | (b | (c | d))
}
