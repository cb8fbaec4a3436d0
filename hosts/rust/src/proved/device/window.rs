// Made from crates/device/src/window.rt by tools/portable: do not change it here.
//! Which accesses are the device's: the width, and the address within the window.

use super::map::Width;

/// A width that is known, or None.
///
/// ```text
/// ensures { known_view result ≡ width_test width }
/// ```
pub fn width_of(width: u64) -> Option<Width> {
    match width {
        1 => Some(Width::Byte),
        2 => Some(Width::Word),
        4 => Some(Width::Dword),
        8 => Some(Width::Qword),
        _ => None,
    }
}

/// How many bytes the window has: its size, or what there is from its base up to 2^64 - 1.
///
/// ```text
/// ensures { base + result ≡ min (base + size) (2 ^ 64 - 1) }
/// ```
fn bytes_in(base: u64, size: u64) -> u64 {
    size.min(u64::MAX - base)
}

/// An access inside the window as an offset; None of one outside. All its bytes must be inside; so no offset within it passes 2^64 - 1. An address below the base wraps to an offset past every window's end.
///
/// ```text
/// ensures { (located_view address result ≡ address_test base size address width) × Ends result width }
/// ```
pub fn locate(base: u64, size: u64, address: u64, width: u64) -> Option<usize> {
    let bytes = bytes_in(base, size);
    if width <= bytes {
        let offset = address.wrapping_sub(base);
        if offset <= bytes - width {
            return Some(near(offset));
        }
    }
    None
}

/// A place of 64 bits as a usize. Where that has 32 bits, one of 2^31 and more is 2^31 and its own within eight bytes: nothing stands at either.
#[inline(always)]
fn near(place: u64) -> usize {
    if usize::BITS == 64 || place < 1 << 31 { place as usize } else { 1 << 31 | (place % 8) as usize }
}
