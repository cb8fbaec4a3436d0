// Made from crates/bits/src/lib.rt by tools/portable: do not change it here.
//! The leaves on numbers: a half of a register and a byte of a Dword, taken and replaced. They do it by the masks and shifts of loongarch_pch_pic.rs, but for
//! replace_u32, which has remainder and product (02, C-12). Each is an equation with a definition of rules.

pub mod bytes;

/// 2^32: a register is its high half times this, and its low half.
const HALF: u64 = 0x1_0000_0000;

/// old with its high or its low half replaced by val. Every half of a register that is replaced, by value and in place, is replaced here.
///
/// ```text
/// ensures { result ≡ with_half high old val }
/// ```
#[inline]
pub fn replace_u32(old: u64, val: u32, high: bool) -> u64 {
    if high {
        u64::from(val) * HALF + old % HALF
    } else {
        old - old % HALF + u64::from(val)
    }
}

/// The high or the low half of x. A cast must not lose bits, so the low half is masked out first.
///
/// ```text
/// ensures { result ≡ half high x }
/// ```
#[inline]
pub fn half(x: u64, high: bool) -> u32 {
    if high {
        (x >> 32) as u32
    } else {
        (x & 0xffff_ffff) as u32
    }
}

/// The register that has v as its high or its low half, and nothing else.
///
/// ```text
/// ensures { result ≡ as_half high v }
/// ```
#[inline]
pub fn in_half(v: u32, high: bool) -> u64 {
    if high {
        u64::from(v) << 32
    } else {
        u64::from(v)
    }
}

/// Byte k of x, the low one being 0.
///
/// ```text
/// requires { k < 4 }
/// ensures { result ≡ byte_of x k }
/// ```
#[inline]
pub fn byte_of(x: u32, k: usize) -> u8 {
    assert!(k < 4);
    let shift = k * 8;
    ((x >> shift) & 0xff) as u8
}

/// old with its byte k replaced by val.
///
/// ```text
/// requires { k < 4 }
/// ensures { result ≡ with_byte old k val }
/// ```
#[inline]
pub fn with_byte(old: u32, k: usize, val: u8) -> u32 {
    assert!(k < 4);
    let shift = k * 8;
    (old & !(0xff << shift)) | (u32::from(val) << shift)
}
