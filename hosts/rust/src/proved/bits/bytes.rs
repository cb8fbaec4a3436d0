// Made from crates/bits/src/bytes.rt by tools/portable: do not change it here.
//! A number and its bytes, little end first, read and written where they stand; runs of bytes copied and zeroed.

/// The number that at most eight bytes spell, the low one first. Read from the front, so that eight bytes become one load.
///
/// ```text
/// requires { length b.now ≤ 8 }
/// ensures { result ≡ number_of b.now }
/// ```
pub fn number(b: &[u8]) -> u64 {
    let mut x = 0u64;
    for (i, byte) in b.iter().enumerate() {
        x |= u64::from(*byte) << (8 * i);
    }
    x
}

/// The low bytes of x, as many as there are places.
///
/// ```text
/// ensures { dst.new ≡ bytes_of (length dst.old) x }
/// ```
pub fn put_number(dst: &mut [u8], x: u64) {
    let mut y = x;
    for byte in dst.iter_mut() {
        *byte = (y % 256) as u8;
        y /= 256;
    }
}

/// The number that the eight bytes from a place on spell.
///
/// ```text
/// requires { at + 8 ≤ length image.now }
/// ensures { result ≡ register_at at image.now }
/// ```
pub fn word_at(image: &[u8], at: usize) -> u64 {
    number(&image[at..at + 8])
}

/// The n low bytes of x from a place on; every other byte stays.
///
/// ```text
/// requires { at + n ≤ length dst.old }
/// ensures { dst.new ≡ with_bytes at n x dst.old }
/// ```
pub fn put_bytes(dst: &mut [u8], at: usize, n: usize, x: u64) {
    put_number(&mut dst[at..at + n], x);
}

/// All eight bytes of x.
///
/// ```text
/// requires { at + 8 ≤ length dst.old }
/// ensures { dst.new ≡ with_word at x dst.old }
/// ```
pub fn put_word(dst: &mut [u8], at: usize, x: u64) {
    put_bytes(dst, at, 8, x);
}

/// All of src over all of dst.
///
/// ```text
/// requires { length dst.old ≡ length src.now }
/// ensures { dst.new ≡ src.now }
/// ```
pub fn copy(dst: &mut [u8], src: &[u8]) {
    for (i, byte) in src.iter().enumerate() {
        dst[i] = *byte;
    }
}

/// Every byte becomes zero.
///
/// ```text
/// ensures { dst.new ≡ replicate (length dst.old) 0 }
/// ```
pub fn put_zeros(dst: &mut [u8]) {
    for byte in dst.iter_mut() {
        *byte = 0;
    }
}
