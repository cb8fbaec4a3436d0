// Made from crates/bits/src/bytes.rt by tools/portable: do not change it here.
//! A number and its bytes, little end first, read and written where they stand; runs of bytes copied and zeroed.

/// The number that at most eight bytes spell, the low one first. Read from the front, so that eight bytes become one load.
///
/// ```text
/// requires { length b.now ≤ 8 }
/// ensures { result ≡ number_of b.now }
/// ```
#[inline]
pub fn number(b: &[u8]) -> u64 {
    assert!(b.len() <= 8);
    let mut x = 0u64;
    for (i, byte) in b.iter().enumerate() {
        x |= u64::from(*byte) << (8 * i);
    }
    x
}

/// The low bytes of x, as many as there are places.
///
/// ```text
/// ensures { dst.new ≡ bytes_of (length dst.old) x }
/// ```
#[inline]
pub fn put_number(dst: &mut [u8], x: u64) {
    let mut y = x;
    for byte in dst.iter_mut() {
        *byte = (y % 256) as u8;
        y /= 256;
    }
}

/// The number that the eight bytes from a place on spell.
///
/// ```text
/// requires { at + 8 ≤ length image.now }
/// ensures { result ≡ register_at at image.now }
/// ```
#[inline]
pub fn word_at(image: &[u8], at: usize) -> u64 {
    assert!(8 <= image.len() && at <= image.len() - 8);
    match image[at..].first_chunk::<8>() {
        Some(word) => u64::from_le_bytes(*word),
        None => 0,
    }
}

/// The n low bytes of x from a place on; every other byte stays.
///
/// ```text
/// requires { at + n ≤ length dst.old }
/// ensures { dst.new ≡ with_bytes at n x dst.old }
/// ```
#[inline]
pub fn put_bytes(dst: &mut [u8], at: usize, n: usize, x: u64) {
    assert!(at <= dst.len() && n <= dst.len() - at);
    put_number(&mut dst[at..at + n], x);
}

/// All eight bytes of x.
///
/// ```text
/// requires { at + 8 ≤ length dst.old }
/// ensures { dst.new ≡ with_word at x dst.old }
/// ```
#[inline]
pub fn put_word(dst: &mut [u8], at: usize, x: u64) {
    assert!(8 <= dst.len() && at <= dst.len() - 8);
    if let Some(word) = dst[at..].first_chunk_mut::<8>() {
        *word = x.to_le_bytes();
    }
}

/// All of src over all of dst.
///
/// ```text
/// requires { length dst.old ≡ length src.now }
/// ensures { dst.new ≡ src.now }
/// ```
#[inline]
pub fn copy(dst: &mut [u8], src: &[u8]) {
    assert!(dst.len() == src.len());
    dst.copy_from_slice(src);
}

/// Every byte becomes zero.
///
/// ```text
/// ensures { dst.new ≡ replicate (length dst.old) 0 }
/// ```
#[inline]
pub fn put_zeros(dst: &mut [u8]) {
    for byte in dst.iter_mut() {
        *byte = 0;
    }
}
