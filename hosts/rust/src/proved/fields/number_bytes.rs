// Made from crates/fields/src/number_bytes.rt by tools/portable: do not change it here.
//! The numbers of events as bytes: the next one, taken where it stands, and those from 0 on.

use super::super::bits::bytes::number;
use super::super::bits::bytes::put_bytes;
use super::super::image::form;

/// The numbers from 0 on, as an image would have them.
///
/// ```text
/// ensures { result ≡ written number_twos (up_from 0 16) }
/// ```
pub fn from_zero() -> [u8; 32] {
    [
        0, 0, 1, 0, 2, 0, 3, 0, 4, 0, 5, 0, 6, 0, 7, 0, 8, 0, 9, 0, 10, 0, 11, 0, 12, 0, 13, 0, 14,
        0, 15, 0,
    ]
}

/// The number that two bytes from a place on spell. `drops_at` of pch_pic_convert does the same with four bytes: one function over the width would be longer than both.
///
/// ```text
/// requires { at + 2 ≤ length image.now }
/// ensures { result ≡ number_of (part at 2 image.now) }
/// ```
fn number_at(image: &[u8], at: usize) -> u16 {
    let end = at + form::NUMBER;
    number(&image[at..end]) as u16
}

/// Here an event gets its number, whether it is returned, kept or dropped: the next one, which stands at a place. After 65,535 comes 0.
///
/// ```text
/// requires { at + 2 ≤ length image.old }
/// ensures { NextTaken at image.old image.new result }
/// ```
pub fn take_next(image: &mut [u8], at: usize) -> u16 {
    let taken = number_at(image, at);
    put_bytes(image, at, form::NUMBER, taken.wrapping_add(1) as u64);
    taken
}
