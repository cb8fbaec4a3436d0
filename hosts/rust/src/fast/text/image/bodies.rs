// Made from crates/image/src/bodies.rt by tools/portable: do not change it here.
//! Whether an image with a form's length and contents may be loaded: the rules of its bodies. Bytes are compared as numbers, eight at a time. Of the ring's pairs
//! and numbers the bits are gathered that any has: they settle the commonest ring, and all flags at once. What is wrong in a body, and where, is searched for
//! only in an image that is not accepted.

use super::super::bits::bytes::word_at;
use super::form::places_of;
use super::form::Form;
use super::form::CAPACITY;
use super::form::NUMBERS_LENGTH;
use super::form::PAIRS_LENGTH;
use super::unused;

/// Where the numbers stand; in a form without numbers, the pairs.
///
/// ```text
/// ensures { result ≡ spare_at (form_view form) }
/// ```
#[inline]
pub fn spare_of(form: Form) -> usize {
    let p = places_of(form);
    match form {
        Form::One => p.pairs,
        Form::Two => p.pairs,
        Form::Numbered => p.numbers,
    }
}

/// The rules of the bodies. A form without a copy of IRR has IRR's own place there, and one without numbers the pairs' place.
///
/// ```text
/// requires { length image.now ≡ form_length (form_view form) }
/// ensures { result ≡ bodies_good (form_view form) image.now }
/// ```
#[inline]
pub fn test_bodies<const N: usize>(image: &[u8; N]) -> bool {
    let form = const { super::super::image::form::form_at(N) };
    let p = places_of(form);
    if word_at(image, p.last_intirr) != word_at(image, p.intirr) {
        return false;
    }
    let place = p.count;
    let count = image[place] as usize;
    if count > CAPACITY {
        return false;
    }
    let at = p.pairs;
    let end = at + PAIRS_LENGTH;
    let spare = spare_of(form);
    let last = spare + NUMBERS_LENGTH;
    let found = unused::all_bits(&image[at..end]);
    // every pair and every number is zero: the commonest ring
    if found | unused::all_bits(&image[spare..last]) == 0 {
        return true;
    }
    // a flag is over 1, of a waiting pair or of an unused one
    if found & 0xfe00_fe00_fe00_fe00 != 0 {
        return false;
    }
    unused::unused_zero(count, &image[at..end], &image[spare..last])
}

/// The same, of an image in which something waits as a rule: that every pair is zero is not looked for first, and with sixteen that wait none is unused.
///
/// ```text
/// requires { length image.now ≡ form_length (form_view form) }
/// ensures { result ≡ bodies_good (form_view form) image.now }
/// ```
#[inline]
pub fn test_waiting<const N: usize>(image: &[u8; N]) -> bool {
    let form = const { super::super::image::form::form_at(N) };
    let p = places_of(form);
    let copy = word_at(image, p.last_intirr);
    if copy != word_at(image, p.intirr) {
        return false;
    }
    let place = p.count;
    let count = image[place] as usize;
    if 16 < count {
        return false;
    }
    let at = p.pairs;
    let end = at + PAIRS_LENGTH;
    if unused::all_bits(&image[at..end]) & 0xfe00_fe00_fe00_fe00 != 0 {
        return false;
    }
    if count == 16 {
        return true;
    }
    let spare = spare_of(form);
    let last = spare + NUMBERS_LENGTH;
    unused::unused_zero(count, &image[at..end], &image[spare..last])
}
