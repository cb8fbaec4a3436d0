// Made from crates/lines/src/events.rt by tools/portable: do not change it here.
//! The events that a register write makes, offered to the ring.

use super::super::fields::entries::vector;
use super::super::fields::ring::offer;
use super::super::image::form::Form;

/// The assert of the input that entered, if one did.
///
/// ```text
/// requires { length image.old ≡ form_length (form_view form) }
/// ensures { (result ≤ 1) × Offers image.old image.new result (λ d. assert_of (answer_value entered)) }
/// ```
#[inline]
pub fn offer_entered<const N: usize>(image: &mut [u8; N], entered: Option<u8>) -> u32 {
    match entered {
        None => 0,
        Some(v) => offer(image, v, true),
    }
}

/// A deassert for each input of a set, lowest first, all added up: for a ring that has just dropped one.
///
/// ```text
/// requires { length image.old ≡ form_length (form_view form) }
/// ensures { (result ≤ length (inputs (on set))) × Offers image.old image.new result (λ d. deasserts d.core set) }
/// ```
#[inline]
fn offer_rest<const N: usize>(image: &mut [u8; N], set: u64) -> u32 {
    let mut left = set;
    let mut dropped = 0;
    while left != 0 {
        let irq = left.trailing_zeros() as usize;
        let vector = vector(image, irq);
        dropped += offer(image, vector, false);
        left &= left - 1;
    }
    dropped
}

/// A deassert for each input of a set, lowest first. Nothing is added up until one is dropped, since those before it were kept.
///
/// ```text
/// requires { length image.old ≡ form_length (form_view form) }
/// ensures { (result ≤ 64) × Offers image.old image.new result (λ d. deasserts d.core set) }
/// ```
#[inline]
pub fn offer_each<const N: usize>(image: &mut [u8; N], set: u64) -> u32 {
    let mut left = set;
    while left != 0 {
        let irq = left.trailing_zeros() as usize;
        let vector = vector(image, irq);
        let dropped = offer(image, vector, false);
        left &= left - 1;
        if dropped != 0 {
            return dropped + offer_rest(image, left);
        }
    }
    0
}
