// Made from crates/pch_pic_convert/src/load_ring.rt by tools/portable: do not change it here.
//! The ring of a state from the bytes of an image. What is asked of an image is its length, and of its ring the count.

use super::super::bits::bytes::number;
use super::super::device::state::Ring;
use super::super::image::form;
use super::super::image::form::places_of;
use super::super::image::form::Form;
use super::super::stored::pairs::ring_of;

/// The number that four bytes from a place on spell, as `number_at` of `fields` does with two: one function over the width would be longer than both.
///
/// ```text
/// requires { at + 4 ≤ length image.now }
/// ensures { result ≡ number_of (part at 4 image.now) }
/// ```
#[inline]
fn drops_at(image: &[u8], at: usize) -> u32 {
    assert!(4 <= image.len() && at <= image.len() - 4);
    let end = at + form::DROPS_LENGTH;
    number(&image[at..end]) as u32
}

/// ```text
/// requires { (length image.now ≡ form_length (form_view form)) × (count_in (form_view form) image.now ≤ capacity) }
/// ensures { IsRing result (decode_as (form_view form) image.now).ring }
/// ```
#[inline(always)]
pub fn load_ring<const N: usize>(image: &[u8; N]) -> Ring {
    let form = const { super::super::image::form::form_at(N) };
    let p = places_of(form);
    let place = p.count;
    let len = image[place] as usize;
    let drops = drops_at(image, p.drops);
    let at = p.pairs;
    let end = at + form::PAIRS_LENGTH;
    ring_of(&image[at..end], len, drops)
}
