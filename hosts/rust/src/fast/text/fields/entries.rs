// Made from crates/fields/src/entries.rt by tools/portable: do not change it here.
//! Route and vector bytes of an image, one for each input: a single one, and several from an input on as a number, the low one first.

use super::super::bits::bytes::number;
use super::super::bits::bytes::put_bytes;
use super::super::image::form::places_of;
use super::super::image::form::Form;

/// ```text
/// requires { (length image.now ≡ form_length (form_view form)) × (input < 64) }
/// ensures { Reads image.now result (λ d. slice_index d.core.stored.routes input) }
/// ```
#[inline]
pub fn route<const N: usize>(image: &[u8; N], input: usize) -> u8 {
    let form = const { super::super::image::form::form_at(N) };
    assert!(input < 64);
    let p = places_of(form);
    let at = p.routes;
    image[at + input]
}

/// ```text
/// requires { (length image.now ≡ form_length (form_view form)) × (input < 64) }
/// ensures { Reads image.now result (λ d. slice_index d.core.vectors input) }
/// ```
#[inline]
pub fn vector<const N: usize>(image: &[u8; N], input: usize) -> u8 {
    let form = const { super::super::image::form::form_at(N) };
    assert!(input < 64);
    let p = places_of(form);
    let at = p.vectors;
    image[at + input]
}

/// ```text
/// requires { (length image.now ≡ form_length (form_view form)) × (input + n ≤ bytes_length) × (n ≤ 8) }
/// ensures { Reads image.now result (λ d. number_of (part input n d.core.stored.routes)) }
/// ```
#[inline]
pub fn routes<const N: usize>(image: &[u8; N], input: usize, n: usize) -> u64 {
    let form = const { super::super::image::form::form_at(N) };
    assert!(input <= 64 && n <= 64 - input && n <= 8);
    let p = places_of(form);
    let at = p.routes + input;
    let end = at + n;
    number(&image[at..end])
}

/// ```text
/// requires { (length image.now ≡ form_length (form_view form)) × (input + n ≤ bytes_length) × (n ≤ 8) }
/// ensures { Reads image.now result (λ d. number_of (part input n d.core.vectors)) }
/// ```
#[inline]
pub fn vectors<const N: usize>(image: &[u8; N], input: usize, n: usize) -> u64 {
    let form = const { super::super::image::form::form_at(N) };
    assert!(input <= 64 && n <= 64 - input && n <= 8);
    let p = places_of(form);
    let at = p.vectors + input;
    let end = at + n;
    number(&image[at..end])
}

/// ```text
/// requires { (length image.old ≡ form_length (form_view form)) × (input + n ≤ bytes_length) }
/// ensures { Becomes image.old image.new
///     (λ d. with_stored d (with_routes d.core.stored (with_bytes input n x d.core.stored.routes))) }
/// ```
#[inline]
pub fn put_routes<const N: usize>(image: &mut [u8; N], input: usize, n: usize, x: u64) {
    let form = const { super::super::image::form::form_at(N) };
    assert!(input <= 64 && n <= 64 - input);
    let p = places_of(form);
    put_bytes(image, p.routes + input, n, x);
}

/// ```text
/// requires { (length image.old ≡ form_length (form_view form)) × (input + n ≤ bytes_length) }
/// ensures { Becomes image.old image.new (λ d. with_vectors d (with_bytes input n x d.core.vectors)) }
/// ```
#[inline]
pub fn put_vectors<const N: usize>(image: &mut [u8; N], input: usize, n: usize, x: u64) {
    let form = const { super::super::image::form::form_at(N) };
    assert!(input <= 64 && n <= 64 - input);
    let p = places_of(form);
    put_bytes(image, p.vectors + input, n, x);
}
