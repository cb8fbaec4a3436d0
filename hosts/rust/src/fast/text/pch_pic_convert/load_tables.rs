// Made from crates/pch_pic_convert/src/load_tables.rt by tools/portable: do not change it here.
//! The route and vector bytes of a state from the bytes of an image. What is asked of an image is its length.

use super::super::bits::bytes::copy;
use super::super::image::form::places_of;
use super::super::image::form::Form;

/// The 64 entries that a part of the image holds, a byte for each input.
///
/// ```text
/// requires { length part.now ≡ 64 }
/// ensures { result ≡ part.now }
/// ```
#[inline(always)]
fn fill_entries(part: &[u8]) -> [u8; 64] {
    assert!(part.len() == 64);
    let mut out = [0u8; 64];
    copy(&mut out, part);
    out
}

/// ```text
/// requires { length image.now ≡ form_length (form_view form) }
/// ensures { result ≡ (decode_as (form_view form) image.now).core.stored.routes }
/// ```
#[inline(always)]
pub fn load_routes<const N: usize>(image: &[u8; N]) -> [u8; 64] {
    let form = const { super::super::image::form::form_at(N) };
    let p = places_of(form);
    let at = p.routes;
    let end = at + 64;
    fill_entries(&image[at..end])
}

/// The vector body, a part that starts at byte 158 or, in form 2, 150 or, with numbers, 155, is handed on to the leaf that fills 64 entries. An arm for each
/// form, so that the place is a constant: with the place of a field, in one function for routes and vectors, a conversion takes ten instructions more.
///
/// ```text
/// requires { length image.now ≡ form_length (form_view form) }
/// ensures { result ≡ (decode_as (form_view form) image.now).core.vectors }
/// ```
#[inline(always)]
pub fn load_vectors<const N: usize>(image: &[u8; N]) -> [u8; 64] {
    let form = const { super::super::image::form::form_at(N) };
    match form {
        Form::One => fill_entries(&image[158..222]),
        Form::Two => fill_entries(&image[150..214]),
        Form::Numbered => fill_entries(&image[155..219]),
    }
}
