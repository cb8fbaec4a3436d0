// Made from crates/stored/src/reset_parts.rt by tools/portable: do not change it here.
//! What a reset saves, part by part, each by value: route bytes and the ring's body. A part that is lent could be the image's own, and would be copied byte by byte.

use super::super::bits::bytes::copy;
use super::super::image::form;
use super::super::image::form::places_of;
use super::super::image::form::Form;

/// ```text
/// requires { length image.old ≡ form_length (form_view form) }
/// ensures { SavesRoutes (form_view form) routes image.old image.new }
/// ```
#[inline(always)]
pub fn save_routes<const N: usize>(image: &mut [u8; N], routes: [u8; 64]) {
    let form = const { super::super::image::form::form_at(N) };
    let p = places_of(form);
    let at = p.routes;
    let end = at + 64;
    copy(&mut image[at..end], &routes);
}

/// The count, the drops and the pairs, as their body has them.
///
/// ```text
/// requires { length image.old ≡ form_length (form_view form) }
/// ensures { SavesRingBody (form_view form) body image.old image.new }
/// ```
#[inline(always)]
pub fn save_ring<const N: usize>(image: &mut [u8; N], body: [u8; 37]) {
    let form = const { super::super::image::form::form_at(N) };
    let p = places_of(form);
    let at = p.count;
    let end = at + form::RING_LENGTH;
    copy(&mut image[at..end], &body);
}
