// Made from crates/stored/src/save_parts.rt by tools/portable: do not change it here.
//! What is saved part by part: route and vector bytes, the ring, the numbers.

use super::super::bits::bytes::copy;
use super::super::bits::bytes::put_bytes;
use super::super::device::state::Ring;
use super::super::device::state::Tables;
use super::super::image::form;
use super::super::image::form::places_of;
use super::super::image::form::Form;
use super::pairs::put_pairs;

/// ```text
/// requires { length image.old ≡ form_length (form_view form) }
/// ensures { SavesTables (form_view form) tables image.old image.new }
/// ```
#[inline(always)]
pub fn save_tables<const N: usize>(image: &mut [u8; N], tables: Tables) {
    let form = const { super::super::image::form::form_at(N) };
    let p = places_of(form);
    let routes = p.routes;
    let routes_end = routes + 64;
    copy(&mut image[routes..routes_end], &tables.route_entry);
    let vectors = p.vectors;
    let vectors_end = vectors + 64;
    copy(&mut image[vectors..vectors_end], &tables.htmsi_vector);
}

/// ```text
/// requires { (length image.old ≡ form_length (form_view form)) × WellRing ring }
/// ensures { SavesRing (form_view form) ring image.old image.new }
/// ```
#[inline(always)]
pub fn save_ring<const N: usize>(image: &mut [u8; N], ring: Ring) {
    let form = const { super::super::image::form::form_at(N) };
    let p = places_of(form);
    put_bytes(image, p.count, 1, ring.output_len as u64);
    put_bytes(image, p.drops, form::DROPS_LENGTH, ring.output_drops as u64);
    let at = p.pairs;
    let end = at + form::PAIRS_LENGTH;
    put_pairs(&mut image[at..end], ring);
}

/// The numbers, as their body has them, in the form that has it. By value: a body that is lent could be the image's own, and would be copied byte by byte.
///
/// ```text
/// requires { length image.old ≡ form_length (form_view form) }
/// ensures { SavesNumbers (form_view form) body image.old image.new }
/// ```
#[inline(always)]
pub fn save_numbers<const N: usize>(image: &mut [u8; N], body: [u8; 34]) {
    let form = const { super::super::image::form::form_at(N) };
    let Form::Numbered = form else {
        return;
    };
    let p = places_of(form);
    let at = p.next;
    let end = at + form::NUMBER_BODY_LENGTH;
    copy(&mut image[at..end], &body);
}
