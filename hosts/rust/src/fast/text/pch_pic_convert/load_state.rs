// Made from crates/pch_pic_convert/src/load_state.rt by tools/portable: do not change it here.
//! A whole state from the bytes of an image: each part from its fields. What is asked of an image is its length, and of its ring the count.

use super::super::device::state::PchPicState;
use super::super::device::state::Tables;
use super::super::image::form::Form;
use super::load_ring::load_ring;
use super::load_tables::load_routes;
use super::load_tables::load_vectors;
use super::load_words::load_lines;
use super::load_words::load_stored;

/// ```text
/// requires { (length image.now ≡ form_length (form_view form)) × (count_in (form_view form) image.now ≤ capacity) }
/// ensures { Is result (decode_as (form_view form) image.now) }
/// ```
#[inline(always)]
pub fn load<const N: usize>(image: &[u8; N]) -> PchPicState {
    let lines = load_lines(image);
    let stored = load_stored(image);
    let route_entry = load_routes(image);
    let htmsi_vector = load_vectors(image);
    let ring = load_ring(image);
    PchPicState {
        lines,
        stored,
        tables: Tables {
            route_entry,
            htmsi_vector,
        },
        ring,
    }
}
