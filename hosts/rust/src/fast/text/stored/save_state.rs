// Made from crates/stored/src/save_state.rt by tools/portable: do not change it here.
//! A whole state into the bytes of an image: each part into its fields, and no other byte.

use super::super::device::state::PchPicState;
use super::super::image::form::Form;
use super::save_parts;
use super::save_words;

/// The state, and beside it the body of the numbers.
///
/// ```text
/// requires { (length image.old ≡ form_length (form_view form)) × Well state }
/// ensures { SavedAs (form_view form) (view state) numbers.now image.new }
/// ```
#[inline(always)]
pub fn save<const N: usize>(image: &mut [u8; N], state: PchPicState, numbers: &[u8; 34]) {
    save_words::put_contents(image);
    save_words::save_lines(image, state.lines);
    save_words::save_stored(image, state.stored);
    save_parts::save_tables(image, state.tables);
    save_parts::save_ring(image, state.ring);
    save_parts::save_numbers(image, *numbers);
}
