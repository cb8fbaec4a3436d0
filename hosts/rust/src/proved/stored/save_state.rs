// Made from crates/stored/src/save_state.rt by tools/portable: do not change it here.
//! A whole state into the bytes of an image: each part into its fields, and no other byte.

use super::super::device::state::PchPicState;
use super::super::image::form::Form;
use super::save_parts;
use super::save_words;

/// The state, and beside it the body of the numbers.
///
/// ```text
/// requires { (length image.old ≡ form_length (form_view form)) × Well state }
/// ensures { SavedAs (form_view form) (view state) numbers.now image.new }
/// ```
pub fn save(image: &mut [u8], form: Form, state: PchPicState, numbers: &[u8; 34]) {
    save_words::put_contents(image, form);
    save_words::save_lines(image, form, state.lines);
    save_words::save_stored(image, form, state.stored);
    save_parts::save_tables(image, form, state.tables);
    save_parts::save_ring(image, form, state.ring);
    save_parts::save_numbers(image, form, *numbers);
}
