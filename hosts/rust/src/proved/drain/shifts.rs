// Made from crates/drain/src/shifts.rt by tools/portable: do not change it here.
//! What a drain leaves in an image, in place: of events and of numbers those past the first move to the front, and zeros follow them.

use super::super::image::form;
use super::super::image::form::places_of;
use super::super::image::form::Form;
use super::move_up::leave;

/// The numbers of the first n go as their events do.
///
/// ```text
/// requires { (length image.old ≡ form_length (form_view form)) × (n ≤ len) × (len ≤ capacity) }
/// ensures { NumbersLeave (form_view form) image.old image.new len n }
/// ```
fn leave_numbers(image: &mut [u8], form: Form, n: usize, len: usize) {
    let Form::Numbered = form else {
        return;
    };
    let p = places_of(form);
    let at = p.numbers;
    let end = at + form::NUMBERS_LENGTH;
    leave(&mut image[at..end], n, len);
}

/// Of `len` waiting events the first n no longer wait.
///
/// ```text
/// requires { (length image.old ≡ form_length (form_view form)) × (n ≤ len) × (len ≤ capacity) }
/// ensures { Shifts image.old image.new len n }
/// ```
pub fn shift(image: &mut [u8], form: Form, n: usize, len: usize) {
    let p = places_of(form);
    let at = p.pairs;
    let end = at + form::PAIRS_LENGTH;
    leave(&mut image[at..end], n, len);
    leave_numbers(image, form, n, len);
    let count = p.count;
    image[count] = (len - n) as u8;
}
