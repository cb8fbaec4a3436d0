// Made from crates/drain/src/events_out.rt by tools/portable: do not change it here.
//! The events that a drain copies out of an image, each pair with its number: which of its bytes they are.

use super::super::fields::number_bytes::from_zero;
use super::super::image::form;
use super::super::image::form::places_of;
use super::super::image::form::Form;
use super::weave::put_events;

/// The first n events, with the numbers that the image has or those from 0 on.
///
/// ```text
/// requires { (length image.now ≡ form_length (form_view form)) × (n ≤ capacity) × (length out.old ≡ 4 * n) }
/// ensures { CopiesOut image.now out.new n }
/// ```
pub fn copy_out(image: &[u8], form: Form, out: &mut [u8], n: usize) {
    let p = places_of(form);
    let taken = form::PAIR * n;
    let at = p.pairs;
    let end = at + taken;
    let Form::Numbered = form else {
        let first = from_zero();
        put_events(out, &image[at..end], &first[0..taken], n);
        return;
    };
    let first = p.numbers;
    let last = first + taken;
    put_events(out, &image[at..end], &image[first..last], n);
}
