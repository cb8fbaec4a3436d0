// Made from crates/drain/src/drains.rt by tools/portable: do not change it here.
//! A drain in place: the oldest events are copied out, and no longer wait.

use super::super::image::form;
use super::super::image::form::places_of;
use super::super::image::form::Form;
use super::events_out::copy_out;
use super::shifts::shift;

/// As many events go as wait or as fit, whichever is fewer.
///
/// ```text
/// requires { (length image.old ≡ form_length (form_view form)) × (count_in (form_view form) image.old ≤ capacity) }
/// ensures { Drains image.old image.new out.old out.new result }
/// ```
pub fn drain(image: &mut [u8], form: Form, out: &mut [u8]) -> usize {
    let p = places_of(form);
    let count = p.count;
    let len = image[count] as usize;
    let n = len.min(out.len() / form::EVENT);
    let room = form::EVENT * n;
    copy_out(image, form, &mut out[0..room], n);
    shift(image, form, n, len);
    n
}

/// The only one that waits, where it fits. Constants for both numbers: no loop is left of what is copied, and nothing moves up.
///
/// ```text
/// requires { (length image.old ≡ form_length (form_view form)) × (count_in (form_view form) image.old ≡ 1) × (drained_length ≤ length out.old) }
/// ensures { Drains image.old image.new out.old out.new 1 }
/// ```
pub fn one(image: &mut [u8], form: Form, out: &mut [u8]) {
    copy_out(image, form, &mut out[0..4], 1);
    shift(image, form, 1, 1);
}
