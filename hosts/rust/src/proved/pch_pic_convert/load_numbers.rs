// Made from crates/pch_pic_convert/src/load_numbers.rt by tools/portable: do not change it here.
//! The numbers of events with which an image loads: those of its fifth body, or, without one, those from 0 on.

use super::super::bits::bytes::copy;
use super::super::image::form;
use super::super::image::form::places_of;
use super::super::image::form::Form;

/// The numbers of an image that has none: the waiting events have those from 0 on, and the next is how many wait. Stored one by one: a copy of so many bytes would be
/// a call of memcpy.
///
/// ```text
/// requires { count ≤ capacity }
/// ensures { result ≡ number_body (from_zero count) }
/// ```
fn counted(count: usize) -> [u8; 34] {
    let mut body = [0u8; 34];
    body[0] = count as u8;
    for i in 0..count {
        body[form::NEXT_LENGTH + form::NUMBER * i] = i as u8;
    }
    body
}

/// The body of the numbers with which an image loads.
///
/// ```text
/// requires { (length image.now ≡ form_length (form_view form)) × (count_in (form_view form) image.now ≤ capacity) }
/// ensures { LoadsNumbers (form_view form) image.now result }
/// ```
pub fn load_numbers(image: &[u8], form: Form) -> [u8; 34] {
    let p = places_of(form);
    let Form::Numbered = form else {
        let place = p.count;
        return counted(image[place] as usize);
    };
    let at = p.next;
    let end = at + form::NUMBER_BODY_LENGTH;
    let mut body = [0u8; 34];
    copy(&mut body, &image[at..end]);
    body
}
