// Made from crates/fields/src/event_numbers.rt by tools/portable: do not change it here.
//! The numbers of events, in an image that has them. In any other the waiting events are numbered from 0 in each call, and the next number is how many wait.

use super::super::bits::bytes::put_bytes;
use super::super::image::form;
use super::super::image::form::places_of;
use super::super::image::form::Form;
use super::number_bytes::take_next;

/// The number of an event that is returned.
///
/// ```text
/// requires { length image.old ≡ form_length (form_view form) }
/// ensures { Taken image.old image.new result }
/// ```
pub fn take(image: &mut [u8], form: Form) -> u16 {
    let p = places_of(form);
    let Form::Numbered = form else {
        let place = p.count;
        return image[place] as u16;
    };
    take_next(image, p.next)
}

/// The number of an event that is about to be offered to the ring: it waits there, if the event will be kept.
///
/// ```text
/// requires { length image.old ≡ form_length (form_view form) }
/// ensures { NumberOffered image.old image.new }
/// ```
pub fn take_offered(image: &mut [u8], form: Form) {
    let Form::Numbered = form else {
        return;
    };
    let p = places_of(form);
    let taken = take_next(image, p.next);
    let place = p.count;
    let len = image[place] as usize;
    if len < form::CAPACITY {
        put_bytes(
            image,
            p.numbers + form::NUMBER * len,
            form::NUMBER,
            taken as u64,
        );
    }
}
