// Made from crates/fields/src/ring.rt by tools/portable: do not change it here.
//! The ring as it stands in an image: the count, the drops, and sixteen pairs of which the oldest is first.

use super::super::bits::bytes::number;
use super::super::bits::bytes::put_bytes;
use super::super::image::form;
use super::super::image::form::places_of;
use super::super::image::form::Form;
use super::event_numbers;

/// How many events wait.
///
/// ```text
/// requires { length image.now ≡ form_length (form_view form) }
/// ensures { Reads image.now result (λ d. length d.ring.waiting) }
/// ```
#[inline]
pub fn waiting<const N: usize>(image: &[u8; N]) -> u64 {
    let form = const { super::super::image::form::form_at(N) };
    let p = places_of(form);
    let at = p.count;
    u64::from(image[at])
}

/// An event is offered to body 4; the answer is how many were dropped. The drops are counted up to their stop.
///
/// ```text
/// requires { length body.old ≡ ring_length }
/// ensures { (result ≤ 1) × RingOffered body.old body.new result (event vector asserted) }
/// ```
#[inline]
fn offer_to(body: &mut [u8], vector: u8, asserted: bool) -> u32 {
    assert!(body.len() == 37);
    let len = body[form::COUNT] as usize;
    if form::CAPACITY <= len {
        let drops = number(&body[form::DROPS..form::PAIRS]) as u32;
        put_bytes(
            body,
            form::DROPS,
            form::DROPS_LENGTH,
            drops.saturating_add(1) as u64,
        );
        return 1;
    }
    let at = form::PAIRS + form::PAIR * len;
    body[at] = vector;
    body[at + form::FLAG] = u8::from(asserted);
    body[form::COUNT] = (len + 1) as u8;
    0
}

/// An event is offered to the ring of an image of a form, and takes its number.
///
/// ```text
/// requires { length image.old ≡ form_length (form_view form) }
/// ensures { (result ≤ 1) × Offers image.old image.new result (λ d. offering vector asserted) }
/// ```
#[inline]
pub fn offer<const N: usize>(image: &mut [u8; N], vector: u8, asserted: bool) -> u32 {
    let form = const { super::super::image::form::form_at(N) };
    event_numbers::take_offered(image);
    let p = places_of(form);
    let at = p.count;
    let end = at + form::RING_LENGTH;
    offer_to(&mut image[at..end], vector, asserted)
}
