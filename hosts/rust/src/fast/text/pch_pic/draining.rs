// Made from crates/pch_pic/src/draining.rt by tools/portable: do not change it here.
//! A drain, behind what a front tests first. What it tells goes into the answer area.

use super::super::answer::accepted::bodies_accepted;
use super::super::answer::tell;
use super::super::drain::drains;
use super::super::image::form::places_of;
use super::super::image::form::Form;
use super::super::image::quick::odd;

/// True only where the image is accepted and nothing waits in it; false tells nothing. The count comes first: as a rule something waits where a host drains, and then no more is looked at here.
///
/// ```text
/// requires { length image.now ≡ form_length (form_view form) }
/// ensures { Waits 0 (form_view form) image.now result }
/// ```
#[inline]
pub fn nothing_waits<const N: usize>(image: &[u8; N]) -> bool {
    let form = const { super::super::image::form::form_at(N) };
    let p = places_of(form);
    let count = p.count;
    if image[count] != 0 {
        return false;
    }
    odd(image) == 0
}

/// The only one that waits goes into the buffer, which has room for it.
///
/// ```text
/// requires { Passed (form_view form) image.old × (count_in (form_view form) image.old ≡ 1) × (answer_length ≤ length answer.old) × (place + drained_length ≤ length events.old) }
/// ensures { leaves result image.new answer.new events.new
///     ≡ outcome (asked.drain events.old place) image.old answer.old }
/// ```
#[inline]
pub fn drain_one<const N: usize>(
    image: &mut [u8; N],
    events: &mut [u8],
    place: usize,
    answer: &mut [u8],
) -> u8 {
    assert!(16 <= answer.len() && 4 <= events.len() && place <= events.len() - 4);
    drains::one(image, &mut events[place..]);
    tell(answer, Ok(Some(1)))
}

/// The contents are those of the form, and the bodies are still to be tested. The events go into the buffer from a place on.
///
/// ```text
/// requires { Headed (Ok form) image.old × (answer_length ≤ length answer.old) × (place ≤ length events.old) }
/// ensures { leaves result image.new answer.new events.new
///     ≡ outcome (asked.drain events.old place) image.old answer.old }
/// ```
#[inline(never)]
pub fn drain_waiting<const N: usize>(
    image: &mut [u8; N],
    events: &mut [u8],
    place: usize,
    answer: &mut [u8],
) -> u8 {
    assert!(16 <= answer.len() && place <= events.len());
    if let Err(refusal) = bodies_accepted(image) {
        return tell(answer, Err(refusal));
    }
    let count = drains::drain(image, &mut events[place..]);
    tell(answer, Ok(Some(count as u64)))
}
