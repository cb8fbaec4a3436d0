// Made from crates/six_calls/src/reset_drain.rt by tools/portable: do not change it here.
//! The calls on the device as a whole, on the image and a drain's buffer: what they tell is handed back.

use super::super::answer::accepted::accepted;
use super::super::answer::refusals::Refusal;
use super::super::answer::Told;
use super::super::drain::drains;
use super::super::image::form::form_of;
use super::super::image::form::places_of;
use super::super::image::form::Form;
use super::super::image::form::EVENT;
use super::super::image::quick::contents_apart;
use super::super::image::quick::single_odd;
use super::super::stored::save_reset;

/// Any bytes will do that have the length of a form; the reset device is saved in that form.
///
/// ```text
/// ensures { ends result image.new [] ≡ ending asked.reset image.old }
/// ```
#[inline]
pub fn reset<const N: usize>(image: &mut [u8; N]) -> Told {
    let length = image.len();
    let Some(form) = form_of(length) else {
        return Err(Refusal::WrongLength);
    };
    save_reset::save_reset(image);
    Ok(None)
}

/// The events go to the front of the buffer. The image is tested in full.
///
/// ```text
/// ensures { ends result image.new events.new ≡ ending (asked.drain events.old 0) image.old }
/// ```
#[inline(never)]
fn drain_tested<const N: usize>(image: &mut [u8; N], events: &mut [u8]) -> Told {
    let form = accepted(image)?;
    let count = drains::drain(image, events);
    Ok(Some(count as u64))
}

/// True only where the image is accepted, one waits in it, and there is room for it: the commonest drain. False tells nothing.
///
/// ```text
/// requires { length image.now ≡ form_length (form_view form) }
/// ensures { Waits 1 (form_view form) image.now result × (result ≡ true → drained_length ≤ room) }
/// ```
#[inline]
pub fn one_fits<const N: usize>(image: &[u8; N], room: usize) -> bool {
    let form = const { super::super::image::form::form_at(N) };
    let p = places_of(form);
    let count = p.count;
    if image[count] != 1 {
        return false;
    }
    let odd = contents_apart(image) | single_odd(image);
    (odd == 0) & (EVENT <= room)
}

/// A drain. The only one that waits goes out at once, in an arm for each form.
///
/// ```text
/// ensures { ends result image.new events.new ≡ ending (asked.drain events.old 0) image.old }
/// ```
#[inline]
pub fn drain<const N: usize>(image: &mut [u8; N], events: &mut [u8]) -> Told {
    if let Some(form) = form_of(image.len()) {
        {
            if one_fits(image, events.len()) {
                drains::one(image, events);
                return Ok(Some(1));
            }
        };
    }
    drain_tested(image, events)
}
