// Made from crates/six_calls/src/who_waits.rt by tools/portable: do not change it here.
//! Who waits, on the image alone: what is told is handed back, and the image stays. It is tested here, 4, 5, 8 to 11.

use super::super::answer::accepted::accepted;
use super::super::answer::Told;
use super::super::device::decide;
use super::super::fields::words;
use super::super::image::form::Form;

/// Of all 64 inputs those that a poll would bring into service.
///
/// ```text
/// requires { length image.now ≡ form_length (form_view form) }
/// ensures { Reads image.now result (λ d. waiting_in d.core.lines) }
/// ```
pub fn set_of(image: &[u8], form: Form) -> u64 {
    let irr = words::irr(image, form);
    let mask = words::mask(image, form);
    let isr = words::isr(image, form);
    decide::pending(0xffff_ffff_ffff_ffff, irr, mask, isr)
}

/// ```text
/// ensures { ends result image.now [] ≡ waiting_ending image.now }
/// ```
pub fn waiting(image: &[u8]) -> Told {
    let form = accepted(image)?;
    Ok(Some(set_of(image, form)))
}
