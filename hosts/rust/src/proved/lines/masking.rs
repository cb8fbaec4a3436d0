// Made from crates/lines/src/masking.rt by tools/portable: do not change it here.
//! Writes to MASK and CLEAR, in place on an image: what enters service and what leaves it, and the events of that, offered to the ring.

use super::super::bits;
use super::super::device::decide;
use super::super::fields::words;
use super::super::image::form::Form;
use super::enter_leave::enter;
use super::events::offer_each;
use super::events::offer_entered;

/// All of a set that are in service leave it, and their deasserts are offered; the answer is how many were lost. Who calls has looked whether any of them is in
/// service, so that a write by which none leaves makes no call.
///
/// ```text
/// requires { (length image.old ≡ form_length (form_view form)) × Reads image.old isr (λ d. d.core.lines.isr) }
/// ensures { (result ≤ 64) × MovesIn image.old image.new result takes_all lost (λ vs. lines.leave vs true (on set)) }
/// ```
fn leave(image: &mut [u8], form: Form, set: u64, isr: u64) -> u32 {
    words::put_isr(image, form, isr & !set);
    offer_each(image, form, decide::served(set, isr))
}

/// MASK: a half is replaced; the lowest newly unmasked input that waits enters, and then the newly masked ones leave. Both are found over the whole register: the
/// other half stays.
///
/// ```text
/// requires { length image.old ≡ form_length (form_view form) }
/// ensures { (result ≤ 65) × Writes image.old image.new result (λ c. core.move (core.set_mask high val) ∷ []) }
/// ```
pub fn write_mask(image: &mut [u8], form: Form, val: u32, high: bool) -> u32 {
    let old = words::mask(image, form);
    let new = bits::replace_u32(old, val, high);
    words::put_mask(image, form, new);
    let entered = enter(image, form, old & !new);
    let first = offer_entered(image, form, entered);
    let isr = words::isr(image, form);
    let gone = new & !old;
    if decide::served(gone, isr) == 0 {
        return first;
    }
    first + leave(image, form, gone, isr)
}

/// CLEAR: latches and service lose the bits.
///
/// ```text
/// requires { length image.old ≡ form_length (form_view form) }
/// ensures { (result ≤ 65) × Writes image.old image.new result (λ c. core.move (core.clear bits) ∷ []) }
/// ```
pub fn write_clear(image: &mut [u8], form: Form, bits: u64) -> u32 {
    let irr = words::irr(image, form);
    words::put_irr(image, form, irr & !bits);
    let isr = words::isr(image, form);
    if decide::served(bits, isr) == 0 {
        return 0;
    }
    leave(image, form, bits, isr)
}
