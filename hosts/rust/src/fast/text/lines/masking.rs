// Made from crates/lines/src/masking.rt by tools/portable: do not change it here.
//! Writes to MASK and CLEAR, in place on an image: what enters service and what leaves it, and the events of that, offered to the ring.

use super::super::bits;
use super::super::device::decide;
use super::super::fields::words;
use super::super::image::form::Form;
use super::enter_leave::enter;
use super::events::offer_each;
use super::events::offer_entered;

/// All of a set that are in service leave it, and their deasserts are offered; the answer is how many were lost. Who calls has looked whether any of them is in
/// service, so that a write by which none leaves makes no call.
///
/// ```text
/// requires { (length image.old ≡ form_length (form_view form)) × Reads image.old isr (λ d. d.core.lines.isr) }
/// ensures { (result ≤ 64) × MovesIn image.old image.new result takes_all lost (λ vs. lines.leave vs true (on set)) }
/// ```
#[inline]
fn leave<const N: usize>(image: &mut [u8; N], set: u64, isr: u64) -> u32 {
    words::put_isr(image, isr & !set);
    offer_each(image, decide::served(set, isr))
}

/// MASK: a half is replaced; the lowest newly unmasked input that waits enters, and then the newly masked ones leave. Both are found over the whole register: the
/// other half stays.
///
/// ```text
/// requires { length image.old ≡ form_length (form_view form) }
/// ensures { (result ≤ 65) × Writes image.old image.new result (λ c. core.move (core.set_mask high val) ∷ []) }
/// ```
#[inline]
pub fn write_mask<const N: usize>(image: &mut [u8; N], val: u32, high: bool) -> u32 {
    let old = words::mask(image);
    let new = bits::replace_u32(old, val, high);
    words::put_mask(image, new);
    let entered = enter(image, old & !new);
    let first = offer_entered(image, entered);
    let isr = words::isr(image);
    let gone = new & !old;
    if decide::served(gone, isr) == 0 {
        return first;
    }
    first + leave(image, gone, isr)
}

/// CLEAR: latches and service lose the bits.
///
/// ```text
/// requires { length image.old ≡ form_length (form_view form) }
/// ensures { (result ≤ 65) × Writes image.old image.new result (λ c. core.move (core.clear bits) ∷ []) }
/// ```
#[inline]
pub fn write_clear<const N: usize>(image: &mut [u8; N], bits: u64) -> u32 {
    let irr = words::irr(image);
    words::put_irr(image, irr & !bits);
    let isr = words::isr(image);
    if decide::served(bits, isr) == 0 {
        return 0;
    }
    leave(image, bits, isr)
}
