// Made from crates/lines/src/enter_leave.rt by tools/portable: do not change it here.
//! An input goes into service or leaves it, in place on an image, as the rules say it. Of a set the lowest that waits enters. Module `decide` of crate `device` says which they are.

use super::super::device::decide;
use super::super::fields::entries::vector;
use super::super::fields::words;
use super::super::image::form::Form;

/// The lowest of a set that waits goes into service; the answer is its vector.
///
/// ```text
/// requires { length image.old ≡ form_length (form_view form) }
/// ensures { MovesIn image.old image.new (answer_value result) untaken given (λ vs. lines.enter vs false (on set)) }
/// ```
#[inline]
pub fn enter<const N: usize>(image: &mut [u8; N], set: u64) -> Option<u8> {
    let isr = words::isr(image);
    let waiting = decide::pending(set, words::irr(image), words::mask(image), isr);
    if waiting == 0 {
        return None;
    }
    let irq = waiting.trailing_zeros() as usize;
    words::put_isr(image, isr | 1u64 << irq);
    Some(vector(image, irq))
}

/// An input that is in service leaves it; the answer is its vector.
///
/// ```text
/// requires { (length image.old ≡ form_length (form_view form)) × (irq < 64) }
/// ensures { MovesIn image.old image.new (answer_value result) untaken given (λ vs. lines.leave vs false (only irq)) }
/// ```
#[inline]
pub fn leave_one<const N: usize>(image: &mut [u8; N], irq: usize) -> Option<u8> {
    assert!(irq < 64);
    let isr = words::isr(image);
    let bit = 1u64 << irq;
    if decide::served(bit, isr) == 0 {
        return None;
    }
    words::put_isr(image, isr & !bit);
    Some(vector(image, irq))
}
