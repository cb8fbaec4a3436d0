// Made from crates/lines/src/service.rt by tools/portable: do not change it here.
//! The calls on an input, in place on an image: its latch is stored, and then it goes into service or leaves it.

use super::super::fields::words;
use super::super::image::form::Form;
use super::enter_leave::enter;
use super::enter_leave::leave_one;

/// ```text
/// requires { (length image.old ≡ form_length (form_view form)) × (irq < 64) }
/// ensures { Returns image.old image.new (answer_value result) (core.poll irq) }
/// ```
#[inline]
pub fn poll<const N: usize>(image: &mut [u8; N], irq: usize) -> Option<u8> {
    assert!(irq < 64);
    enter(image, 1u64 << irq)
}

/// It is latched, and then polled.
///
/// ```text
/// requires { (length image.old ≡ form_length (form_view form)) × (irq < 64) }
/// ensures { Returns image.old image.new (answer_value result) (core.raise irq) }
/// ```
#[inline]
fn raise<const N: usize>(image: &mut [u8; N], irq: usize) -> Option<u8> {
    assert!(irq < 64);
    let irr = words::irr(image);
    let bit = 1u64 << irq;
    words::put_irr(image, irr | bit);
    enter(image, bit)
}

/// Its latch goes off, and it leaves service, masked or not.
///
/// ```text
/// requires { (length image.old ≡ form_length (form_view form)) × (irq < 64) }
/// ensures { Returns image.old image.new (answer_value result) (core.lower irq) }
/// ```
#[inline]
fn lower<const N: usize>(image: &mut [u8; N], irq: usize) -> Option<u8> {
    assert!(irq < 64);
    let irr = words::irr(image);
    words::put_irr(image, irr & !(1u64 << irq));
    leave_one(image, irq)
}

/// ```text
/// requires { (length image.old ≡ form_length (form_view form)) × (irq < 64) }
/// ensures { Returns image.old image.new (answer_value result) (level_move irq level) }
/// ```
#[inline]
pub fn set_level<const N: usize>(image: &mut [u8; N], irq: usize, level: bool) -> Option<u8> {
    assert!(irq < 64);
    if level {
        return raise(image, irq);
    }
    lower(image, irq)
}
