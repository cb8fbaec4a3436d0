// Made from crates/lines/src/service.rt by tools/portable: do not change it here.
//! The calls on an input, in place on an image: its latch is stored, and then it goes into service or leaves it.

use super::super::fields::words;
use super::super::image::form::Form;
use super::enter_leave::enter;
use super::enter_leave::leave_one;

/// ```text
/// requires { (length image.old ≡ form_length (form_view form)) × (irq < 64) }
/// ensures { Returns image.old image.new (answer_value result) (core.poll irq) }
/// ```
pub fn poll(image: &mut [u8], form: Form, irq: usize) -> Option<u8> {
    enter(image, form, 1u64 << irq)
}

/// It is latched, and then polled.
///
/// ```text
/// requires { (length image.old ≡ form_length (form_view form)) × (irq < 64) }
/// ensures { Returns image.old image.new (answer_value result) (core.raise irq) }
/// ```
fn raise(image: &mut [u8], form: Form, irq: usize) -> Option<u8> {
    let irr = words::irr(image, form);
    let bit = 1u64 << irq;
    words::put_irr(image, form, irr | bit);
    enter(image, form, bit)
}

/// Its latch goes off, and it leaves service, masked or not.
///
/// ```text
/// requires { (length image.old ≡ form_length (form_view form)) × (irq < 64) }
/// ensures { Returns image.old image.new (answer_value result) (core.lower irq) }
/// ```
fn lower(image: &mut [u8], form: Form, irq: usize) -> Option<u8> {
    let irr = words::irr(image, form);
    words::put_irr(image, form, irr & !(1u64 << irq));
    leave_one(image, form, irq)
}

/// ```text
/// requires { (length image.old ≡ form_length (form_view form)) × (irq < 64) }
/// ensures { Returns image.old image.new (answer_value result) (level_move irq level) }
/// ```
pub fn set_level(image: &mut [u8], form: Form, irq: usize, level: bool) -> Option<u8> {
    if level {
        return raise(image, form, irq);
    }
    lower(image, form, irq)
}
