// Made from crates/lines/src/halves.rt by tools/portable: do not change it here.
//! The registers as they read and as a half of one is written, in place on an image.

use super::super::bits;
use super::super::device::map::Plain;
use super::super::device::map::Register;
use super::super::device::state::PchPicState;
use super::super::fields::words;
use super::super::image::form::Form;
use super::masking::write_clear;
use super::masking::write_mask;

/// A register as it reads: CLEAR as 0, ISR without the masked bits.
///
/// ```text
/// requires { length image.now ≡ form_length (form_view form) }
/// ensures { Reads image.now result (λ d. value_of d.core (register_view register)) }
/// ```
pub fn value_of(image: &[u8], form: Form, register: Register) -> u64 {
    match register {
        Register::Id => PchPicState::INT_ID,
        Register::Mask => words::mask(image, form),
        Register::Clear => 0,
        Register::Irr => words::irr(image, form),
        Register::Isr => words::isr(image, form) & !words::mask(image, form),
        Register::Plain(plain) => words::plain(image, form, plain),
    }
}

/// It replaces the stored half and makes no event.
///
/// ```text
/// requires { length image.old ≡ form_length (form_view form) }
/// ensures { Writes image.old image.new 0 (λ c. set_isr high val ∷ []) }
/// ```
fn write_isr(image: &mut [u8], form: Form, val: u32, high: bool) {
    let old = words::isr(image, form);
    words::put_isr(image, form, bits::replace_u32(old, val, high));
}

/// ```text
/// requires { length image.old ≡ form_length (form_view form) }
/// ensures { Writes image.old image.new 0 (λ c. store (set_plain (plain_view plain) high val) ∷ []) }
/// ```
fn write_plain(image: &mut [u8], form: Form, plain: Plain, val: u32, high: bool) {
    let old = words::plain(image, form, plain);
    words::put_plain(image, form, plain, bits::replace_u32(old, val, high));
}

/// ID and IRR ignore it.
///
/// ```text
/// requires { length image.old ≡ form_length (form_view form) }
/// ensures { (result ≤ 65) × Writes image.old image.new result (λ c. register_acts (register_view register) high val) }
/// ```
pub fn write_half(image: &mut [u8], form: Form, register: Register, val: u32, high: bool) -> u32 {
    match register {
        Register::Id => 0,
        Register::Mask => write_mask(image, form, val, high),
        Register::Clear => write_clear(image, form, bits::in_half(val, high)),
        Register::Irr => 0,
        Register::Isr => {
            write_isr(image, form, val, high);
            0
        }
        Register::Plain(plain) => {
            write_plain(image, form, plain, val, high);
            0
        }
    }
}
