// Made from crates/lines/src/halves.rt by tools/portable: do not change it here.
//! The registers as they read and as a half of one is written, in place on an image.

use super::super::bits;
use super::super::device::map::Plain;
use super::super::device::map::Register;
use super::super::device::state::PchPicState;
use super::super::fields::words;
use super::super::image::form::Form;
use super::masking::write_clear;
use super::masking::write_mask;

/// A register as it reads: CLEAR as 0, ISR without the masked bits.
///
/// ```text
/// requires { length image.now ≡ form_length (form_view form) }
/// ensures { Reads image.now result (λ d. value_of d.core (register_view register)) }
/// ```
#[inline]
pub fn value_of<const N: usize>(image: &[u8; N], register: Register) -> u64 {
    match register {
        Register::Id => PchPicState::INT_ID,
        Register::Mask => words::mask(image),
        Register::Clear => 0,
        Register::Irr => words::irr(image),
        Register::Isr => words::isr(image) & !words::mask(image),
        Register::Plain(plain) => words::plain(image, plain),
    }
}

/// It replaces the stored half and makes no event.
///
/// ```text
/// requires { length image.old ≡ form_length (form_view form) }
/// ensures { Writes image.old image.new 0 (λ c. set_isr high val ∷ []) }
/// ```
#[inline]
fn write_isr<const N: usize>(image: &mut [u8; N], val: u32, high: bool) {
    let old = words::isr(image);
    words::put_isr(image, bits::replace_u32(old, val, high));
}

/// ```text
/// requires { length image.old ≡ form_length (form_view form) }
/// ensures { Writes image.old image.new 0 (λ c. store (set_plain (plain_view plain) high val) ∷ []) }
/// ```
#[inline]
fn write_plain<const N: usize>(image: &mut [u8; N], plain: Plain, val: u32, high: bool) {
    let old = words::plain(image, plain);
    words::put_plain(image, plain, bits::replace_u32(old, val, high));
}

/// ID and IRR ignore it.
///
/// ```text
/// requires { length image.old ≡ form_length (form_view form) }
/// ensures { (result ≤ 65) × Writes image.old image.new result (λ c. register_acts (register_view register) high val) }
/// ```
#[inline]
pub fn write_half<const N: usize>(
    image: &mut [u8; N],
    register: Register,
    val: u32,
    high: bool,
) -> u32 {
    match register {
        Register::Id => 0,
        Register::Mask => write_mask(image, val, high),
        Register::Clear => write_clear(image, bits::in_half(val, high)),
        Register::Irr => 0,
        Register::Isr => {
            write_isr(image, val, high);
            0
        }
        Register::Plain(plain) => {
            write_plain(image, plain, val, high);
            0
        }
    }
}
