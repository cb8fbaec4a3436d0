// Made from crates/pch_pic_hoist/src/judge.rt by tools/portable: do not change it here.
//! What 15 is given for, on an image that is accepted (02, C-22): an aligned Dword that is written and is not for a hoist guest, and a start-up that cannot end.

use super::super::access::cells::read_dword;
use super::super::bits;
use super::super::fields::words;
use super::super::image::form::Form;
use super::profile::changes_served;
use super::profile::in_vectors;
use super::profile::is_isr;

/// A vector write in start-up, by the four bytes that it would replace.
///
/// ```text
/// requires { (length image.now ≡ form_length (form_view form)) × (0x200 ≤ offset) × (offset + 4 ≤ 0x240) }
/// ensures { Reads image.now result (λ d. changes_served d (write dword offset value)) }
/// ```
fn forbidden_in_vectors(image: &[u8], form: Form, offset: usize, value: u64) -> bool {
    let isr = words::isr(image, form);
    let old = read_dword(image, form, offset);
    changes_served(isr, offset - 0x200, old, bits::half(value, false))
}

/// 15: to ISR, after start-up to the vectors, or where it would change a byte in service.
///
/// ```text
/// requires { (length image.now ≡ form_length (form_view form)) × (offset % 4 ≡ 0) }
/// ensures { Reads image.now result (λ d. forbidden running d offset value) }
/// ```
pub fn forbidden(image: &[u8], form: Form, running: bool, offset: usize, value: u64) -> bool {
    if is_isr(offset) {
        return true;
    }
    if !in_vectors(offset) {
        return false;
    }
    if running {
        return true;
    }
    forbidden_in_vectors(image, form, offset, value)
}

/// Start-up can end once, and while no input is in service, masked or not.
///
/// ```text
/// requires { length image.now ≡ form_length (form_view form) }
/// ensures { Reads image.now result (λ d. cannot_end running d) }
/// ```
pub fn cannot_end(image: &[u8], form: Form, running: bool) -> bool {
    running || words::isr(image, form) != 0
}
