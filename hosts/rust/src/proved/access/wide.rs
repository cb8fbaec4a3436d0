// Made from crates/access/src/wide.rt by tools/portable: do not change it here.
//! Qwords, in place on an image.

use super::super::bits;
use super::super::image::form::Form;
use super::cells::read_dword;
use super::cells::read_run;
use super::cells::write_dword;
use super::cells::write_run;

/// Eight bytes from an offset on lie wholly among the route or the vector bytes, where one read or store serves them all; by number, as in `cells`.
///
/// ```text
/// ensures { result ≡ true → Run offset 8 }
/// ```
fn eight_together(offset: usize) -> bool {
    match offset / 64 {
        4 => offset % 64 <= 56,
        8 => offset % 64 <= 56,
        _ => false,
    }
}

/// ```text
/// requires { (length image.now ≡ form_length (form_view form)) × (offset + 8 ≤ 2 ^ 64 - 1) }
/// ensures { Reads image.now result (λ d. read_at d.core qword offset) }
/// ```
pub fn read_qword(image: &[u8], form: Form, offset: usize) -> u64 {
    if eight_together(offset) {
        return read_run(image, form, offset, 8);
    }
    let low = read_dword(image, form, offset) as u64;
    low | ((read_dword(image, form, offset + 4) as u64) << 32)
}

/// ```text
/// requires { (length image.old ≡ form_length (form_view form)) × (offset + 8 ≤ 2 ^ 64 - 1) }
/// ensures { (result ≤ 130) × Writes image.old image.new result (λ c. write_acts c qword offset value) }
/// ```
pub fn write_qword(image: &mut [u8], form: Form, offset: usize, value: u64) -> u32 {
    if eight_together(offset) {
        write_run(image, form, offset, 8, value);
        return 0;
    }
    let first = write_dword(image, form, offset, bits::half(value, false));
    first + write_dword(image, form, offset + 4, bits::half(value, true))
}
