// Made from crates/access/src/narrow.rt by tools/portable: do not change it here.
//! Bytes and Words, in place on an image.

use super::super::bits;
use super::super::device::map::in_byte_area;
use super::super::image::form::Form;
use super::cells::read_dword;
use super::cells::read_entry;
use super::cells::write_dword;
use super::cells::write_entry;

// ---- Byte

/// In 0x100..0x39f a route or vector byte; elsewhere a byte of the Dword that it lies in.
///
/// ```text
/// requires { length image.now ≡ form_length (form_view form) }
/// ensures { Reads image.now result (λ d. read_byte d.core offset) }
/// ```
pub fn read_byte(image: &[u8], form: Form, offset: usize) -> u8 {
    if in_byte_area(offset) {
        return read_entry(image, form, offset);
    }
    let place = offset & 0x3;
    bits::byte_of(read_dword(image, form, offset & !0x3), place)
}

/// The byte's part of the Dword is known before the Dword is read, so that little is kept meanwhile: a route or vector byte then pays for none of it.
///
/// ```text
/// requires { length image.old ≡ form_length (form_view form) }
/// ensures { (result ≤ 65) × Writes image.old image.new result (λ c. byte_acts c offset val) }
/// ```
pub fn write_byte(image: &mut [u8], form: Form, offset: usize, val: u8) -> u32 {
    if in_byte_area(offset) {
        write_entry(image, form, offset, val);
        return 0;
    }
    let shift = (offset & 0x3) * 8;
    let others = !(0xff << shift);
    let placed = (val as u32) << shift;
    let old = read_dword(image, form, offset & !0x3);
    write_dword(image, form, offset & !0x3, (old & others) | placed)
}

// ---- Word

/// Both Bytes outside 0x100..0x39f and in one Dword are read with it, once.
///
/// ```text
/// requires { (length image.now ≡ form_length (form_view form)) × (offset + 2 ≤ 2 ^ 64 - 1) }
/// ensures { Reads image.now result (λ d. read_at d.core word offset) }
/// ```
pub fn read_word(image: &[u8], form: Form, offset: usize) -> u64 {
    let place = offset & 0x3;
    if (place != 3) & !in_byte_area(offset) {
        let both = read_dword(&*image, form, offset & !0x3);
        return ((both >> (place * 8)) & 0xffff) as u64;
    }
    let low = read_byte(image, form, offset) as u64;
    let high = read_byte(image, form, offset + 1) as u64;
    low + 256 * high
}

/// The second Byte meets what the first left.
///
/// ```text
/// requires { (length image.old ≡ form_length (form_view form)) × (offset + 2 ≤ 2 ^ 64 - 1) }
/// ensures { (result ≤ 130) × Writes image.old image.new result (λ c. write_acts c word offset low) }
/// ```
pub fn write_word(image: &mut [u8], form: Form, offset: usize, low: u32) -> u32 {
    let first = write_byte(image, form, offset, bits::byte_of(low, 0));
    first + write_byte(image, form, offset + 1, bits::byte_of(low, 1))
}
