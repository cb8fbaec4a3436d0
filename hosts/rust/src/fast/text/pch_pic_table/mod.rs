// Made from crates/pch_pic_table/src/lib.rt by tools/portable: do not change it here.
//! Reads and writes that are decoded by the table, for a host: in every byte as pch_pic_read and pch_pic_write. Neither requires anything.

pub mod table_bytes;
pub mod table_dwords;
pub mod table_widths;
pub mod tested_access;

use super::answer::refusals::NO_ROOM;
use super::answer::tell;

/// ```text
/// ensures { leaves result image.now answer.new []
///     ≡ outcome (asked.read base size address width) image.now answer.old }
/// ```
pub fn pch_pic_table_read(
    image: &[u8],
    base: u64,
    size: u64,
    address: u64,
    width: u64,
    answer: &mut [u8],
) -> u8 {
    if answer.len() < 16 {
        return NO_ROOM;
    }
    if let Ok(image) = <&[u8; 259]>::try_from(image) {
        return pch_pic_table_read_of(image, base, size, address, width, answer);
    }
    if let Ok(image) = <&[u8; 251]>::try_from(image) {
        return pch_pic_table_read_of(image, base, size, address, width, answer);
    }
    if let Ok(image) = <&[u8; 290]>::try_from(image) {
        return pch_pic_table_read_of(image, base, size, address, width, answer);
    }
    pch_pic_table_read_of(&[0u8; 0], base, size, address, width, answer)
}

#[inline]
fn pch_pic_table_read_of<const N: usize>(
    image: &[u8; N],
    base: u64,
    size: u64,
    address: u64,
    width: u64,
    answer: &mut [u8],
) -> u8 {
    let told = tested_access::read(image, base, size, address, width);
    tell(answer, told)
}

/// ```text
/// ensures { leaves result image.new answer.new []
///     ≡ outcome (asked.write base size address width value) image.old answer.old }
/// ```
pub fn pch_pic_table_write(
    image: &mut [u8],
    base: u64,
    size: u64,
    address: u64,
    width: u64,
    value: u64,
    answer: &mut [u8],
) -> u8 {
    if answer.len() < 16 {
        return NO_ROOM;
    }
    if let Ok(image) = <&mut [u8; 259]>::try_from(&mut *image) {
        return pch_pic_table_write_of(image, base, size, address, width, value, answer);
    }
    if let Ok(image) = <&mut [u8; 251]>::try_from(&mut *image) {
        return pch_pic_table_write_of(image, base, size, address, width, value, answer);
    }
    if let Ok(image) = <&mut [u8; 290]>::try_from(&mut *image) {
        return pch_pic_table_write_of(image, base, size, address, width, value, answer);
    }
    pch_pic_table_write_of(&mut [0u8; 0], base, size, address, width, value, answer)
}

#[inline]
fn pch_pic_table_write_of<const N: usize>(
    image: &mut [u8; N],
    base: u64,
    size: u64,
    address: u64,
    width: u64,
    value: u64,
    answer: &mut [u8],
) -> u8 {
    let told = tested_access::write(image, base, size, address, width, value);
    tell(answer, told)
}
