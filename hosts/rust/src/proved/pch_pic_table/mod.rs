// Made from crates/pch_pic_table/src/lib.rt by tools/portable: do not change it here.
//! Reads and writes that are decoded by the table, for a host: in every byte as pch_pic_read and pch_pic_write. Neither requires anything.

pub mod table_bytes;
pub mod table_dwords;
pub mod table_widths;
pub mod tested_access;

use super::answer::refusals::NO_ROOM;
use super::answer::tell;

/// ```text
/// ensures { leaves result image.now answer.new []
///     ≡ outcome (asked.read base size address width) image.now answer.old }
/// ```
pub fn pch_pic_table_read(
    image: &[u8],
    base: u64,
    size: u64,
    address: u64,
    width: u64,
    answer: &mut [u8],
) -> u8 {
    if answer.len() < 16 {
        return NO_ROOM;
    }
    let told = tested_access::read(image, base, size, address, width);
    tell(answer, told)
}

/// ```text
/// ensures { leaves result image.new answer.new []
///     ≡ outcome (asked.write base size address width value) image.old answer.old }
/// ```
pub fn pch_pic_table_write(
    image: &mut [u8],
    base: u64,
    size: u64,
    address: u64,
    width: u64,
    value: u64,
    answer: &mut [u8],
) -> u8 {
    if answer.len() < 16 {
        return NO_ROOM;
    }
    let told = tested_access::write(image, base, size, address, width, value);
    tell(answer, told)
}
