// Made from crates/pch_pic_table/src/tested_access.rt by tools/portable: do not change it here.
//! Reads and writes through the window that are decoded by the table, on the image alone: what they tell is handed back. The tests are those of accesses.
//! A read and a write stand beside one another: of a closure that made the access nothing would be known of the image that it changed.

use super::super::answer::accepted::accepted;
use super::super::answer::refusals::Refusal;
use super::super::answer::Told;
use super::super::device::window;
use super::super::table::table_rows;
use super::table_widths;

/// ```text
/// ensures { ends result image.now [] ≡ ending (asked.read base size address width) image.now }
/// ```
pub fn read(image: &[u8], base: u64, size: u64, address: u64, width: u64) -> Told {
    let form = accepted(image)?;
    let Some(known) = window::width_of(width) else {
        return Err(Refusal::NoWidth);
    };
    let Some(offset) = window::locate(base, size, address, width) else {
        return Err(Refusal::Outside(address));
    };
    let table = table_rows::lent();
    let value = table_widths::read_access(image, form, table, known, offset);
    Ok(Some(value))
}

/// ```text
/// ensures { ends result image.new [] ≡ ending (asked.write base size address width value) image.old }
/// ```
pub fn write(image: &mut [u8], base: u64, size: u64, address: u64, width: u64, value: u64) -> Told {
    let form = accepted(image)?;
    let Some(known) = window::width_of(width) else {
        return Err(Refusal::NoWidth);
    };
    let Some(offset) = window::locate(base, size, address, width) else {
        return Err(Refusal::Outside(address));
    };
    let table = table_rows::lent();
    let dropped = table_widths::write_access(image, form, table, known, offset, value);
    Ok(Some(dropped as u64))
}
