// Made from crates/pch_pic_hoist/src/accepted_dword.rt by tools/portable: do not change it here.
//! Reads and writes of a hoist guest through the window of an image that is accepted: 2 before 1, then 14 before 15, and then the Dword itself.

use super::super::access::cells::read_dword;
use super::super::access::cells::write_dword;
use super::super::answer::refusals::Refusal;
use super::super::answer::Told;
use super::super::bits;
use super::super::device::window;
use super::super::image::form::Form;
use super::judge::forbidden;
use super::profile::is_aligned_dword;

/// ```text
/// requires { Passed (form_view form) image.now }
/// ensures { ends result image.now [] ≡ hoist_ending false (asked.read base size address width) image.now }
/// ```
pub fn read(image: &[u8], form: Form, base: u64, size: u64, address: u64, width: u64) -> Told {
    let Some(known) = window::width_of(width) else {
        return Err(Refusal::NoWidth);
    };
    let Some(offset) = window::locate(base, size, address, width) else {
        return Err(Refusal::Outside(address));
    };
    if !is_aligned_dword(known, offset) {
        return Err(Refusal::Unaligned);
    }
    Ok(Some(read_dword(image, form, offset) as u64))
}

/// The value that is told is how many events were dropped.
///
/// ```text
/// requires { Passed (form_view form) image.old }
/// ensures { ends result image.new [] ≡ hoist_ending running (asked.write base size address width value) image.old }
/// ```
pub fn write(
    image: &mut [u8],
    form: Form,
    running: bool,
    base: u64,
    size: u64,
    address: u64,
    width: u64,
    value: u64,
) -> Told {
    let Some(known) = window::width_of(width) else {
        return Err(Refusal::NoWidth);
    };
    let Some(offset) = window::locate(base, size, address, width) else {
        return Err(Refusal::Outside(address));
    };
    if !is_aligned_dword(known, offset) {
        return Err(Refusal::Unaligned);
    }
    if forbidden(image, form, running, offset, value) {
        return Err(Refusal::Unfit);
    }
    let lost = write_dword(image, form, offset, bits::half(value, false));
    Ok(Some(lost as u64))
}
