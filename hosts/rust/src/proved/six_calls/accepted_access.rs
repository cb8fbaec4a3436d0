// Made from crates/six_calls/src/accepted_access.rt by tools/portable: do not change it here.
//! Reads and writes through the window of an image that is accepted: 2 before 1, and then the access itself. What they tell is handed back.
//! The four widths stand behind the tests in one function: so far from its start the compiler leaves them calls, and each pays for its own work alone.

use super::super::access::cells::read_dword;
use super::super::access::cells::write_dword;
use super::super::access::narrow::read_byte;
use super::super::access::narrow::read_word;
use super::super::access::narrow::write_byte;
use super::super::access::narrow::write_word;
use super::super::access::wide::read_qword;
use super::super::access::wide::write_qword;
use super::super::answer::refusals::Refusal;
use super::super::answer::Told;
use super::super::bits;
use super::super::device::map::Width;
use super::super::device::window;
use super::super::image::form::Form;

/// ```text
/// requires { Passed (form_view form) image.now }
/// ensures { ends result image.now [] ≡ ending (asked.read base size address width) image.now }
/// ```
pub fn read(image: &[u8], form: Form, base: u64, size: u64, address: u64, width: u64) -> Told {
    let Some(known) = window::width_of(width) else {
        return Err(Refusal::NoWidth);
    };
    let Some(offset) = window::locate(base, size, address, width) else {
        return Err(Refusal::Outside(address));
    };
    match known {
        Width::Byte => Ok(Some(read_byte(image, form, offset) as u64)),
        Width::Word => Ok(Some(read_word(image, form, offset))),
        Width::Dword => Ok(Some(read_dword(image, form, offset) as u64)),
        Width::Qword => Ok(Some(read_qword(image, form, offset))),
    }
}

/// The value that is told is how many events were dropped.
///
/// ```text
/// requires { Passed (form_view form) image.old }
/// ensures { ends result image.new [] ≡ ending (asked.write base size address width value) image.old }
/// ```
pub fn write(
    image: &mut [u8],
    form: Form,
    base: u64,
    size: u64,
    address: u64,
    width: u64,
    value: u64,
) -> Told {
    let Some(known) = window::width_of(width) else {
        return Err(Refusal::NoWidth);
    };
    let Some(offset) = window::locate(base, size, address, width) else {
        return Err(Refusal::Outside(address));
    };
    let low = bits::half(value, false);
    match known {
        Width::Byte => Ok(Some(write_byte(image, form, offset, bits::byte_of(low, 0)) as u64)),
        Width::Word => Ok(Some(write_word(image, form, offset, low) as u64)),
        Width::Dword => Ok(Some(write_dword(image, form, offset, low) as u64)),
        Width::Qword => Ok(Some(write_qword(image, form, offset, value) as u64)),
    }
}
