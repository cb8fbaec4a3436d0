// Made from crates/pch_pic/src/accesses.rt by tools/portable: do not change it here.
//! Reads and writes through the window, where the answer area has room. What they tell goes into it. A Dword is what guests use: it has the quick test, and arms in which the form
//! is a constant. All other widths go one way.
//! A read and a write stand beside one another: of a closure that made the access nothing would be known of the image that it changed.

use super::super::access::cells;
use super::super::answer::accepted::bodies_accepted;
use super::super::answer::refusals::Refusal;
use super::super::answer::tell;
use super::super::bits;
use super::super::device::window;
use super::super::image::form::by_form;
use super::super::image::form::form_of;
use super::super::image::form::Form;
use super::super::image::quick::contents_apart;
use super::super::image::quick::few_odd;
use super::super::image::quick::odd;
use super::super::six_calls::tested_access;

/// A read of any width: the image is tested the whole way. It stays a call: within `read_at_once`, that would be one too, and every Dword would take 30 instructions more.
///
/// ```text
/// requires { answer_length ≤ length answer.old }
/// ensures { leaves result image.now answer.new []
///     ≡ outcome (asked.read base size address width) image.now answer.old }
/// ```
pub fn read_any(
    image: &[u8],
    base: u64,
    size: u64,
    address: u64,
    width: u64,
    answer: &mut [u8],
) -> u8 {
    let told = tested_access::read(&*image, base, size, address, width);
    tell(answer, told)
}

/// A Dword of an image that is accepted.
///
/// ```text
/// requires { Passed (form_view form) image.now × (answer_length ≤ length answer.old) }
/// ensures { leaves result image.now answer.new []
///     ≡ outcome (asked.read base size address 4) image.now answer.old }
/// ```
fn read_on(image: &[u8], form: Form, base: u64, size: u64, address: u64, answer: &mut [u8]) -> u8 {
    let Some(offset) = window::locate(base, size, address, 4) else {
        return tell(answer, Err(Refusal::Outside(address)));
    };
    let value = cells::read_dword(&*image, form, offset) as u64;
    tell(answer, Ok(Some(value)))
}

/// The contents are those of the form, and the bodies are tested in full.
///
/// ```text
/// requires { Headed (Ok form) image.now × (answer_length ≤ length answer.old) }
/// ensures { leaves result image.now answer.new []
///     ≡ outcome (asked.read base size address 4) image.now answer.old }
/// ```
fn read_tested(
    image: &[u8],
    form: Form,
    base: u64,
    size: u64,
    address: u64,
    answer: &mut [u8],
) -> u8 {
    if let Err(refusal) = bodies_accepted(&*image, form) {
        return tell(answer, Err(refusal));
    }
    read_on(&*image, form, base, size, address, answer)
}

/// The contents are those of the form. Where few wait, the form is a constant here too.
///
/// ```text
/// requires { Headed (Ok form) image.now × (answer_length ≤ length answer.old) }
/// ensures { leaves result image.now answer.new []
///     ≡ outcome (asked.read base size address 4) image.now answer.old }
/// ```
fn read_waiting(
    image: &[u8],
    form: Form,
    base: u64,
    size: u64,
    address: u64,
    answer: &mut [u8],
) -> u8 {
    by_form!(
        form,
        {
            if few_odd(&*image, form) == 0 {
                return read_on(&*image, form, base, size, address, answer);
            }
            read_tested(&*image, form, base, size, address, answer)
        }
    )
}

/// Of an image that is accepted, behind the quick test. An access outside the window goes the way of any other width: a refusal that was told here would share its stores with
/// what is done, and every Dword would take 4 instructions more.
///
/// ```text
/// requires { Passed (form_view form) image.now × (answer_length ≤ length answer.old) }
/// ensures { leaves result image.now answer.new []
///     ≡ outcome (asked.read base size address 4) image.now answer.old }
/// ```
fn read_at_once(
    image: &[u8],
    form: Form,
    base: u64,
    size: u64,
    address: u64,
    answer: &mut [u8],
) -> u8 {
    let Some(offset) = window::locate(base, size, address, 4) else {
        return read_any(&*image, base, size, address, 4, answer);
    };
    let read = cells::read_dword(&*image, form, offset) as u64;
    tell(answer, Ok(Some(read)))
}

/// A Dword. The quick test comes first, in an arm for each form.
///
/// ```text
/// requires { answer_length ≤ length answer.old }
/// ensures { leaves result image.now answer.new []
///     ≡ outcome (asked.read base size address 4) image.now answer.old }
/// ```
pub fn read_dword(image: &[u8], base: u64, size: u64, address: u64, answer: &mut [u8]) -> u8 {
    let Some(form) = form_of(image.len()) else {
        return tell(answer, Err(Refusal::WrongLength));
    };
    by_form!(
        form,
        {
            if odd(&*image, form) == 0 {
                return read_at_once(&*image, form, base, size, address, answer);
            }
            if contents_apart(&*image, form) == 0 {
                return read_waiting(&*image, form, base, size, address, answer);
            }
            tell(answer, Err(Refusal::WrongContents))
        }
    )
}

/// A write of any width: the image is tested the whole way. It stays a call, as a read does.
///
/// ```text
/// requires { answer_length ≤ length answer.old }
/// ensures { leaves result image.new answer.new []
///     ≡ outcome (asked.write base size address width value) image.old answer.old }
/// ```
pub fn write_any(
    image: &mut [u8],
    base: u64,
    size: u64,
    address: u64,
    width: u64,
    value: u64,
    answer: &mut [u8],
) -> u8 {
    let told = tested_access::write(image, base, size, address, width, value);
    tell(answer, told)
}

/// A Dword to an image that is accepted.
///
/// ```text
/// requires { Passed (form_view form) image.old × (answer_length ≤ length answer.old) }
/// ensures { leaves result image.new answer.new []
///     ≡ outcome (asked.write base size address 4 value) image.old answer.old }
/// ```
fn write_on(
    image: &mut [u8],
    form: Form,
    base: u64,
    size: u64,
    address: u64,
    value: u64,
    answer: &mut [u8],
) -> u8 {
    let Some(offset) = window::locate(base, size, address, 4) else {
        return tell(answer, Err(Refusal::Outside(address)));
    };
    let dropped = cells::write_dword(image, form, offset, bits::half(value, false)) as u64;
    tell(answer, Ok(Some(dropped)))
}

/// The contents are those of the form, and the bodies are tested in full.
///
/// ```text
/// requires { Headed (Ok form) image.old × (answer_length ≤ length answer.old) }
/// ensures { leaves result image.new answer.new []
///     ≡ outcome (asked.write base size address 4 value) image.old answer.old }
/// ```
fn write_tested(
    image: &mut [u8],
    form: Form,
    base: u64,
    size: u64,
    address: u64,
    value: u64,
    answer: &mut [u8],
) -> u8 {
    if let Err(refusal) = bodies_accepted(image, form) {
        return tell(answer, Err(refusal));
    }
    write_on(image, form, base, size, address, value, answer)
}

/// The contents are those of the form. Where few wait, the form is a constant here too.
///
/// ```text
/// requires { Headed (Ok form) image.old × (answer_length ≤ length answer.old) }
/// ensures { leaves result image.new answer.new []
///     ≡ outcome (asked.write base size address 4 value) image.old answer.old }
/// ```
fn write_waiting(
    image: &mut [u8],
    form: Form,
    base: u64,
    size: u64,
    address: u64,
    value: u64,
    answer: &mut [u8],
) -> u8 {
    by_form!(
        form,
        {
            if few_odd(image, form) == 0 {
                return write_on(image, form, base, size, address, value, answer);
            }
            write_tested(image, form, base, size, address, value, answer)
        }
    )
}

/// Of an image that is accepted, behind the quick test. An access outside the window goes the way of any other width: a refusal that was told here would share its stores with
/// what is done, and every Dword would take 4 instructions more.
///
/// ```text
/// requires { Passed (form_view form) image.old × (answer_length ≤ length answer.old) }
/// ensures { leaves result image.new answer.new []
///     ≡ outcome (asked.write base size address 4 value) image.old answer.old }
/// ```
fn write_at_once(
    image: &mut [u8],
    form: Form,
    base: u64,
    size: u64,
    address: u64,
    value: u64,
    answer: &mut [u8],
) -> u8 {
    let Some(offset) = window::locate(base, size, address, 4) else {
        return write_any(image, base, size, address, 4, value, answer);
    };
    let lost = cells::write_dword(image, form, offset, bits::half(value, false)) as u64;
    tell(answer, Ok(Some(lost)))
}

/// A Dword. The quick test comes first, in an arm for each form.
///
/// ```text
/// requires { answer_length ≤ length answer.old }
/// ensures { leaves result image.new answer.new []
///     ≡ outcome (asked.write base size address 4 value) image.old answer.old }
/// ```
pub fn write_dword(
    image: &mut [u8],
    base: u64,
    size: u64,
    address: u64,
    value: u64,
    answer: &mut [u8],
) -> u8 {
    let Some(form) = form_of(image.len()) else {
        return tell(answer, Err(Refusal::WrongLength));
    };
    by_form!(
        form,
        {
            if odd(image, form) == 0 {
                return write_at_once(image, form, base, size, address, value, answer);
            }
            if contents_apart(image, form) == 0 {
                return write_waiting(image, form, base, size, address, value, answer);
            }
            tell(answer, Err(Refusal::WrongContents))
        }
    )
}
