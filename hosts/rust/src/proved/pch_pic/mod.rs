// Made from crates/pch_pic/src/lib.rt by tools/portable: do not change it here.
//! The calls that a host makes, over a lent image, numbers and a lent answer area: 01's six, and who waits. None requires anything: every input has its outcome.
//! Here refusal 7 is tested, and of a level, a poll, a drain and who waits the quick test, in an arm for each form: there the form is a constant. `accesses` has it for a Dword. An image that
//! does not pass is tested for few that wait, and then in full. What a call tells goes into the answer area.

pub mod accesses;
pub mod draining;
pub mod inputs;

use self::accesses::read_any;
use self::accesses::read_dword;
use self::accesses::write_any;
use self::accesses::write_dword;
use self::draining::drain_one;
use self::draining::drain_waiting;
use self::draining::nothing_waits;
use self::inputs::level_on;
use self::inputs::level_waiting;
use self::inputs::poll_on;
use self::inputs::poll_waiting;
use self::inputs::waiting_on;
use self::inputs::waiting_tested;
use super::answer::refusals::Refusal;
use super::answer::refusals::NO_ROOM;
use super::answer::tell;
use super::image::form::by_form;
use super::image::form::form_of;
use super::image::form::Form;
use super::image::quick::contents_apart;
use super::image::quick::odd;
use super::six_calls::reset_drain;

/// ```text
/// ensures { leaves result image.new answer.new [] ≡ outcome asked.reset image.old answer.old }
/// ```
pub fn pch_pic_reset(image: &mut [u8], answer: &mut [u8]) -> u8 {
    if answer.len() < 16 {
        return NO_ROOM;
    }
    let told = reset_drain::reset(image);
    tell(answer, told)
}

/// ```text
/// ensures { leaves result image.now answer.new []
///     ≡ outcome (asked.read base size address width) image.now answer.old }
/// ```
pub fn pch_pic_read(
    image: &[u8],
    base: u64,
    size: u64,
    address: u64,
    width: u64,
    answer: &mut [u8],
) -> u8 {
    if answer.len() < 16 {
        return NO_ROOM;
    }
    if width == 4 {
        return read_dword(&*image, base, size, address, answer);
    }
    read_any(&*image, base, size, address, width, answer)
}

/// ```text
/// ensures { leaves result image.new answer.new []
///     ≡ outcome (asked.write base size address width value) image.old answer.old }
/// ```
pub fn pch_pic_write(
    image: &mut [u8],
    base: u64,
    size: u64,
    address: u64,
    width: u64,
    value: u64,
    answer: &mut [u8],
) -> u8 {
    if answer.len() < 16 {
        return NO_ROOM;
    }
    if width == 4 {
        return write_dword(image, base, size, address, value, answer);
    }
    write_any(image, base, size, address, width, value, answer)
}

/// ```text
/// ensures { leaves result image.new answer.new [] ≡ outcome (asked.level input level) image.old answer.old }
/// ```
pub fn pch_pic_level(image: &mut [u8], input: u64, level: u64, answer: &mut [u8]) -> u8 {
    if answer.len() < 16 {
        return NO_ROOM;
    }
    let Some(form) = form_of(image.len()) else {
        return tell(answer, Err(Refusal::WrongLength));
    };
    by_form!(
        form,
        {
            if odd(image, form) == 0 {
                return level_on(image, form, input, level, answer);
            }
            if contents_apart(image, form) == 0 {
                return level_waiting(image, form, input, level, answer);
            }
            tell(answer, Err(Refusal::WrongContents))
        }
    )
}

/// ```text
/// ensures { leaves result image.new answer.new [] ≡ outcome (asked.poll input) image.old answer.old }
/// ```
pub fn pch_pic_poll(image: &mut [u8], input: u64, answer: &mut [u8]) -> u8 {
    if answer.len() < 16 {
        return NO_ROOM;
    }
    let Some(form) = form_of(image.len()) else {
        return tell(answer, Err(Refusal::WrongLength));
    };
    by_form!(
        form,
        {
            if odd(image, form) == 0 {
                return poll_on(image, form, input, answer);
            }
            if contents_apart(image, form) == 0 {
                return poll_waiting(image, form, input, answer);
            }
            tell(answer, Err(Refusal::WrongContents))
        }
    )
}

/// ```text
/// ensures { leaves result image.new answer.new events.new
///     ≡ outcome (asked.drain events.old place) image.old answer.old }
/// ```
pub fn pch_pic_drain(image: &mut [u8], events: &mut [u8], place: usize, answer: &mut [u8]) -> u8 {
    if answer.len() < 16 {
        return NO_ROOM;
    }
    if events.len() < place {
        return NO_ROOM;
    }
    let Some(form) = form_of(image.len()) else {
        return tell(answer, Err(Refusal::WrongLength));
    };
    by_form!(
        form,
        {
            if nothing_waits(image, form) {
                return tell(answer, Ok(Some(0)));
            }
            if reset_drain::one_fits(image, form, events.len() - place) {
                return drain_one(image, form, events, place, answer);
            }
            if contents_apart(image, form) == 0 {
                return drain_waiting(image, form, events, place, answer);
            }
            tell(answer, Err(Refusal::WrongContents))
        }
    )
}

/// ```text
/// ensures { leaves result image.now answer.new [] ≡ waiting image.now answer.old }
/// ```
pub fn pch_pic_waiting(image: &[u8], answer: &mut [u8]) -> u8 {
    let room = answer.len();
    if room < 16 {
        return NO_ROOM;
    }
    let Some(form) = form_of(image.len()) else {
        return waiting_tested(&*image, answer);
    };
    by_form!(
        form,
        {
            if odd(&*image, form) == 0 {
                return waiting_on(&*image, form, answer);
            }
            waiting_tested(&*image, answer)
        }
    )
}
