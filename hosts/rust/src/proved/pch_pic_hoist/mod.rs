// Made from crates/pch_pic_hoist/src/lib.rt by tools/portable: do not change it here.
//! The calls of the hoist profile, for a host, over a lent image, the phase's byte beside it, numbers and a lent answer area. None requires anything: every input
//! has its outcome.
//! Here is what lacks room, refusal 7; the crates below make the call and store the phase, and what is told goes into the answer area.

pub mod accepted_dword;
pub mod judge;
pub mod phases;
pub mod profile;
pub mod tested_dword;

use super::answer::refusals::NO_ROOM;
use super::answer::tell;
use super::six_calls::reset_drain;

/// Starts the first phase.
///
/// ```text
/// ensures { phase_leaves result image.new phase.new answer.new
///     ≡ hoist_reset image.old phase.old answer.old }
/// ```
pub fn pch_pic_hoist_reset(image: &mut [u8], phase: &mut [u8], answer: &mut [u8]) -> u8 {
    if answer.len() < 16 {
        return NO_ROOM;
    }
    if phase.is_empty() {
        return NO_ROOM;
    }
    let told = reset_drain::reset(image);
    let number = tell(answer, told);
    phases::begin(phase, phases::IN_START_UP, number);
    number
}

/// ```text
/// ensures { leaves result image.now answer.new []
///     ≡ hoist_read base size address width image.now answer.old }
/// ```
pub fn pch_pic_hoist_read(
    image: &[u8],
    base: u64,
    size: u64,
    address: u64,
    width: u64,
    answer: &mut [u8],
) -> u8 {
    if answer.len() < 16 {
        return NO_ROOM;
    }
    let told = tested_dword::read(image, base, size, address, width);
    tell(answer, told)
}

/// ```text
/// ensures { leaves result image.new answer.new []
///     ≡ hoist_write base size address width value image.old phase.now answer.old }
/// ```
pub fn pch_pic_hoist_write(
    image: &mut [u8],
    phase: &[u8],
    base: u64,
    size: u64,
    address: u64,
    width: u64,
    value: u64,
    answer: &mut [u8],
) -> u8 {
    if answer.len() < 16 {
        return NO_ROOM;
    }
    if phase.is_empty() {
        return NO_ROOM;
    }
    let running = phases::is_running(phase);
    let told = tested_dword::write(image, running, base, size, address, width, value);
    tell(answer, told)
}

/// Starts the second phase.
///
/// ```text
/// ensures { phase_leaves result image.now phase.new answer.new
///     ≡ end_startup image.now phase.old answer.old }
/// ```
pub fn pch_pic_hoist_end_startup(image: &[u8], phase: &mut [u8], answer: &mut [u8]) -> u8 {
    if answer.len() < 16 {
        return NO_ROOM;
    }
    if phase.is_empty() {
        return NO_ROOM;
    }
    let running = phases::is_running(phase);
    let told = tested_dword::end_startup(image, running);
    let number = tell(answer, told);
    phases::begin(phase, phases::AFTER_START_UP, number);
    number
}
