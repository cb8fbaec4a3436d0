// Made from crates/pch_pic/src/inputs.rt by tools/portable: do not change it here.
//! The calls on an input, and who waits, behind what a front tests first. What they tell goes into the answer area.
//! A level and a poll stand beside one another: of a closure that made the move nothing would be known of the image that it changed.

use super::super::answer::accepted::bodies_accepted;
use super::super::answer::tell;
use super::super::image::form::Form;
use super::super::image::quick::few_odd;
use super::super::six_calls::accepted_input;
use super::super::six_calls::who_waits;

/// The image is accepted.
///
/// ```text
/// requires { Passed (form_view form) image.old × (answer_length ≤ length answer.old) }
/// ensures { leaves result image.new answer.new [] ≡ outcome (asked.level input level) image.old answer.old }
/// ```
#[inline]
pub fn level_on<const N: usize>(
    image: &mut [u8; N],
    input: u64,
    level: u64,
    answer: &mut [u8],
) -> u8 {
    assert!(16 <= answer.len());
    let told = accepted_input::level(image, input, level);
    tell(answer, told)
}

/// The contents are those of the form, and the bodies are still to be tested.
///
/// ```text
/// requires { Headed (Ok form) image.old × (answer_length ≤ length answer.old) }
/// ensures { leaves result image.new answer.new [] ≡ outcome (asked.level input level) image.old answer.old }
/// ```
#[inline(never)]
fn level_tested<const N: usize>(
    image: &mut [u8; N],
    input: u64,
    level: u64,
    answer: &mut [u8],
) -> u8 {
    assert!(16 <= answer.len());
    if let Err(refusal) = bodies_accepted(image) {
        return tell(answer, Err(refusal));
    }
    level_on(image, input, level, answer)
}

/// ```text
/// requires { Passed (form_view form) image.old × (answer_length ≤ length answer.old) }
/// ensures { leaves result image.new answer.new [] ≡ outcome (asked.poll input) image.old answer.old }
/// ```
#[inline]
pub fn poll_on<const N: usize>(image: &mut [u8; N], input: u64, answer: &mut [u8]) -> u8 {
    assert!(16 <= answer.len());
    let told = accepted_input::poll(image, input);
    tell(answer, told)
}

/// ```text
/// requires { Headed (Ok form) image.old × (answer_length ≤ length answer.old) }
/// ensures { leaves result image.new answer.new [] ≡ outcome (asked.poll input) image.old answer.old }
/// ```
#[inline(never)]
fn poll_tested<const N: usize>(image: &mut [u8; N], input: u64, answer: &mut [u8]) -> u8 {
    assert!(16 <= answer.len());
    if let Err(refusal) = bodies_accepted(image) {
        return tell(answer, Err(refusal));
    }
    poll_on(image, input, answer)
}

/// ```text
/// requires { Headed (Ok form) image.old × (answer_length ≤ length answer.old) }
/// ensures { leaves result image.new answer.new [] ≡ outcome (asked.level input level) image.old answer.old }
/// ```
#[inline(never)]
pub fn level_waiting<const N: usize>(
    image: &mut [u8; N],
    input: u64,
    level: u64,
    answer: &mut [u8],
) -> u8 {
    assert!(16 <= answer.len());
    if few_odd(image) == 0 {
        return level_on(image, input, level, answer);
    }
    level_tested(image, input, level, answer)
}

/// ```text
/// requires { Headed (Ok form) image.old × (answer_length ≤ length answer.old) }
/// ensures { leaves result image.new answer.new [] ≡ outcome (asked.poll input) image.old answer.old }
/// ```
#[inline(never)]
pub fn poll_waiting<const N: usize>(image: &mut [u8; N], input: u64, answer: &mut [u8]) -> u8 {
    assert!(16 <= answer.len());
    if few_odd(image) == 0 {
        return poll_on(image, input, answer);
    }
    poll_tested(image, input, answer)
}

/// Who waits, of an image that is accepted.
///
/// ```text
/// requires { Passed (form_view form) image.now × (answer_length ≤ length answer.old) }
/// ensures { leaves result image.now answer.new [] ≡ waiting image.now answer.old }
/// ```
#[inline]
pub fn waiting_on<const N: usize>(image: &[u8; N], answer: &mut [u8]) -> u8 {
    assert!(16 <= answer.len());
    let set = who_waits::set_of(&*image);
    tell(answer, Ok(Some(set)))
}

/// Of any other one: it is tested the whole way.
///
/// ```text
/// requires { answer_length ≤ length answer.old }
/// ensures { leaves result image.now answer.new [] ≡ waiting image.now answer.old }
/// ```
#[inline(never)]
pub fn waiting_tested<const N: usize>(image: &[u8; N], answer: &mut [u8]) -> u8 {
    assert!(16 <= answer.len());
    let told = who_waits::waiting(&*image);
    tell(answer, told)
}
