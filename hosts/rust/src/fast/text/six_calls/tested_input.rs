// Made from crates/six_calls/src/tested_input.rt by tools/portable: do not change it here.
//! The calls on an input, on the image alone: what they tell is handed back. The image is tested here, 4, 5, 8 to 11; what comes after is `accepted_input`. The quick test comes first, in
//! an arm for each form.
//! A level and a poll stand beside one another: of a closure that made the move nothing would be known of the image that it changed.

use super::super::answer::accepted::accepted;
use super::super::answer::Told;
use super::super::image::form::form_of;
use super::super::image::quick::odd;
use super::accepted_input;

/// ```text
/// ensures { ends result image.new [] ≡ ending (asked.level input level) image.old }
/// ```
#[inline(never)]
fn level_tested<const N: usize>(image: &mut [u8; N], input: u64, level: u64) -> Told {
    let form = accepted(image)?;
    accepted_input::level(image, input, level)
}

/// ```text
/// ensures { ends result image.new [] ≡ ending (asked.poll input) image.old }
/// ```
#[inline(never)]
fn poll_tested<const N: usize>(image: &mut [u8; N], input: u64) -> Told {
    let form = accepted(image)?;
    accepted_input::poll(image, input)
}

/// ```text
/// ensures { ends result image.new [] ≡ ending (asked.level input level) image.old }
/// ```
#[inline]
pub fn level<const N: usize>(image: &mut [u8; N], input: u64, level: u64) -> Told {
    if let Some(form) = form_of(image.len()) {
        {
            if odd(image) == 0 {
                return accepted_input::level(image, input, level);
            }
        };
    }
    level_tested(image, input, level)
}

/// ```text
/// ensures { ends result image.new [] ≡ ending (asked.poll input) image.old }
/// ```
#[inline]
pub fn poll<const N: usize>(image: &mut [u8; N], input: u64) -> Told {
    if let Some(form) = form_of(image.len()) {
        {
            if odd(image) == 0 {
                return accepted_input::poll(image, input);
            }
        };
    }
    poll_tested(image, input)
}
