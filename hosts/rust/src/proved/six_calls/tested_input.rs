// Made from crates/six_calls/src/tested_input.rt by tools/portable: do not change it here.
//! The calls on an input, on the image alone: what they tell is handed back. The image is tested here, 4, 5, 8 to 11; what comes after is `accepted_input`. The quick test comes first, in
//! an arm for each form.
//! A level and a poll stand beside one another: of a closure that made the move nothing would be known of the image that it changed.

use super::super::answer::accepted::accepted;
use super::super::answer::Told;
use super::super::image::form::by_form;
use super::super::image::form::form_of;
use super::super::image::form::Form;
use super::super::image::quick::odd;
use super::accepted_input;

/// ```text
/// ensures { ends result image.new [] ≡ ending (asked.level input level) image.old }
/// ```
fn level_tested(image: &mut [u8], input: u64, level: u64) -> Told {
    let form = accepted(image)?;
    accepted_input::level(image, form, input, level)
}

/// ```text
/// ensures { ends result image.new [] ≡ ending (asked.poll input) image.old }
/// ```
fn poll_tested(image: &mut [u8], input: u64) -> Told {
    let form = accepted(image)?;
    accepted_input::poll(image, form, input)
}

/// ```text
/// ensures { ends result image.new [] ≡ ending (asked.level input level) image.old }
/// ```
pub fn level(image: &mut [u8], input: u64, level: u64) -> Told {
    if let Some(form) = form_of(image.len()) {
        by_form!(
            form,
            {
                if odd(image, form) == 0 {
                    return accepted_input::level(image, form, input, level);
                }
            }
        );
    }
    level_tested(image, input, level)
}

/// ```text
/// ensures { ends result image.new [] ≡ ending (asked.poll input) image.old }
/// ```
pub fn poll(image: &mut [u8], input: u64) -> Told {
    if let Some(form) = form_of(image.len()) {
        by_form!(
            form,
            {
                if odd(image, form) == 0 {
                    return accepted_input::poll(image, form, input);
                }
            }
        );
    }
    poll_tested(image, input)
}
