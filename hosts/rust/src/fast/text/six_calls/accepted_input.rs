// Made from crates/six_calls/src/accepted_input.rt by tools/portable: do not change it here.
//! The calls on an input of an image that is accepted: 3, and then the move. What they tell is handed back.
//! A level and a poll stand beside one another: of a closure that made the move nothing would be known of the image that it changed.

use super::super::answer::refusals::Refusal;
use super::super::answer::Told;
use super::super::fields::event_numbers;
use super::super::image::form::Form;
use super::super::lines::service;

/// The vector that a call on an input returns, with its number, as a value.
///
/// ```text
/// requires { length image.old ≡ form_length (form_view form) }
/// ensures { TakesNumber image.old image.new (answer_value answer) (value_view result) }
/// ```
#[inline]
fn numbered<const N: usize>(image: &mut [u8; N], answer: Option<u8>) -> Option<u64> {
    match answer {
        Some(vector) => {
            let number = event_numbers::take(image);
            Some(vector as u64 + 0x1_0000 * (number as u64))
        }
        None => None,
    }
}

/// ```text
/// requires { Passed (form_view form) image.old }
/// ensures { ends result image.new [] ≡ ending (asked.level input level) image.old }
/// ```
#[inline]
pub fn level<const N: usize>(image: &mut [u8; N], input: u64, level: u64) -> Told {
    if 64 <= input {
        return Err(Refusal::NoInput);
    }
    let returned = service::set_level(image, input as usize, level != 0);
    Ok(numbered(image, returned))
}

/// ```text
/// requires { Passed (form_view form) image.old }
/// ensures { ends result image.new [] ≡ ending (asked.poll input) image.old }
/// ```
#[inline]
pub fn poll<const N: usize>(image: &mut [u8; N], input: u64) -> Told {
    if 64 <= input {
        return Err(Refusal::NoInput);
    }
    let returned = service::poll(image, input as usize);
    Ok(numbered(image, returned))
}
