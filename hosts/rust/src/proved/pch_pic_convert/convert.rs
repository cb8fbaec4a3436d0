// Made from crates/pch_pic_convert/src/convert.rt by tools/portable: do not change it here.
//! An image moved to the form of a target's length, by way of the whole state: what is told is handed back. The order of the tests is 4 of the image, 4 of the
//! target, then 5 and 8 to 11.

use super::super::answer::accepted::accepted;
use super::super::answer::refusals::Refusal;
use super::super::answer::Told;
use super::super::image::form::form_of;
use super::super::image::form::Form;
use super::super::stored::save_state;
use super::load_numbers;
use super::load_state;

/// Of an accepted image, and of a target that has the length of its form. It stands apart from the tests: in one function with them the text as Rust takes up to a third more time.
///
/// ```text
/// requires { Passed (form_view own) image.now × (form_of (length target.old) ≡ known (form_view form)) }
/// ensures { ends result target.new [] ≡ convert_ending image.now target.old }
/// ```
fn convert_tested(image: &[u8], own: Form, target: &mut [u8], form: Form) -> Told {
    let numbers = load_numbers::load_numbers(image, own);
    save_state::save(target, form, load_state::load(image, own), &numbers);
    Ok(None)
}

/// The target is written only where all tests have passed; any bytes of its length will do.
///
/// ```text
/// ensures { ends result target.new [] ≡ convert_ending image.now target.old }
/// ```
pub fn convert(image: &[u8], target: &mut [u8]) -> Told {
    let Some(_) = form_of(image.len()) else {
        return Err(Refusal::WrongLength);
    };
    let Some(form) = form_of(target.len()) else {
        return Err(Refusal::WrongLength);
    };
    let own = accepted(image)?;
    convert_tested(image, own, target, form)
}
