// Made from crates/answer/src/accepted.rt by tools/portable: do not change it here.
//! Whether an image is accepted, as the long way of a call tests it: 4 and 5 by its length and its contents, and then 8 to 11 by its bodies.

use super::super::image::bodies::test_bodies;
use super::super::image::bodies::test_waiting;
use super::super::image::faults::first_fault;
use super::super::image::form::Form;
use super::super::image::head::test_head;
use super::refusals::Refusal;

/// The form of an accepted image. What is wrong in a body is searched for only in one that is not.
///
/// ```text
/// ensures { Accepts result image.now }
/// ```
pub fn accepted(image: &[u8]) -> Result<Form, Refusal> {
    let form = test_head(image)?;
    if !test_bodies(image, form) {
        first_fault(image, form)?;
    }
    Ok(form)
}

/// The bodies alone, of an image whose contents are those of its form, and in which something waits as a rule.
///
/// ```text
/// requires { Headed (Ok form) image.now }
/// ensures { AcceptsBodies result form image.now }
/// ```
pub fn bodies_accepted(image: &[u8], form: Form) -> Result<(), Refusal> {
    if !test_waiting(image, form) {
        first_fault(image, form)?;
    }
    Ok(())
}
