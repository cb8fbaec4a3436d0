// Made from crates/pch_pic_convert/src/lib.rt by tools/portable: do not change it here.
//! The call that moves a lent image to another form (02, C-17). It requires nothing: every input has its outcome. It stands apart from the six, so that the code which saves a state has one caller in
//! each object and becomes part of it.

pub mod convert;
pub mod load_numbers;
pub mod load_ring;
pub mod load_state;
pub mod load_tables;
pub mod load_words;

use super::answer::refusals::NO_ROOM;
use super::answer::tell;

/// The image goes into the target, in the form of the target's length.
///
/// ```text
/// ensures { leaves result target.new answer.new [] ≡ conversion image.now target.old answer.old }
/// ```
pub fn pch_pic_convert(image: &[u8], target: &mut [u8], answer: &mut [u8]) -> u8 {
    if answer.len() < 16 {
        return NO_ROOM;
    }
    let told = convert::convert(image, target);
    tell(answer, told)
}
