// Made from crates/pch_pic_convert/src/lib.rt by tools/portable: do not change it here.
//! The call that moves a lent image to another form (02, C-17). It requires nothing: every input has its outcome. It stands apart from the six, so that the code which saves a state has one caller in
//! each object and becomes part of it.

pub mod convert;
pub mod load_numbers;
pub mod load_ring;
pub mod load_state;
pub mod load_tables;
pub mod load_words;

use super::answer::refusals::NO_ROOM;
use super::answer::tell;

/// The image goes into the target, in the form of the target's length.
///
/// ```text
/// ensures { leaves result target.new answer.new [] ≡ conversion image.now target.old answer.old }
/// ```
pub fn pch_pic_convert(image: &[u8], target: &mut [u8], answer: &mut [u8]) -> u8 {
    if answer.len() < 16 {
        return NO_ROOM;
    }
    if let Ok(image) = <&[u8; 259]>::try_from(image) {
        return pch_pic_convert_1(image, target, answer);
    }
    if let Ok(image) = <&[u8; 251]>::try_from(image) {
        return pch_pic_convert_1(image, target, answer);
    }
    if let Ok(image) = <&[u8; 290]>::try_from(image) {
        return pch_pic_convert_1(image, target, answer);
    }
    pch_pic_convert_1(&[0u8; 0], target, answer)
}

#[inline]
fn pch_pic_convert_1<const N: usize>(image: &[u8; N], target: &mut [u8], answer: &mut [u8]) -> u8 {
    if let Ok(target) = <&mut [u8; 259]>::try_from(&mut *target) {
        return pch_pic_convert_of(image, target, answer);
    }
    if let Ok(target) = <&mut [u8; 251]>::try_from(&mut *target) {
        return pch_pic_convert_of(image, target, answer);
    }
    if let Ok(target) = <&mut [u8; 290]>::try_from(&mut *target) {
        return pch_pic_convert_of(image, target, answer);
    }
    pch_pic_convert_of(image, &mut [0u8; 0], answer)
}

#[inline]
fn pch_pic_convert_of<const N: usize, const M: usize>(
    image: &[u8; N],
    target: &mut [u8; M],
    answer: &mut [u8],
) -> u8 {
    let told = convert::convert(image, target);
    tell(answer, told)
}
