// Made from crates/image/src/head.rt by tools/portable: do not change it here.
//! Which form an image is of: its length tells the form, and its contents, at the front, are those of that form. Bytes are compared as numbers, eight at a
//! time.

use super::super::bits::bytes::word_at;
use super::form::contents_of;
use super::form::form_of;
use super::form::Form;

/// Why bytes are no image of a form.
#[derive(Clone, Copy, PartialEq, Eq)]
pub enum HeadFault {
    WrongLength,
    WrongContents,
}

/// ```text
/// requires { length image.now ≡ form_length (form_view form) }
/// ensures { result ≡ head_good (form_view form) image.now }
/// ```
#[inline]
fn contents_good<const N: usize>(image: &[u8; N]) -> bool {
    let form = const { super::super::image::form::form_at(N) };
    let c = contents_of(form);
    if word_at(image, 0) != c.first {
        return false;
    }
    if word_at(image, 8) != c.second {
        return false;
    }
    if word_at(image, 14) != c.third {
        return false;
    }
    word_at(image, c.last_at) == c.last
}

/// ```text
/// requires { form_of (length image.now) ≡ known (form_view form) }
/// ensures { Headed result image.now }
/// ```
#[inline(always)]
fn headed<const N: usize>(image: &[u8; N]) -> Result<Form, HeadFault> {
    let form = const { super::super::image::form::form_at(N) };
    if contents_good(image) {
        return Ok(form);
    }
    Err(HeadFault::WrongContents)
}

/// An arm for each form, so that each compares with constants.
///
/// ```text
/// ensures { Headed result image.now }
/// ```
#[inline(always)]
pub fn test_head<const N: usize>(image: &[u8; N]) -> Result<Form, HeadFault> {
    let Some(form) = form_of(image.len()) else {
        return Err(HeadFault::WrongLength);
    };
    headed(image)
}
