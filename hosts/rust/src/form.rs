//! The forms of a saved image.

use crate::{outcome, Error, IMAGE2_LEN, IMAGE2_NUMBERED_LEN, IMAGE_LEN};
use core::fmt;
use core::ops::Deref;

/// The form of a saved image. Its length says which it is.
///
/// All hold the same device; [`Form::Numbered`] alone holds the numbers of its events too. Where it is not asked for, they are lost and nothing else: a
/// device loaded from another form has its waiting events numbered from 0, and the next number after them. Between the other two an image moves there and
/// back with the same bytes. Libraries before version 0.8.0 do not know `Numbered`, and those before 0.6.0 know form 1 alone. Later versions add cases.
#[derive(Clone, Copy, Debug, Default, PartialEq, Eq, Hash)]
#[non_exhaustive]
pub enum Form {
    /// [`IMAGE_LEN`] bytes, with a copy of IRR.
    One,
    /// [`IMAGE2_LEN`] bytes.
    Two,
    /// [`IMAGE2_NUMBERED_LEN`] bytes: form 2, with numbers. A [`PchPic`](crate::PchPic) keeps its own image so.
    #[default]
    Numbered,
}

impl Form {
    /// The bytes of an image of this form.
    pub const fn image_len(self) -> usize {
        match self {
            Form::One => IMAGE_LEN,
            Form::Two => IMAGE2_LEN,
            Form::Numbered => IMAGE2_NUMBERED_LEN,
        }
    }

    /// The form of an image with so many bytes; none where no form has them.
    ///
    /// ```
    /// use pch_pic::Form;
    ///
    /// assert_eq!(Form::of_len(259), Some(Form::One));
    /// assert_eq!(Form::of_len(258), None);
    /// ```
    pub const fn of_len(image_len: usize) -> Option<Form> {
        match image_len {
            IMAGE_LEN => Some(Form::One),
            IMAGE2_LEN => Some(Form::Two),
            IMAGE2_NUMBERED_LEN => Some(Form::Numbered),
            _ => None,
        }
    }
}

/// ```
/// assert_eq!(pch_pic::Form::Two.to_string(), "form 2");
/// assert_eq!(pch_pic::Form::Numbered.to_string(), "form 2 with numbers");
/// ```
impl fmt::Display for Form {
    fn fmt(&self, f: &mut fmt::Formatter<'_>) -> fmt::Result {
        f.pad(match self {
            Form::One => "form 1",
            Form::Two => "form 2",
            Form::Numbered => "form 2 with numbers",
        })
    }
}

/// An accepted image in one of the forms: the whole device as bytes. [`PchPic::save`](crate::PchPic::save) and [`Image::converted`] make it.
#[derive(Clone)]
pub struct Image {
    form: Form,
    /// As many of these as the form has.
    bytes: [u8; IMAGE2_NUMBERED_LEN],
}

impl Image {
    /// The same device as that of `image`, which has any form, in this form.
    ///
    /// ```
    /// use pch_pic::{Error, Form, Image, PchPic};
    ///
    /// let older = PchPic::new().save(Form::One);
    /// let newer = Image::converted(&older, Form::Two)?;
    /// assert_eq!(newer.len(), 251);
    /// assert_eq!(Image::converted(&newer, Form::One)?, older);
    /// # Ok::<(), Error>(())
    /// ```
    ///
    /// # Errors
    ///
    /// Those of [`PchPic::load`](crate::PchPic::load).
    pub fn converted(image: &[u8], form: Form) -> Result<Self, Error> {
        let mut bytes = [0; IMAGE2_NUMBERED_LEN];
        outcome::convert(image, &mut bytes[..form.image_len()])?;
        Ok(Image { form, bytes })
    }

    /// The form.
    pub const fn form(&self) -> Form {
        self.form
    }
}

impl Deref for Image {
    type Target = [u8];

    /// The bytes.
    fn deref(&self) -> &[u8] {
        &self.bytes[..self.form.image_len()]
    }
}

impl AsRef<[u8]> for Image {
    /// The bytes.
    fn as_ref(&self) -> &[u8] {
        self
    }
}

impl PartialEq for Image {
    fn eq(&self, other: &Self) -> bool {
        **self == **other
    }
}

impl Eq for Image {}

impl fmt::Debug for Image {
    fn fmt(&self, f: &mut fmt::Formatter<'_>) -> fmt::Result {
        f.debug_struct("Image").field("form", &self.form).field("bytes", &format_args!("{:02x?}", &**self)).finish()
    }
}
