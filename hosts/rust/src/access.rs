//! Where and how wide a guest accesses the device.

use crate::{reg, Error};
use core::fmt;

/// The guest-physical addresses of a device: `size` bytes from `base` on.
///
/// The window ends before address 2^64 - 1, and all bytes of an access have to lie inside.
#[derive(Clone, Copy, Debug, PartialEq, Eq, Hash)]
pub struct Window {
    /// The first address.
    pub base: u64,
    /// How many bytes.
    pub size: u64,
}

impl Window {
    /// The window of `size` bytes from `base` on.
    pub const fn new(base: u64, size: u64) -> Self {
        Window { base, size }
    }

    /// The window that just holds the registers.
    pub const fn at(base: u64) -> Self {
        Window::new(base, reg::WINDOW_LEN)
    }
}

/// How many bytes an access has.
#[derive(Clone, Copy, Debug, PartialEq, Eq, Hash)]
pub enum Width {
    /// One byte.
    Byte,
    /// Two bytes: one, and then the other.
    Word,
    /// Four bytes, half a register.
    Dword,
    /// Eight bytes: a Dword, and then the next.
    Qword,
}

impl Width {
    /// The number of bytes.
    pub const fn bytes(self) -> usize {
        match self {
            Width::Byte => 1,
            Width::Word => 2,
            Width::Dword => 4,
            Width::Qword => 8,
        }
    }
}

/// ```
/// assert_eq!(pch_pic::Width::Dword.to_string(), "Dword");
/// ```
impl fmt::Display for Width {
    fn fmt(&self, f: &mut fmt::Formatter<'_>) -> fmt::Result {
        f.pad(match self {
            Width::Byte => "Byte",
            Width::Word => "Word",
            Width::Dword => "Dword",
            Width::Qword => "Qword",
        })
    }
}

impl From<Width> for usize {
    /// The same as [`Width::bytes`].
    fn from(width: Width) -> Self {
        width.bytes()
    }
}

/// ```
/// use pch_pic::{Error, Width};
///
/// assert_eq!(Width::try_from(4), Ok(Width::Dword));
/// assert_eq!(Width::try_from(3), Err(Error::Width));
/// ```
impl TryFrom<usize> for Width {
    type Error = Error;

    fn try_from(bytes: usize) -> Result<Self, Error> {
        match bytes {
            1 => Ok(Width::Byte),
            2 => Ok(Width::Word),
            4 => Ok(Width::Dword),
            8 => Ok(Width::Qword),
            _ => Err(Error::Width),
        }
    }
}
