//! Who does the work.

use core::fmt;

/// What does the work of the [calls](crate::calls). [`built`](built()) tells it.
#[derive(Clone, Copy, Debug, PartialEq, Eq, Hash)]
#[non_exhaustive]
pub enum Built {
    /// Machine code that the kit made of what it has proved: feature `archive`, with the `libpch_pic.a` of `tools/archive`.
    Archive,
    /// What rustc made of the proved text: the default. An archive for another machine is of this kind too.
    Rustc,
}

/// ```
/// use pch_pic::Built;
///
/// assert_eq!(Built::Archive.to_string(), "proved machine code");
/// assert_eq!(Built::Rustc.to_string(), "rustc's of the proved text");
/// ```
impl fmt::Display for Built {
    fn fmt(&self, f: &mut fmt::Formatter<'_>) -> fmt::Result {
        f.pad(match self {
            Built::Archive => "proved machine code",
            Built::Rustc => "rustc's of the proved text",
        })
    }
}

/// What does the work in this build. An archive that is linked says it itself.
///
/// ```
/// println!("the interrupt controller is {}", pch_pic::built());
/// ```
#[must_use]
pub fn built() -> Built {
    #[cfg(feature = "archive")]
    if crate::archive::kind() == PROVED {
        return Built::Archive;
    }
    Built::Rustc
}

/// The version of this crate, which is that of the C header too.
///
/// ```
/// const VERSION: &str = pch_pic::version();
/// assert_eq!(VERSION, pch_pic::linked_version());
/// ```
#[must_use]
pub const fn version() -> &'static str {
    env!("CARGO_PKG_VERSION")
}

/// The version of what does the work. An archive that is linked says it itself, and is of the crate's minor version, or the crate does not build; what rustc makes
/// of the text is the crate's own.
#[must_use]
pub fn linked_version() -> &'static str {
    #[cfg(feature = "archive")]
    return crate::archive::version();
    #[cfg(not(feature = "archive"))]
    version()
}

/// `PCH_PIC_BUILT_PROVED` of the header.
#[cfg(feature = "archive")]
const PROVED: u8 = 1;

#[cfg(test)]
mod tests {
    use super::*;

    /// The tests are run with the archive that is proved.
    #[test]
    fn the_one_that_is_linked_is_told() {
        assert_eq!(built(), if cfg!(feature = "archive") { Built::Archive } else { Built::Rustc });
    }

    /// Crate and archive are made of the same repository.
    #[test]
    fn its_version_is_the_crates() {
        assert_eq!(linked_version(), version());
    }
}
