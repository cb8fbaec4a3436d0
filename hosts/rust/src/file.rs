//! A device in a file, which is replaced whole or not at all.
//!
//! A file has 8 bytes of magic, the image's length (4 bytes), the image, and a checksum of all before it (4 bytes); numbers have the
//! little end first. What is kept with the device stands behind the image and counts in the length: of a [`Hoist`] that is its phase, one byte.
//! The checksum is the usual CRC-32, as in gzip. `hosts/c/pic_file.c` writes and reads the same files. A file of any form is
//! loaded, those of older hosts too; hosts of before version 0.8.0 do not load [`Form::Numbered`], and those of before 0.6.0 load form 1 alone.
//!
//! ```
//! use pch_pic::{file, Form, PchPic, Wires};
//!
//! # let folder = std::env::temp_dir().join(format!("pch-pic-{}", std::process::id()));
//! # std::fs::create_dir_all(&folder)?;
//! # let path = folder.join("device");
//! file::save(&PchPic::new(), Form::Numbered, &path)?;
//! let mut pic = file::load(&path)?;
//! let high = 0; // the lines as the host's other devices hold them now
//! Wires::new().resume(&mut pic, high, |change| println!("{change}"));
//! # std::fs::remove_dir_all(&folder)?;
//! # Ok::<(), Box<dyn std::error::Error>>(())
//! ```

use crate::replace::{open_plain, replace};
use crate::{contents, Device, Error, Form, Hoist, PchPic, Phase};
use core::fmt;
use std::io::{self, Read};
use std::path::Path;

const MAGIC: &[u8; 8] = b"PCH-PIC\n";
const HEAD_LEN: usize = MAGIC.len() + 4;
const SUM_LEN: usize = 4;
/// No saved device has more bytes, of whatever form it is.
const MOST: u64 = 4096;

/// Why a device could not be loaded from a file.
#[derive(Debug)]
#[non_exhaustive]
pub enum LoadError {
    /// The file cannot be read.
    Io(io::Error),
    /// The file is no saved PCH-PIC.
    Foreign,
    /// The file is shorter or longer than it says.
    Torn,
    /// The file's checksum is not that of its bytes.
    Damaged,
    /// The file is whole, and the library refuses its image.
    Image(Error),
}

impl fmt::Display for LoadError {
    fn fmt(&self, f: &mut fmt::Formatter<'_>) -> fmt::Result {
        match self {
            LoadError::Io(why) => why.fmt(f),
            LoadError::Foreign => f.write_str("the file is no saved PCH-PIC"),
            LoadError::Torn => f.write_str("the file is damaged: it is shorter or longer than it says"),
            LoadError::Damaged => f.write_str("the file is damaged: its checksum is not that of its bytes"),
            LoadError::Image(why) => why.fmt(f),
        }
    }
}

impl std::error::Error for LoadError {
    fn source(&self) -> Option<&(dyn std::error::Error + 'static)> {
        match self {
            LoadError::Io(why) => Some(why),
            LoadError::Image(why) => Some(why),
            _ => None,
        }
    }
}

impl From<io::Error> for LoadError {
    fn from(why: io::Error) -> Self {
        LoadError::Io(why)
    }
}

impl From<Error> for LoadError {
    fn from(why: Error) -> Self {
        LoadError::Image(why)
    }
}

fn checksum(bytes: &[u8]) -> u32 {
    !bytes
        .iter()
        .fold(u32::MAX, |sum, byte| (0..8).fold(sum ^ u32::from(*byte), |sum, _| sum >> 1 ^ if sum & 1 == 1 { 0xedb8_8320 } else { 0 }))
}

/// The file's bytes.
fn sealed(image: &[u8]) -> Vec<u8> {
    let mut bytes = MAGIC.to_vec();
    bytes.extend((image.len() as u32).to_le_bytes());
    bytes.extend(image);
    bytes.extend(checksum(&bytes).to_le_bytes());
    bytes
}

/// A file's bytes. More is asked for than a device has, so that a longer file is seen.
fn read(path: &Path) -> io::Result<Vec<u8>> {
    let mut bytes = Vec::new();
    open_plain(path)?.take(MOST).read_to_end(&mut bytes)?;
    Ok(bytes)
}

/// The image in a file's bytes.
fn opened(bytes: &[u8]) -> Result<&[u8], LoadError> {
    let rest = bytes.strip_prefix(MAGIC).ok_or(LoadError::Foreign)?;
    let image = bytes.get(HEAD_LEN..bytes.len().saturating_sub(SUM_LEN)).ok_or(LoadError::Torn)?;
    if contents::number(&rest[..4]) != image.len() as u64 {
        return Err(LoadError::Torn);
    }
    let (summed, sum) = bytes.split_at(bytes.len() - SUM_LEN);
    if contents::number(sum) != u64::from(checksum(summed)) {
        return Err(LoadError::Damaged);
    }
    Ok(image)
}

/// Saves a device in this form. The file is replaced whole or not at all.
///
/// Several may save one file at once: the last one wins. The old file's mode and, where the system allows it, its owner stay; a symbolic link is followed.
/// Who is killed on the way leaves a file `.pch-pic-*.new` beside it, which nobody needs.
///
/// # Errors
///
/// Those of the file system; and what is there and no plain file is not replaced.
pub fn save(pic: &PchPic, form: Form, path: impl AsRef<Path>) -> io::Result<()> {
    replace(path.as_ref(), &sealed(&pic.save(form))).map(drop)
}

/// Loads a device from a file of any form. What comes next is [`Wires::resume`](crate::Wires::resume).
///
/// # Errors
///
/// A [`LoadError`], where it is no plain file or cannot be read, is damaged, or holds an image that the library refuses.
pub fn load(path: impl AsRef<Path>) -> Result<PchPic, LoadError> {
    Ok(PchPic::try_from(opened(&read(path.as_ref())?)?)?)
}

/// Saves a hoist's device in this form, with its phase, as [`save`] does.
///
/// ```
/// use pch_pic::{file, Form, Hoist, Phase};
///
/// # let folder = std::env::temp_dir().join(format!("pch-pic-hoist-{}", std::process::id()));
/// # std::fs::create_dir_all(&folder)?;
/// # let path = folder.join("hoist");
/// let mut hoist = Hoist::new();
/// hoist.end_startup()?;
/// file::save_hoist(&hoist, Form::Numbered, &path)?;
/// assert_eq!(file::load_hoist(&path)?.phase(), Phase::Running);
/// # std::fs::remove_dir_all(&folder)?;
/// # Ok::<(), Box<dyn std::error::Error>>(())
/// ```
///
/// # Errors
///
/// As [`save`].
pub fn save_hoist(hoist: &Hoist, form: Form, path: impl AsRef<Path>) -> io::Result<()> {
    let phase = u8::from(hoist.phase() == Phase::Running);
    replace(path.as_ref(), &sealed(&[&hoist.pic().save(form)[..], &[phase]].concat())).map(drop)
}

/// Loads a hoist's device with its phase. A file that [`save`] made has none, and is refused; so does [`load`] refuse a hoist's.
///
/// # Errors
///
/// As [`load`]; [`Error::Length`] where there is no phase in it.
pub fn load_hoist(path: impl AsRef<Path>) -> Result<Hoist, LoadError> {
    let bytes = read(path.as_ref())?;
    let (phase, image) = opened(&bytes)?.split_last().ok_or(Error::Length)?;
    let phase = if *phase == 0 { Phase::StartUp } else { Phase::Running };
    Ok(Hoist::from_parts(PchPic::try_from(image)?, phase))
}

#[cfg(test)]
mod tests {
    use super::*;

    #[test]
    fn the_checksum_is_the_usual_one() {
        assert_eq!(checksum(b"123456789"), 0xcbf4_3926);
    }

    #[test]
    fn what_is_sealed_is_opened() {
        for len in [0, 1, 251, 259, 290] {
            assert_eq!(opened(&sealed(&vec![0xa5; len])).unwrap(), vec![0xa5; len]);
        }
    }

    #[test]
    fn a_changed_byte_is_found() {
        let saved = sealed(&PchPic::new().save(Form::Numbered));
        for place in 0..saved.len() {
            let mut bytes = saved.clone();
            bytes[place] ^= 1 << (place % 8);
            match opened(&bytes) {
                Err(LoadError::Foreign) => assert!(place < 8),
                Err(LoadError::Torn) => assert!((8..12).contains(&place)),
                Err(LoadError::Damaged) => assert!(place >= 12),
                other => panic!("{place}: {other:?}"),
            }
        }
    }

    #[test]
    fn so_is_another_length() {
        let mut saved = sealed(&PchPic::new().save(Form::One));
        for len in 0..saved.len() {
            let want = if len < 8 { "Foreign" } else { "Torn" };
            assert_eq!(format!("{:?}", opened(&saved[..len]).unwrap_err()), want, "{len}");
        }
        saved.push(0);
        assert!(matches!(opened(&saved), Err(LoadError::Torn)));
    }
}
