// Made from crates/pch_pic_hoist/src/tested_dword.rt by tools/portable: do not change it here.
//! The hoist profile's reads and writes, and the end of start-up, on the image alone: what they tell is handed back. The image is tested here, 4, 5, 8 to 11; what
//! comes after is `accepted_dword`.
//! A read and a write stand beside one another: of a closure that made the access nothing would be known of the image that it changed.

use super::super::answer::accepted::accepted;
use super::super::answer::refusals::Refusal;
use super::super::answer::Told;
use super::accepted_dword;
use super::judge::cannot_end;

/// ```text
/// ensures { ends result image.now [] ≡ hoist_ending false (asked.read base size address width) image.now }
/// ```
#[inline]
pub fn read<const N: usize>(
    image: &[u8; N],
    base: u64,
    size: u64,
    address: u64,
    width: u64,
) -> Told {
    let form = accepted(image)?;
    accepted_dword::read(image, base, size, address, width)
}

/// The value that is told is how many events were dropped.
///
/// ```text
/// ensures { ends result image.new [] ≡ hoist_ending running (asked.write base size address width value) image.old }
/// ```
#[inline]
pub fn write<const N: usize>(
    image: &mut [u8; N],
    running: bool,
    base: u64,
    size: u64,
    address: u64,
    width: u64,
    value: u64,
) -> Told {
    let form = accepted(image)?;
    accepted_dword::write(image, running, base, size, address, width, value)
}

/// The image is read alone; the phase is stored where the answer area is known.
///
/// ```text
/// ensures { ends result image.now [] ≡ end_ending running image.now }
/// ```
#[inline]
pub fn end_startup<const N: usize>(image: &[u8; N], running: bool) -> Told {
    let form = accepted(image)?;
    if cannot_end(image, running) {
        return Err(Refusal::Unfit);
    }
    Ok(None)
}
