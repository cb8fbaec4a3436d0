// Made from crates/six_calls/src/tested_access.rt by tools/portable: do not change it here.
//! Reads and writes through the window, on the image alone: what they tell is handed back. The image is tested here, 4, 5, 8 to 11; what comes after is `accepted_access`.
//! A read and a write stand beside one another: of a closure that made the access nothing would be known of the image that it changed.

use super::super::answer::accepted::accepted;
use super::super::answer::Told;
use super::accepted_access;

/// ```text
/// ensures { ends result image.now [] ≡ ending (asked.read base size address width) image.now }
/// ```
pub fn read(image: &[u8], base: u64, size: u64, address: u64, width: u64) -> Told {
    let form = accepted(image)?;
    accepted_access::read(image, form, base, size, address, width)
}

/// The value that is told is how many events were dropped.
///
/// ```text
/// ensures { ends result image.new [] ≡ ending (asked.write base size address width value) image.old }
/// ```
pub fn write(image: &mut [u8], base: u64, size: u64, address: u64, width: u64, value: u64) -> Told {
    let form = accepted(image)?;
    accepted_access::write(image, form, base, size, address, width, value)
}
