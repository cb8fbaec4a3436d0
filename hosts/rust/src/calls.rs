//! The calls as C has them, over slices: `include/pch_pic.h` of the repository tells each. The rest of the crate is types around them.
//!
//! Each is lent an answer area of at least 16 bytes and hands back a number: 0 where it was done, else why it was refused ([`Error`](crate::Error) has the
//! numbers). None requires anything of its bytes, numbers and lengths, and none panics, whatever they are.
//!
//! ```
//! use pch_pic::calls::{pch_pic_read, pch_pic_reset};
//!
//! let (mut image, mut answer) = ([0; pch_pic::IMAGE_LEN], [0; 16]);
//! assert_eq!(pch_pic_reset(&mut image, &mut answer), 0);
//! assert_eq!(pch_pic_read(&image, 0, 0x400, pch_pic::reg::ID, 4, &mut answer), 0);
//! assert_eq!(answer[8..], [0, 0, 0, 7, 0, 0, 0, 0]);
//! assert_eq!(pch_pic_read(&image, 0, 0x400, 0x400, 4, &mut answer), 1); // outside
//! assert_eq!(pch_pic_read(&image[1..], 0, 0x400, 0, 4, &mut answer), 4); // no form has 258 bytes
//! assert_eq!(pch_pic_read(&image, 0, 0x400, 0, 4, &mut []), 7); // no room for the answer
//! ```
//!
//! - `pch_pic_reset`, `_read`, `_write`, `_level`, `_poll` and `_drain` are the device, on its image, and `pch_pic_waiting` tells who waits in it.
//! - `pch_pic_board_reset` and so on are the same six with a board beside the image, and `pch_pic_board_event` counts an event on a board alone.
//! - `pch_pic_table_read` and `_write` are decoded by the table of registers, and answer the same.
//! - `pch_pic_hoist_reset`, `_read`, `_write` and `_end_startup` hold a guest to the hoist profile.
//! - `pch_pic_convert` moves an image to another form.
//! - `pch_pic_play`, `_play_on`, `_salvage` and `_sheet` take a trace.
//! - `pch_pic_tally_begin`, `_add` and `_sheet` count a day of several traces.
//! - `pch_pic_difference` tells how far one number of an event is ahead of another.
//!
//! What a call is proved to do stands with it, as the proof has it: `ensures` says what holds after it.

// The one place that picks who does the work; `built` tells it.
#[cfg(feature = "archive")]
#[doc(inline)]
pub use crate::archive::*;
#[cfg(not(any(feature = "archive", feature = "plain")))]
#[doc(inline)]
pub use crate::fast::calls::*;
#[cfg(all(feature = "plain", not(feature = "archive")))]
#[doc(inline)]
pub use crate::proved::calls::*;

#[cfg(test)]
mod tests {
    use super::*;

    /// The path of a function tells which module it stands in.
    #[test]
    fn the_one_that_was_asked_for_does_the_work() {
        let wanted = match (cfg!(feature = "archive"), cfg!(feature = "plain")) {
            (true, _) => "pch_pic::archive::",
            (false, true) => "pch_pic::proved::",
            (false, false) => "pch_pic::fast::",
        };
        for path in [core::any::type_name_of_val(&pch_pic_read), core::any::type_name_of_val(&pch_pic_sheet)] {
            assert!(path.starts_with(wanted), "{path}");
        }
    }
}
