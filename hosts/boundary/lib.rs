//! The C boundary of include/pch_pic.h over the proved text as Rust. `tools/archive --target` builds it for machines that the proved archive is not for.
//!
//! Each call hands what it is lent on to the text's function of the same name, and does nothing else. C has a pointer and a length where Rust has a
//! slice; so unsafe code stands here, and in memory.rs. What makes it sound is what the header asks of every host, under THE HOST'S DUTIES.
#![no_std]
#![deny(unsafe_op_in_unsafe_fn)]

// Where the boundary is part of a program with crate pch-pic, as in the WebAssembly of docs/viewer.html, the text is that crate's, and the rest is std's.
#[cfg(not(over_crate))]
mod memory;
#[cfg(not(over_crate))]
mod stop;
#[cfg(over_crate)]
use pch_pic::calls as text;

// The text made fast, or where that is asked for the plain copy, which is shorter. Both forbid unsafe code.
#[cfg(not(any(plain, over_crate)))]
#[path = "../rust/src/fast/mod.rs"]
mod fast;
#[cfg(all(plain, not(over_crate)))]
#[path = "../rust/src/proved/mod.rs"]
mod proved;

#[cfg(not(any(plain, over_crate)))]
use fast::calls as text;
#[cfg(all(plain, not(over_crate)))]
use proved::calls as text;

/// PCH_PIC_BUILT_BY_RUSTC: what is linked is rustc's code of the proved text. The proved archive has a 1 here.
#[unsafe(no_mangle)]
#[allow(non_upper_case_globals)]
pub static pch_pic_built: u8 = 2;

/// The version: `pch_pic `, what the header says, and zeros. tools/archive reads it there and hands it over.
#[unsafe(no_mangle)]
#[allow(non_upper_case_globals)]
pub static pch_pic_linked: [u8; 24] = linked(concat!("pch_pic ", env!("PCH_PIC_VERSION")).as_bytes());

/// The text with zeros behind it. One that does not fit does not compile.
const fn linked(text: &[u8]) -> [u8; 24] {
    let mut bytes = [0; 24];
    assert!(text.len() < bytes.len());
    let mut place = 0;
    while place < text.len() {
        bytes[place] = text[place];
        place += 1;
    }
    bytes
}

/// A pointer of C, which with its length stands for a slice.
trait Lent {
    type Slice;
    /// # Safety
    /// The pointer is good for as many bytes as the length says until the call ends, and no one else writes them meanwhile; nor reads them, where the
    /// call may write. Where the length is 0 any pointer will do, the null pointer too.
    unsafe fn with(self, length: usize) -> Self::Slice;
}

impl Lent for *const u8 {
    type Slice = &'static [u8];
    unsafe fn with(self, length: usize) -> Self::Slice {
        // SAFETY: the caller says that the bytes are there; no slice begins at the null pointer, and an empty one needs none.
        if length == 0 { &[] } else { unsafe { core::slice::from_raw_parts(self, length) } }
    }
}

impl Lent for *mut u8 {
    type Slice = &'static mut [u8];
    unsafe fn with(self, length: usize) -> Self::Slice {
        // SAFETY: as above, and that no one else has them.
        if length == 0 { &mut [] } else { unsafe { core::slice::from_raw_parts_mut(self, length) } }
    }
}

/// What is passed on: a number as it is, a pointer with its length as a slice.
macro_rules! passed {
    ($number:ident) => {
        $number
    };
    ($pointer:ident, $length:ident) => {
        $pointer.with($length)
    };
}

/// The functions of C. `image with image_len: *mut u8` stands for `image: *mut u8, image_len: usize`.
macro_rules! exported {
    ($($name:ident($($arg:ident $(with $length:ident)?: $kind:ty),*) -> $result:ty;)*) => {$(
        /// # Safety
        /// As include/pch_pic.h says under THE HOST'S DUTIES.
        #[unsafe(no_mangle)]
        pub unsafe extern "C" fn $name($($arg: $kind $(, $length: usize)?),*) -> $result {
            // SAFETY: by the host's duties each pointer is good for its length, and no two areas of a call overlap; the text keeps none of them.
            #[allow(unused_unsafe)]
            unsafe { text::$name($(passed!($arg $(, $length)?)),*) }
        }
    )*};
}

exported! {
    pch_pic_reset(image with image_len: *mut u8, answer with answer_len: *mut u8) -> u8;
    pch_pic_read(image with image_len: *const u8, base: u64, size: u64, address: u64, width: u64, answer with answer_len: *mut u8) -> u8;
    pch_pic_write(image with image_len: *mut u8, base: u64, size: u64, address: u64, width: u64, value: u64, answer with answer_len: *mut u8) -> u8;
    pch_pic_level(image with image_len: *mut u8, input: u64, level: u64, answer with answer_len: *mut u8) -> u8;
    pch_pic_poll(image with image_len: *mut u8, input: u64, answer with answer_len: *mut u8) -> u8;
    pch_pic_drain(image with image_len: *mut u8, events with events_len: *mut u8, place: usize, answer with answer_len: *mut u8) -> u8;
    pch_pic_waiting(image with image_len: *const u8, answer with answer_len: *mut u8) -> u8;
    pch_pic_convert(image with image_len: *const u8, target with target_len: *mut u8, answer with answer_len: *mut u8) -> u8;
    pch_pic_table_read(image with image_len: *const u8, base: u64, size: u64, address: u64, width: u64, answer with answer_len: *mut u8) -> u8;
    pch_pic_table_write(image with image_len: *mut u8, base: u64, size: u64, address: u64, width: u64, value: u64, answer with answer_len: *mut u8) -> u8;
    pch_pic_board_reset(image with image_len: *mut u8, board with board_len: *mut u8, answer with answer_len: *mut u8) -> u8;
    pch_pic_board_read(image with image_len: *const u8, board with board_len: *mut u8, base: u64, size: u64, address: u64, width: u64,
                       answer with answer_len: *mut u8) -> u8;
    pch_pic_board_write(image with image_len: *mut u8, board with board_len: *mut u8, base: u64, size: u64, address: u64, width: u64, value: u64,
                        answer with answer_len: *mut u8) -> u8;
    pch_pic_board_level(image with image_len: *mut u8, board with board_len: *mut u8, input: u64, level: u64, answer with answer_len: *mut u8) -> u8;
    pch_pic_board_poll(image with image_len: *mut u8, board with board_len: *mut u8, input: u64, answer with answer_len: *mut u8) -> u8;
    pch_pic_board_drain(image with image_len: *mut u8, board with board_len: *mut u8, events with events_len: *mut u8, place: usize,
                        answer with answer_len: *mut u8) -> u8;
    pch_pic_board_event(board with board_len: *mut u8, vector: u8, flag: u8, answer with answer_len: *mut u8) -> u8;
    pch_pic_play(trace with trace_len: *const u8, image with image_len: *mut u8, answers with answers_len: *mut u8, events with events_len: *mut u8,
                 answer with answer_len: *mut u8) -> u8;
    pch_pic_play_on(trace with trace_len: *const u8, image with image_len: *mut u8, answers with answers_len: *mut u8, events with events_len: *mut u8,
                    answer with answer_len: *mut u8) -> u8;
    pch_pic_salvage(trace with trace_len: *const u8, kept with kept_len: *mut u8, list with list_len: *mut u8, answer with answer_len: *mut u8) -> u8;
    pch_pic_hoist_reset(image with image_len: *mut u8, phase with phase_len: *mut u8, answer with answer_len: *mut u8) -> u8;
    pch_pic_hoist_read(image with image_len: *const u8, base: u64, size: u64, address: u64, width: u64, answer with answer_len: *mut u8) -> u8;
    pch_pic_hoist_write(image with image_len: *mut u8, phase with phase_len: *const u8, base: u64, size: u64, address: u64, width: u64, value: u64,
                        answer with answer_len: *mut u8) -> u8;
    pch_pic_hoist_end_startup(image with image_len: *const u8, phase with phase_len: *mut u8, answer with answer_len: *mut u8) -> u8;
    pch_pic_sheet(trace with trace_len: *const u8, sheet with sheet_len: *mut u8, answer with answer_len: *mut u8) -> u8;
    pch_pic_tally_begin(tally with tally_len: *mut u8, answer with answer_len: *mut u8) -> u8;
    pch_pic_tally_add(trace with trace_len: *const u8, image with image_len: *const u8, tally with tally_len: *mut u8, answer with answer_len: *mut u8) -> u8;
    pch_pic_tally_sheet(tally with tally_len: *const u8, sheet with sheet_len: *mut u8, answer with answer_len: *mut u8) -> u8;
    pch_pic_difference(later: u16, earlier: u16) -> i16;
}
