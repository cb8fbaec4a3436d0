//! The calls of libpch_pic.a (include/pch_pic.h) over slices, for feature `archive`. All that is unsafe in the crate stands here.
//!
//! What the library asks of its host holds by the types: a slice's length is true, and a mutable slice overlaps no other. So a call that
//! changes an image is alone with it. Reads and conversions of one image may run side by side, and `PchPic` may be `Sync`: `pch_pic_read`,
//! `pch_pic_board_read`, `pch_pic_table_read`, `pch_pic_hoist_read`, `pch_pic_waiting` and `pch_pic_convert` get the image as `const` and only load from it, write to nothing but
//! what they are lent to write, and the library has no memory of its own.

/// Each line is a call as the header has it, a slice for each pointer and its length. A shared slice is only read.
macro_rules! linked {
    ($($(#[$doc:meta])* fn $name:ident($($argument:tt)*);)*) => {
        $(linked!(@ $name [$(#[$doc])*] [] [] [] $($argument)*,);)*
    };
    (@ $name:ident $doc:tt [$($taken:tt)*] [$($lent:tt)*] [$($passed:tt)*] $slice:ident: &[u8], $($rest:tt)*) => {
        linked!(@ $name $doc [$($taken)* $slice: &[u8],] [$($lent)* _: *const u8, _: usize,] [$($passed)* $slice.as_ptr(), $slice.len(),] $($rest)*);
    };
    (@ $name:ident $doc:tt [$($taken:tt)*] [$($lent:tt)*] [$($passed:tt)*] $slice:ident: &mut [u8], $($rest:tt)*) => {
        linked!(@ $name $doc [$($taken)* $slice: &mut [u8],] [$($lent)* _: *mut u8, _: usize,] [$($passed)* $slice.as_mut_ptr(), $slice.len(),] $($rest)*);
    };
    (@ $name:ident $doc:tt [$($taken:tt)*] [$($lent:tt)*] [$($passed:tt)*] $number:ident: $kind:ty, $($rest:tt)*) => {
        linked!(@ $name $doc [$($taken)* $number: $kind,] [$($lent)* _: $kind,] [$($passed)* $number,] $($rest)*);
    };
    (@ $name:ident [$($doc:tt)*] [$($taken:tt)*] [$($lent:tt)*] [$($passed:tt)*]) => {
        $($doc)*
        pub fn $name($($taken)*) -> u8 {
            extern "C" {
                fn $name($($lent)*) -> u8;
            }
            // SAFETY: the slices are valid for their lengths and apart, and the library only reads the shared ones.
            unsafe { $name($($passed)*) }
        }
    };
}

linked! {
    /// A reset of the image.
    fn pch_pic_reset(image: &mut [u8], answer: &mut [u8]);
    /// What the guest reads.
    fn pch_pic_read(image: &[u8], base: u64, size: u64, address: u64, width: u64, answer: &mut [u8]);
    /// The guest writes.
    fn pch_pic_write(image: &mut [u8], base: u64, size: u64, address: u64, width: u64, value: u64, answer: &mut [u8]);
    /// A line goes up, or with level 0 down.
    fn pch_pic_level(image: &mut [u8], input: u64, level: u64, answer: &mut [u8]);
    /// An input is asked for.
    fn pch_pic_poll(image: &mut [u8], input: u64, answer: &mut [u8]);
    /// Waiting events are moved out.
    fn pch_pic_drain(image: &mut [u8], events: &mut [u8], place: usize, answer: &mut [u8]);
    /// Who waits.
    fn pch_pic_waiting(image: &[u8], answer: &mut [u8]);
    /// The read, decoded by the table.
    fn pch_pic_table_read(image: &[u8], base: u64, size: u64, address: u64, width: u64, answer: &mut [u8]);
    /// The write, decoded by the table.
    fn pch_pic_table_write(image: &mut [u8], base: u64, size: u64, address: u64, width: u64, value: u64, answer: &mut [u8]);
    /// The reset, with a board.
    fn pch_pic_board_reset(image: &mut [u8], board: &mut [u8], answer: &mut [u8]);
    /// The read, with a board.
    fn pch_pic_board_read(image: &[u8], board: &mut [u8], base: u64, size: u64, address: u64, width: u64, answer: &mut [u8]);
    /// The write, with a board.
    fn pch_pic_board_write(image: &mut [u8], board: &mut [u8], base: u64, size: u64, address: u64, width: u64, value: u64, answer: &mut [u8]);
    /// The level, with a board.
    fn pch_pic_board_level(image: &mut [u8], board: &mut [u8], input: u64, level: u64, answer: &mut [u8]);
    /// The poll, with a board.
    fn pch_pic_board_poll(image: &mut [u8], board: &mut [u8], input: u64, answer: &mut [u8]);
    /// The drain, with a board.
    fn pch_pic_board_drain(image: &mut [u8], board: &mut [u8], events: &mut [u8], place: usize, answer: &mut [u8]);
    /// A board hears an event.
    fn pch_pic_board_event(board: &mut [u8], vector: u8, flag: u8, answer: &mut [u8]);
    /// An image in another form.
    fn pch_pic_convert(image: &[u8], target: &mut [u8], answer: &mut [u8]);
    /// A trace is played from a reset.
    fn pch_pic_play(trace: &[u8], image: &mut [u8], answers: &mut [u8], events: &mut [u8], answer: &mut [u8]);
    /// A trace is played on from the image as it is.
    fn pch_pic_play_on(trace: &[u8], image: &mut [u8], answers: &mut [u8], events: &mut [u8], answer: &mut [u8]);
    /// The whole blocks of a damaged trace.
    fn pch_pic_salvage(trace: &[u8], kept: &mut [u8], list: &mut [u8], answer: &mut [u8]);
    /// The reset, under the hoist profile.
    fn pch_pic_hoist_reset(image: &mut [u8], phase: &mut [u8], answer: &mut [u8]);
    /// The read, under the hoist profile.
    fn pch_pic_hoist_read(image: &[u8], base: u64, size: u64, address: u64, width: u64, answer: &mut [u8]);
    /// The write, under the hoist profile.
    fn pch_pic_hoist_write(image: &mut [u8], phase: &[u8], base: u64, size: u64, address: u64, width: u64, value: u64, answer: &mut [u8]);
    /// Start-up ends.
    fn pch_pic_hoist_end_startup(image: &[u8], phase: &mut [u8], answer: &mut [u8]);
    /// A day is counted.
    fn pch_pic_sheet(trace: &[u8], sheet: &mut [u8], answer: &mut [u8]);
    /// A tally that has counted nothing.
    fn pch_pic_tally_begin(tally: &mut [u8], answer: &mut [u8]);
    /// The records of a trace are counted into a tally.
    fn pch_pic_tally_add(trace: &[u8], image: &[u8], tally: &mut [u8], answer: &mut [u8]);
    /// The sheet of a tally.
    fn pch_pic_tally_sheet(tally: &[u8], sheet: &mut [u8], answer: &mut [u8]);
}

/// Which kind of archive is linked, as it says itself: 1 is the machine code of what is proved.
pub(crate) fn kind() -> u8 {
    extern "C" {
        static pch_pic_built: u8;
    }
    // SAFETY: it is a constant of the archive, which nothing writes.
    unsafe { pch_pic_built }
}

/// The version of the archive that is linked, as it says itself: `pch_pic ` stands before it, and zeros behind.
pub(crate) fn version() -> &'static str {
    extern "C" {
        static pch_pic_linked: [u8; 24];
    }
    // SAFETY: it is a constant of the archive, which nothing writes.
    let text = unsafe { &pch_pic_linked };
    core::ffi::CStr::from_bytes_until_nul(text).ok().and_then(|text| text.to_str().ok()?.strip_prefix("pch_pic ")).unwrap_or("")
}

/// How far a number of an event is ahead of another.
pub fn pch_pic_difference(later: u16, earlier: u16) -> i16 {
    extern "C" {
        fn pch_pic_difference(later: u16, earlier: u16) -> i16;
    }
    // SAFETY: it is lent nothing.
    unsafe { pch_pic_difference(later, earlier) }
}
