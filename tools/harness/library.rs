//! The library under test, as C sees it: a slice is a pointer and then a length. Linked from libpch_pic.a; in WebAssembly the boundary is
//! another crate of the same module.

#[cfg_attr(not(target_arch = "wasm32"), link(name = "pch_pic", kind = "static"))]
unsafe extern "C" {
    pub fn pch_pic_reset(image: *mut u8, image_len: usize, answer: *mut u8, answer_len: usize) -> u8;
    pub fn pch_pic_read(
        image: *const u8,
        image_len: usize,
        base: u64,
        size: u64,
        address: u64,
        width: u64,
        answer: *mut u8,
        answer_len: usize,
    ) -> u8;
    pub fn pch_pic_write(
        image: *mut u8,
        image_len: usize,
        base: u64,
        size: u64,
        address: u64,
        width: u64,
        value: u64,
        answer: *mut u8,
        answer_len: usize,
    ) -> u8;
    pub fn pch_pic_level(image: *mut u8, image_len: usize, input: u64, level: u64, answer: *mut u8, answer_len: usize) -> u8;
    pub fn pch_pic_poll(image: *mut u8, image_len: usize, input: u64, answer: *mut u8, answer_len: usize) -> u8;
    pub fn pch_pic_drain(
        image: *mut u8,
        image_len: usize,
        events: *mut u8,
        events_len: usize,
        place: usize,
        answer: *mut u8,
        answer_len: usize,
    ) -> u8;
    pub fn pch_pic_waiting(image: *const u8, image_len: usize, answer: *mut u8, answer_len: usize) -> u8;
    pub fn pch_pic_convert(
        image: *const u8,
        image_len: usize,
        target: *mut u8,
        target_len: usize,
        answer: *mut u8,
        answer_len: usize,
    ) -> u8;
    pub fn pch_pic_table_read(
        image: *const u8,
        image_len: usize,
        base: u64,
        size: u64,
        address: u64,
        width: u64,
        answer: *mut u8,
        answer_len: usize,
    ) -> u8;
    pub fn pch_pic_table_write(
        image: *mut u8,
        image_len: usize,
        base: u64,
        size: u64,
        address: u64,
        width: u64,
        value: u64,
        answer: *mut u8,
        answer_len: usize,
    ) -> u8;
    pub fn pch_pic_play(
        trace: *const u8,
        trace_len: usize,
        image: *mut u8,
        image_len: usize,
        answers: *mut u8,
        answers_len: usize,
        events: *mut u8,
        events_len: usize,
        answer: *mut u8,
        answer_len: usize,
    ) -> u8;
    pub fn pch_pic_play_on(
        trace: *const u8,
        trace_len: usize,
        image: *mut u8,
        image_len: usize,
        answers: *mut u8,
        answers_len: usize,
        events: *mut u8,
        events_len: usize,
        answer: *mut u8,
        answer_len: usize,
    ) -> u8;
    pub fn pch_pic_salvage(
        trace: *const u8,
        trace_len: usize,
        kept: *mut u8,
        kept_len: usize,
        list: *mut u8,
        list_len: usize,
        answer: *mut u8,
        answer_len: usize,
    ) -> u8;
    pub fn pch_pic_board_reset(
        image: *mut u8,
        image_len: usize,
        board: *mut u8,
        board_len: usize,
        answer: *mut u8,
        answer_len: usize,
    ) -> u8;
    pub fn pch_pic_board_read(
        image: *const u8,
        image_len: usize,
        board: *mut u8,
        board_len: usize,
        base: u64,
        size: u64,
        address: u64,
        width: u64,
        answer: *mut u8,
        answer_len: usize,
    ) -> u8;
    pub fn pch_pic_board_write(
        image: *mut u8,
        image_len: usize,
        board: *mut u8,
        board_len: usize,
        base: u64,
        size: u64,
        address: u64,
        width: u64,
        value: u64,
        answer: *mut u8,
        answer_len: usize,
    ) -> u8;
    pub fn pch_pic_board_level(
        image: *mut u8,
        image_len: usize,
        board: *mut u8,
        board_len: usize,
        input: u64,
        level: u64,
        answer: *mut u8,
        answer_len: usize,
    ) -> u8;
    pub fn pch_pic_board_poll(
        image: *mut u8,
        image_len: usize,
        board: *mut u8,
        board_len: usize,
        input: u64,
        answer: *mut u8,
        answer_len: usize,
    ) -> u8;
    pub fn pch_pic_board_drain(
        image: *mut u8,
        image_len: usize,
        board: *mut u8,
        board_len: usize,
        events: *mut u8,
        events_len: usize,
        place: usize,
        answer: *mut u8,
        answer_len: usize,
    ) -> u8;
    pub fn pch_pic_board_event(board: *mut u8, board_len: usize, vector: u8, flag: u8, answer: *mut u8, answer_len: usize) -> u8;
    pub fn pch_pic_hoist_reset(
        image: *mut u8,
        image_len: usize,
        phase: *mut u8,
        phase_len: usize,
        answer: *mut u8,
        answer_len: usize,
    ) -> u8;
    pub fn pch_pic_hoist_read(
        image: *const u8,
        image_len: usize,
        base: u64,
        size: u64,
        address: u64,
        width: u64,
        answer: *mut u8,
        answer_len: usize,
    ) -> u8;
    pub fn pch_pic_hoist_write(
        image: *mut u8,
        image_len: usize,
        phase: *const u8,
        phase_len: usize,
        base: u64,
        size: u64,
        address: u64,
        width: u64,
        value: u64,
        answer: *mut u8,
        answer_len: usize,
    ) -> u8;
    pub fn pch_pic_hoist_end_startup(
        image: *const u8,
        image_len: usize,
        phase: *mut u8,
        phase_len: usize,
        answer: *mut u8,
        answer_len: usize,
    ) -> u8;
    pub fn pch_pic_sheet(trace: *const u8, trace_len: usize, sheet: *mut u8, sheet_len: usize, answer: *mut u8, answer_len: usize) -> u8;
    pub fn pch_pic_tally_begin(tally: *mut u8, tally_len: usize, answer: *mut u8, answer_len: usize) -> u8;
    pub fn pch_pic_tally_add(
        trace: *const u8,
        trace_len: usize,
        image: *const u8,
        image_len: usize,
        tally: *mut u8,
        tally_len: usize,
        answer: *mut u8,
        answer_len: usize,
    ) -> u8;
    pub fn pch_pic_tally_sheet(
        tally: *const u8,
        tally_len: usize,
        sheet: *mut u8,
        sheet_len: usize,
        answer: *mut u8,
        answer_len: usize,
    ) -> u8;
    pub fn pch_pic_difference(later: u16, earlier: u16) -> i16;
}
