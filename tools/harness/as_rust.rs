//! The library under test where its Rattle sources are read as Rust, plain (tools/harness/as-rust) or as they ship (--portable): the C shape of the exported calls, over slices.

/// SAFETY: the pointer has so many bytes, or is null and has none.
unsafe fn area<'a>(pointer: *mut u8, len: usize) -> &'a mut [u8] {
    if len == 0 { &mut [] } else { unsafe { std::slice::from_raw_parts_mut(pointer, len) } }
}

pub unsafe fn pch_pic_reset(image: *mut u8, image_len: usize, answer: *mut u8, answer_len: usize) -> u8 {
    unsafe { text::calls::pch_pic_reset(area(image, image_len), area(answer, answer_len)) }
}

pub unsafe fn pch_pic_read(
    image: *const u8,
    image_len: usize,
    base: u64,
    size: u64,
    address: u64,
    width: u64,
    answer: *mut u8,
    answer_len: usize,
) -> u8 {
    unsafe { text::calls::pch_pic_read(area(image.cast_mut(), image_len), base, size, address, width, area(answer, answer_len)) }
}

pub unsafe fn pch_pic_write(
    image: *mut u8,
    image_len: usize,
    base: u64,
    size: u64,
    address: u64,
    width: u64,
    value: u64,
    answer: *mut u8,
    answer_len: usize,
) -> u8 {
    unsafe { text::calls::pch_pic_write(area(image, image_len), base, size, address, width, value, area(answer, answer_len)) }
}

pub unsafe fn pch_pic_level(image: *mut u8, image_len: usize, input: u64, level: u64, answer: *mut u8, answer_len: usize) -> u8 {
    unsafe { text::calls::pch_pic_level(area(image, image_len), input, level, area(answer, answer_len)) }
}

pub unsafe fn pch_pic_poll(image: *mut u8, image_len: usize, input: u64, answer: *mut u8, answer_len: usize) -> u8 {
    unsafe { text::calls::pch_pic_poll(area(image, image_len), input, area(answer, answer_len)) }
}

pub unsafe fn pch_pic_drain(
    image: *mut u8,
    image_len: usize,
    events: *mut u8,
    events_len: usize,
    place: usize,
    answer: *mut u8,
    answer_len: usize,
) -> u8 {
    unsafe { text::calls::pch_pic_drain(area(image, image_len), area(events, events_len), place, area(answer, answer_len)) }
}

pub unsafe fn pch_pic_waiting(image: *const u8, image_len: usize, answer: *mut u8, answer_len: usize) -> u8 {
    unsafe { text::calls::pch_pic_waiting(area(image.cast_mut(), image_len), area(answer, answer_len)) }
}

pub unsafe fn pch_pic_convert(
    image: *const u8,
    image_len: usize,
    target: *mut u8,
    target_len: usize,
    answer: *mut u8,
    answer_len: usize,
) -> u8 {
    unsafe { text::calls::pch_pic_convert(area(image.cast_mut(), image_len), area(target, target_len), area(answer, answer_len)) }
}

pub unsafe fn pch_pic_table_read(
    image: *const u8,
    image_len: usize,
    base: u64,
    size: u64,
    address: u64,
    width: u64,
    answer: *mut u8,
    answer_len: usize,
) -> u8 {
    unsafe { text::calls::pch_pic_table_read(area(image.cast_mut(), image_len), base, size, address, width, area(answer, answer_len)) }
}

pub unsafe fn pch_pic_table_write(
    image: *mut u8,
    image_len: usize,
    base: u64,
    size: u64,
    address: u64,
    width: u64,
    value: u64,
    answer: *mut u8,
    answer_len: usize,
) -> u8 {
    unsafe { text::calls::pch_pic_table_write(area(image, image_len), base, size, address, width, value, area(answer, answer_len)) }
}

pub unsafe fn pch_pic_play(
    trace: *const u8,
    trace_len: usize,
    image: *mut u8,
    image_len: usize,
    answers: *mut u8,
    answers_len: usize,
    events: *mut u8,
    events_len: usize,
    answer: *mut u8,
    answer_len: usize,
) -> u8 {
    unsafe {
        let (image, answers, events) = (area(image, image_len), area(answers, answers_len), area(events, events_len));
        text::calls::pch_pic_play(area(trace.cast_mut(), trace_len), image, answers, events, area(answer, answer_len))
    }
}

pub unsafe fn pch_pic_play_on(
    trace: *const u8,
    trace_len: usize,
    image: *mut u8,
    image_len: usize,
    answers: *mut u8,
    answers_len: usize,
    events: *mut u8,
    events_len: usize,
    answer: *mut u8,
    answer_len: usize,
) -> u8 {
    unsafe {
        let (image, answers, events) = (area(image, image_len), area(answers, answers_len), area(events, events_len));
        text::calls::pch_pic_play_on(area(trace.cast_mut(), trace_len), image, answers, events, area(answer, answer_len))
    }
}

pub unsafe fn pch_pic_salvage(
    trace: *const u8,
    trace_len: usize,
    kept: *mut u8,
    kept_len: usize,
    list: *mut u8,
    list_len: usize,
    answer: *mut u8,
    answer_len: usize,
) -> u8 {
    unsafe {
        text::calls::pch_pic_salvage(
            area(trace.cast_mut(), trace_len),
            area(kept, kept_len),
            area(list, list_len),
            area(answer, answer_len),
        )
    }
}

pub unsafe fn pch_pic_board_reset(
    image: *mut u8,
    image_len: usize,
    board: *mut u8,
    board_len: usize,
    answer: *mut u8,
    answer_len: usize,
) -> u8 {
    unsafe { text::calls::pch_pic_board_reset(area(image, image_len), area(board, board_len), area(answer, answer_len)) }
}

pub unsafe fn pch_pic_board_read(
    image: *const u8,
    image_len: usize,
    board: *mut u8,
    board_len: usize,
    base: u64,
    size: u64,
    address: u64,
    width: u64,
    answer: *mut u8,
    answer_len: usize,
) -> u8 {
    unsafe {
        text::calls::pch_pic_board_read(
            area(image.cast_mut(), image_len),
            area(board, board_len),
            base,
            size,
            address,
            width,
            area(answer, answer_len),
        )
    }
}

pub unsafe fn pch_pic_board_write(
    image: *mut u8,
    image_len: usize,
    board: *mut u8,
    board_len: usize,
    base: u64,
    size: u64,
    address: u64,
    width: u64,
    value: u64,
    answer: *mut u8,
    answer_len: usize,
) -> u8 {
    unsafe {
        text::calls::pch_pic_board_write(
            area(image, image_len),
            area(board, board_len),
            base,
            size,
            address,
            width,
            value,
            area(answer, answer_len),
        )
    }
}

pub unsafe fn pch_pic_board_level(
    image: *mut u8,
    image_len: usize,
    board: *mut u8,
    board_len: usize,
    input: u64,
    level: u64,
    answer: *mut u8,
    answer_len: usize,
) -> u8 {
    unsafe { text::calls::pch_pic_board_level(area(image, image_len), area(board, board_len), input, level, area(answer, answer_len)) }
}

pub unsafe fn pch_pic_board_poll(
    image: *mut u8,
    image_len: usize,
    board: *mut u8,
    board_len: usize,
    input: u64,
    answer: *mut u8,
    answer_len: usize,
) -> u8 {
    unsafe { text::calls::pch_pic_board_poll(area(image, image_len), area(board, board_len), input, area(answer, answer_len)) }
}

pub unsafe fn pch_pic_board_drain(
    image: *mut u8,
    image_len: usize,
    board: *mut u8,
    board_len: usize,
    events: *mut u8,
    events_len: usize,
    place: usize,
    answer: *mut u8,
    answer_len: usize,
) -> u8 {
    unsafe {
        text::calls::pch_pic_board_drain(
            area(image, image_len),
            area(board, board_len),
            area(events, events_len),
            place,
            area(answer, answer_len),
        )
    }
}

pub unsafe fn pch_pic_board_event(board: *mut u8, board_len: usize, vector: u8, flag: u8, answer: *mut u8, answer_len: usize) -> u8 {
    unsafe { text::calls::pch_pic_board_event(area(board, board_len), vector, flag, area(answer, answer_len)) }
}

pub unsafe fn pch_pic_hoist_reset(
    image: *mut u8,
    image_len: usize,
    phase: *mut u8,
    phase_len: usize,
    answer: *mut u8,
    answer_len: usize,
) -> u8 {
    unsafe { text::calls::pch_pic_hoist_reset(area(image, image_len), area(phase, phase_len), area(answer, answer_len)) }
}

pub unsafe fn pch_pic_hoist_read(
    image: *const u8,
    image_len: usize,
    base: u64,
    size: u64,
    address: u64,
    width: u64,
    answer: *mut u8,
    answer_len: usize,
) -> u8 {
    unsafe { text::calls::pch_pic_hoist_read(area(image.cast_mut(), image_len), base, size, address, width, area(answer, answer_len)) }
}

pub unsafe fn pch_pic_hoist_write(
    image: *mut u8,
    image_len: usize,
    phase: *const u8,
    phase_len: usize,
    base: u64,
    size: u64,
    address: u64,
    width: u64,
    value: u64,
    answer: *mut u8,
    answer_len: usize,
) -> u8 {
    unsafe {
        text::calls::pch_pic_hoist_write(
            area(image, image_len),
            area(phase.cast_mut(), phase_len),
            base,
            size,
            address,
            width,
            value,
            area(answer, answer_len),
        )
    }
}

pub unsafe fn pch_pic_hoist_end_startup(
    image: *const u8,
    image_len: usize,
    phase: *mut u8,
    phase_len: usize,
    answer: *mut u8,
    answer_len: usize,
) -> u8 {
    unsafe { text::calls::pch_pic_hoist_end_startup(area(image.cast_mut(), image_len), area(phase, phase_len), area(answer, answer_len)) }
}

pub unsafe fn pch_pic_sheet(
    trace: *const u8,
    trace_len: usize,
    sheet: *mut u8,
    sheet_len: usize,
    answer: *mut u8,
    answer_len: usize,
) -> u8 {
    unsafe { text::calls::pch_pic_sheet(area(trace.cast_mut(), trace_len), area(sheet, sheet_len), area(answer, answer_len)) }
}

pub unsafe fn pch_pic_tally_begin(tally: *mut u8, tally_len: usize, answer: *mut u8, answer_len: usize) -> u8 {
    unsafe { text::calls::pch_pic_tally_begin(area(tally, tally_len), area(answer, answer_len)) }
}

#[allow(clippy::too_many_arguments)]
pub unsafe fn pch_pic_tally_add(
    trace: *const u8,
    trace_len: usize,
    image: *const u8,
    image_len: usize,
    tally: *mut u8,
    tally_len: usize,
    answer: *mut u8,
    answer_len: usize,
) -> u8 {
    unsafe {
        text::calls::pch_pic_tally_add(
            area(trace.cast_mut(), trace_len),
            area(image.cast_mut(), image_len),
            area(tally, tally_len),
            area(answer, answer_len),
        )
    }
}

pub unsafe fn pch_pic_tally_sheet(
    tally: *const u8,
    tally_len: usize,
    sheet: *mut u8,
    sheet_len: usize,
    answer: *mut u8,
    answer_len: usize,
) -> u8 {
    unsafe { text::calls::pch_pic_tally_sheet(area(tally.cast_mut(), tally_len), area(sheet, sheet_len), area(answer, answer_len)) }
}

pub unsafe fn pch_pic_difference(later: u16, earlier: u16) -> i16 {
    text::calls::pch_pic_difference(later, earlier)
}
