//! A stand-in for the library under test: the C calls over the published Rust, by the same boundary that the harness expects. It shows
//! that the harness runs without a proved library at hand, and tools/mutants breaks copies of it to show that the harness catches them.

// the modules are shared with the harness, and not all of each is used here
#![allow(dead_code)]

mod board;
mod boundary;
mod call;
mod hoist;
mod image;
mod numbers;
mod played;
mod salvaged;
mod sheet;
mod tally;
mod told;
mod trace;

use boundary::Boundary;
use call::{Call, From};
use std::cell::RefCell;

thread_local! {
    static DEVICE: RefCell<Boundary> = RefCell::new(Boundary::new());
}

/// SAFETY: the pointer has so many bytes, or is null and has none.
unsafe fn area<'a>(pointer: *mut u8, len: usize) -> &'a mut [u8] {
    if len == 0 { &mut [] } else { unsafe { std::slice::from_raw_parts_mut(pointer, len) } }
}

/// What more is lent is the event buffer of a drain, or the target of a conversion.
unsafe fn perform(call: Call, image: (*mut u8, usize), answer: (*mut u8, usize), more: (*mut u8, usize)) -> u8 {
    let (image, answer, more) = unsafe { (area(image.0, image.1), area(answer.0, answer.1), area(more.0, more.1)) };
    let (events, target): (&mut [u8], &mut [u8]) = if let Call::Convert { .. } = call { (&mut [], more) } else { (more, &mut []) };
    DEVICE.with_borrow_mut(|device| device.perform(&call, image, answer, events, target))
}

const NONE: (*mut u8, usize) = (std::ptr::null_mut(), 0);

pub unsafe fn pch_pic_reset(image: *mut u8, image_len: usize, answer: *mut u8, answer_len: usize) -> u8 {
    unsafe { perform(Call::Reset, (image, image_len), (answer, answer_len), NONE) }
}

#[allow(clippy::too_many_arguments)]
pub unsafe fn pch_pic_read(
    image: *const u8,
    image_len: usize,
    base: u64,
    size: u64,
    address: u64,
    width: u64,
    answer: *mut u8,
    answer_len: usize,
) -> u8 {
    let call = Call::Read { base, size, address, width };
    unsafe { perform(call, (image.cast_mut(), image_len), (answer, answer_len), NONE) }
}

#[allow(clippy::too_many_arguments)]
pub unsafe fn pch_pic_write(
    image: *mut u8,
    image_len: usize,
    base: u64,
    size: u64,
    address: u64,
    width: u64,
    value: u64,
    answer: *mut u8,
    answer_len: usize,
) -> u8 {
    let call = Call::Write { base, size, address, width, value };
    unsafe { perform(call, (image, image_len), (answer, answer_len), NONE) }
}

pub unsafe fn pch_pic_level(image: *mut u8, image_len: usize, input: u64, level: u64, answer: *mut u8, answer_len: usize) -> u8 {
    unsafe { perform(Call::Level { input, level }, (image, image_len), (answer, answer_len), NONE) }
}

pub unsafe fn pch_pic_poll(image: *mut u8, image_len: usize, input: u64, answer: *mut u8, answer_len: usize) -> u8 {
    unsafe { perform(Call::Poll { input }, (image, image_len), (answer, answer_len), NONE) }
}

pub unsafe fn pch_pic_drain(
    image: *mut u8,
    image_len: usize,
    events: *mut u8,
    events_len: usize,
    place: usize,
    answer: *mut u8,
    answer_len: usize,
) -> u8 {
    unsafe { perform(Call::Drain { place: place as u64 }, (image, image_len), (answer, answer_len), (events, events_len)) }
}

pub unsafe fn pch_pic_waiting(image: *const u8, image_len: usize, answer: *mut u8, answer_len: usize) -> u8 {
    let (image, answer) = unsafe { (area(image.cast_mut(), image_len), area(answer, answer_len)) };
    DEVICE.with_borrow_mut(|device| device.waiting(image, answer))
}

pub unsafe fn pch_pic_convert(
    image: *const u8,
    image_len: usize,
    target: *mut u8,
    target_len: usize,
    answer: *mut u8,
    answer_len: usize,
) -> u8 {
    let call = Call::Convert { target: target_len };
    unsafe { perform(call, (image.cast_mut(), image_len), (answer, answer_len), (target, target_len)) }
}

#[allow(clippy::too_many_arguments)]
pub unsafe fn pch_pic_table_read(
    image: *const u8,
    image_len: usize,
    base: u64,
    size: u64,
    address: u64,
    width: u64,
    answer: *mut u8,
    answer_len: usize,
) -> u8 {
    let call = Call::Read { base, size, address, width };
    unsafe { perform(call, (image.cast_mut(), image_len), (answer, answer_len), NONE) }
}

#[allow(clippy::too_many_arguments)]
pub unsafe fn pch_pic_table_write(
    image: *mut u8,
    image_len: usize,
    base: u64,
    size: u64,
    address: u64,
    width: u64,
    value: u64,
    answer: *mut u8,
    answer_len: usize,
) -> u8 {
    let call = Call::Write { base, size, address, width, value };
    unsafe { perform(call, (image, image_len), (answer, answer_len), NONE) }
}

#[allow(clippy::too_many_arguments)]
pub unsafe fn pch_pic_play(
    trace: *const u8,
    trace_len: usize,
    image: *mut u8,
    image_len: usize,
    answers: *mut u8,
    answers_len: usize,
    events: *mut u8,
    events_len: usize,
    answer: *mut u8,
    answer_len: usize,
) -> u8 {
    let (image, answers, events) = unsafe { (area(image, image_len), area(answers, answers_len), area(events, events_len)) };
    let (trace, answer) = unsafe { (area(trace.cast_mut(), trace_len), area(answer, answer_len)) };
    DEVICE.with_borrow_mut(|device| played::play(device, From::Reset, played::Lent { trace, image, answers, events }, answer))
}

#[allow(clippy::too_many_arguments)]
pub unsafe fn pch_pic_play_on(
    trace: *const u8,
    trace_len: usize,
    image: *mut u8,
    image_len: usize,
    answers: *mut u8,
    answers_len: usize,
    events: *mut u8,
    events_len: usize,
    answer: *mut u8,
    answer_len: usize,
) -> u8 {
    let (image, answers, events) = unsafe { (area(image, image_len), area(answers, answers_len), area(events, events_len)) };
    let (trace, answer) = unsafe { (area(trace.cast_mut(), trace_len), area(answer, answer_len)) };
    DEVICE.with_borrow_mut(|device| played::play(device, From::Image, played::Lent { trace, image, answers, events }, answer))
}

type Lent = (*mut u8, usize);

unsafe fn with_board(call: Call, image: Lent, board: Lent, events: Lent, answer: Lent) -> u8 {
    let [image, board, events, answer] = [image, board, events, answer].map(|(pointer, len)| unsafe { area(pointer, len) });
    DEVICE.with_borrow_mut(|device| board::call(device, &call, image, board, events, answer))
}

unsafe fn under_profile(call: Call, image: Lent, phase: Lent, answer: Lent) -> u8 {
    let [image, phase, answer] = [image, phase, answer].map(|(pointer, len)| unsafe { area(pointer, len) });
    DEVICE.with_borrow_mut(|device| hoist::call(device, &call, image, phase, answer))
}

#[allow(clippy::too_many_arguments)]
pub unsafe fn pch_pic_salvage(
    trace: *const u8,
    trace_len: usize,
    kept: *mut u8,
    kept_len: usize,
    list: *mut u8,
    list_len: usize,
    answer: *mut u8,
    answer_len: usize,
) -> u8 {
    unsafe { salvaged::salvage(area(trace.cast_mut(), trace_len), area(kept, kept_len), area(list, list_len), area(answer, answer_len)) }
}

#[allow(clippy::too_many_arguments)]
pub unsafe fn pch_pic_board_reset(
    image: *mut u8,
    image_len: usize,
    board: *mut u8,
    board_len: usize,
    answer: *mut u8,
    answer_len: usize,
) -> u8 {
    unsafe { with_board(Call::Reset, (image, image_len), (board, board_len), NONE, (answer, answer_len)) }
}

#[allow(clippy::too_many_arguments)]
pub unsafe fn pch_pic_board_read(
    image: *const u8,
    image_len: usize,
    board: *mut u8,
    board_len: usize,
    base: u64,
    size: u64,
    address: u64,
    width: u64,
    answer: *mut u8,
    answer_len: usize,
) -> u8 {
    unsafe {
        with_board(Call::Read { base, size, address, width }, (image.cast_mut(), image_len), (board, board_len), NONE, (answer, answer_len))
    }
}

#[allow(clippy::too_many_arguments)]
pub unsafe fn pch_pic_board_write(
    image: *mut u8,
    image_len: usize,
    board: *mut u8,
    board_len: usize,
    base: u64,
    size: u64,
    address: u64,
    width: u64,
    value: u64,
    answer: *mut u8,
    answer_len: usize,
) -> u8 {
    unsafe {
        with_board(Call::Write { base, size, address, width, value }, (image, image_len), (board, board_len), NONE, (answer, answer_len))
    }
}

#[allow(clippy::too_many_arguments)]
pub unsafe fn pch_pic_board_level(
    image: *mut u8,
    image_len: usize,
    board: *mut u8,
    board_len: usize,
    input: u64,
    level: u64,
    answer: *mut u8,
    answer_len: usize,
) -> u8 {
    unsafe { with_board(Call::Level { input, level }, (image, image_len), (board, board_len), NONE, (answer, answer_len)) }
}

#[allow(clippy::too_many_arguments)]
pub unsafe fn pch_pic_board_poll(
    image: *mut u8,
    image_len: usize,
    board: *mut u8,
    board_len: usize,
    input: u64,
    answer: *mut u8,
    answer_len: usize,
) -> u8 {
    unsafe { with_board(Call::Poll { input }, (image, image_len), (board, board_len), NONE, (answer, answer_len)) }
}

#[allow(clippy::too_many_arguments)]
pub unsafe fn pch_pic_board_drain(
    image: *mut u8,
    image_len: usize,
    board: *mut u8,
    board_len: usize,
    events: *mut u8,
    events_len: usize,
    place: usize,
    answer: *mut u8,
    answer_len: usize,
) -> u8 {
    unsafe {
        with_board(Call::Drain { place: place as u64 }, (image, image_len), (board, board_len), (events, events_len), (answer, answer_len))
    }
}

#[allow(clippy::too_many_arguments)]
pub unsafe fn pch_pic_board_event(board: *mut u8, board_len: usize, vector: u8, flag: u8, answer: *mut u8, answer_len: usize) -> u8 {
    unsafe { board::event(area(board, board_len), vector, flag, area(answer, answer_len)) }
}

#[allow(clippy::too_many_arguments)]
pub unsafe fn pch_pic_hoist_reset(
    image: *mut u8,
    image_len: usize,
    phase: *mut u8,
    phase_len: usize,
    answer: *mut u8,
    answer_len: usize,
) -> u8 {
    unsafe { under_profile(Call::Reset, (image, image_len), (phase, phase_len), (answer, answer_len)) }
}

#[allow(clippy::too_many_arguments)]
pub unsafe fn pch_pic_hoist_read(
    image: *const u8,
    image_len: usize,
    base: u64,
    size: u64,
    address: u64,
    width: u64,
    answer: *mut u8,
    answer_len: usize,
) -> u8 {
    unsafe { under_profile(Call::Read { base, size, address, width }, (image.cast_mut(), image_len), NONE, (answer, answer_len)) }
}

#[allow(clippy::too_many_arguments)]
pub unsafe fn pch_pic_hoist_write(
    image: *mut u8,
    image_len: usize,
    phase: *const u8,
    phase_len: usize,
    base: u64,
    size: u64,
    address: u64,
    width: u64,
    value: u64,
    answer: *mut u8,
    answer_len: usize,
) -> u8 {
    unsafe {
        under_profile(
            Call::Write { base, size, address, width, value },
            (image, image_len),
            (phase.cast_mut(), phase_len),
            (answer, answer_len),
        )
    }
}

#[allow(clippy::too_many_arguments)]
pub unsafe fn pch_pic_hoist_end_startup(
    image: *const u8,
    image_len: usize,
    phase: *mut u8,
    phase_len: usize,
    answer: *mut u8,
    answer_len: usize,
) -> u8 {
    unsafe { hoist::end_startup(area(image.cast_mut(), image_len), area(phase, phase_len), area(answer, answer_len)) }
}

#[allow(clippy::too_many_arguments)]
pub unsafe fn pch_pic_sheet(
    trace: *const u8,
    trace_len: usize,
    sheet: *mut u8,
    sheet_len: usize,
    answer: *mut u8,
    answer_len: usize,
) -> u8 {
    let (trace, sheet, answer) = unsafe { (area(trace.cast_mut(), trace_len), area(sheet, sheet_len), area(answer, answer_len)) };
    DEVICE.with_borrow_mut(|device| sheet::sheet(device, trace, sheet, answer))
}

pub unsafe fn pch_pic_tally_begin(tally: *mut u8, tally_len: usize, answer: *mut u8, answer_len: usize) -> u8 {
    unsafe { tally::begin(area(tally, tally_len), area(answer, answer_len)) }
}

#[allow(clippy::too_many_arguments)]
pub unsafe fn pch_pic_tally_add(
    trace: *const u8,
    trace_len: usize,
    image: *const u8,
    image_len: usize,
    tally: *mut u8,
    tally_len: usize,
    answer: *mut u8,
    answer_len: usize,
) -> u8 {
    let (trace, image) = unsafe { (area(trace.cast_mut(), trace_len), area(image.cast_mut(), image_len)) };
    let (tally, answer) = unsafe { (area(tally, tally_len), area(answer, answer_len)) };
    DEVICE.with_borrow_mut(|device| tally::add(device, trace, image, tally, answer))
}

pub unsafe fn pch_pic_tally_sheet(
    tally: *const u8,
    tally_len: usize,
    sheet: *mut u8,
    sheet_len: usize,
    answer: *mut u8,
    answer_len: usize,
) -> u8 {
    unsafe { tally::sheet(area(tally.cast_mut(), tally_len), area(sheet, sheet_len), area(answer, answer_len)) }
}

/// Of the two numbers below 65,536 in size that are congruent, the one in range.
pub unsafe fn pch_pic_difference(later: u16, earlier: u16) -> i16 {
    let apart = (i32::from(later) - i32::from(earlier)).rem_euclid(65_536);
    (if apart < 32_768 { apart } else { apart - 65_536 }) as i16
}
