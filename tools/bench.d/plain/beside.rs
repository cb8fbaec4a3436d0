//! The calls beside the plain ones: with a board (02, C-20), which is counted afresh from the state, and those of the hoist profile (02, C-22).

use super::*;

/// How many inputs in service carry each vector.
fn recount(state: &State, board: &mut [u8; 256]) {
    board.fill(0);
    let mut left = state.isr;
    while left != 0 {
        board[usize::from(state.vectors[left.trailing_zeros() as usize])] += 1;
        left &= left - 1;
    }
}

/// Answer area and board, or nothing where one is too short.
fn areas<'a>(answer: &'a mut [u8], board: &'a mut [u8]) -> Option<(&'a mut [u8; 16], &'a mut [u8; 256])> {
    Some((answer.first_chunk_mut()?, board.first_chunk_mut()?))
}

#[inline(never)]
pub fn board_reset(image: &mut [u8], board: &mut [u8], answer: &mut [u8]) -> u8 {
    let Some((answer, board)) = areas(answer, board) else { return 7 };
    let outcome = by_length!(image, saved, &State::reset());
    if outcome.is_ok() {
        board.fill(0);
    }
    told(answer, outcome)
}

#[inline(never)]
pub fn board_read(image: &[u8], board: &mut [u8], base: u64, size: u64, address: u64, width: u64, answer: &mut [u8]) -> u8 {
    let Some((answer, board)) = areas(answer, board) else { return 7 };
    let outcome = looked(image, |state| {
        let known = Width::of(width)?;
        let value = state.read(known, offset_of(base, size, address, width)?);
        recount(state, board);
        Ok(Some(value))
    });
    told(answer, outcome)
}

#[inline(never)]
pub fn board_write(
    image: &mut [u8],
    board: &mut [u8],
    base: u64,
    size: u64,
    address: u64,
    width: u64,
    value: u64,
    answer: &mut [u8],
) -> u8 {
    let Some((answer, board)) = areas(answer, board) else { return 7 };
    let outcome = changed(image, |state| {
        let known = Width::of(width)?;
        state.write(known, offset_of(base, size, address, width)?, value);
        recount(state, board);
        Ok(Some(state.lost))
    });
    told(answer, outcome)
}

#[inline(never)]
pub fn board_level(image: &mut [u8], board: &mut [u8], input: u64, level: u64, answer: &mut [u8]) -> u8 {
    let Some((answer, board)) = areas(answer, board) else { return 7 };
    let outcome = changed(image, |state| {
        let input = input_of(input)?;
        let value = if level == 0 { state.lower(input) } else { state.raise(input) };
        recount(state, board);
        Ok(value)
    });
    told(answer, outcome)
}

#[inline(never)]
pub fn board_poll(image: &mut [u8], board: &mut [u8], input: u64, answer: &mut [u8]) -> u8 {
    let Some((answer, board)) = areas(answer, board) else { return 7 };
    let outcome = changed(image, |state| {
        let value = state.poll(input_of(input)?);
        recount(state, board);
        Ok(value)
    });
    told(answer, outcome)
}

#[inline(never)]
pub fn board_drain(image: &mut [u8], board: &mut [u8], events: &mut [u8], place: usize, answer: &mut [u8]) -> u8 {
    let Some((answer, board)) = areas(answer, board) else { return 7 };
    let Some(room) = events.get_mut(place..) else { return 7 };
    let outcome = changed(image, |state| {
        let moved = state.drain(room);
        recount(state, board);
        Ok(Some(moved))
    });
    told(answer, outcome)
}

#[inline(never)]
pub fn board_event(board: &mut [u8], vector: u8, flag: u8, answer: &mut [u8]) -> u8 {
    let Some((answer, board)) = areas(answer, board) else { return 7 };
    let count = &mut board[usize::from(vector)];
    *count = if flag == 0 { count.saturating_sub(1) } else { count.saturating_add(1) };
    told(answer, Ok(Some(u64::from(*count))))
}

/// Refusals 2, 1 and 14, or the offset of an aligned Dword.
fn aligned(base: u64, size: u64, address: u64, width: u64) -> Result<u64, Refusal> {
    Width::of(width)?;
    let offset = offset_of(base, size, address, width)?;
    if width == 4 && offset % 4 == 0 { Ok(offset) } else { Err(refusal(14)) }
}

/// Refusal 15: a write to ISR, to vectors after start-up, or one that would change a vector in service.
fn fit(state: &State, running: bool, offset: u64, value: u64) -> Result<(), Refusal> {
    let refused = match offset {
        0x3a0 | 0x3a4 => true,
        0x200..0x240 if running => true,
        0x200..0x240 => {
            let first = (offset - 0x200) as usize;
            let changes = |(k, byte)| state.isr >> (first + k) & 1 == 1 && state.vectors[first + k] != byte;
            (value as u32).to_le_bytes().into_iter().enumerate().any(changes)
        }
        _ => false,
    };
    if refused { Err(refusal(15)) } else { Ok(()) }
}

#[inline(never)]
pub fn hoist_reset(image: &mut [u8], phase: &mut [u8], answer: &mut [u8]) -> u8 {
    let (Some(answer), Some(phase)) = (answer.first_chunk_mut(), phase.first_mut()) else { return 7 };
    let outcome = by_length!(image, saved, &State::reset());
    if outcome.is_ok() {
        *phase = 0;
    }
    told(answer, outcome)
}

#[inline(never)]
pub fn hoist_read(image: &[u8], base: u64, size: u64, address: u64, width: u64, answer: &mut [u8]) -> u8 {
    let Some(answer) = answer.first_chunk_mut() else { return 7 };
    told(answer, looked(image, |state| Ok(Some(u64::from(state.dword(aligned(base, size, address, width)?))))))
}

#[inline(never)]
pub fn hoist_write(image: &mut [u8], phase: &[u8], base: u64, size: u64, address: u64, width: u64, value: u64, answer: &mut [u8]) -> u8 {
    let (Some(answer), Some(phase)) = (answer.first_chunk_mut(), phase.first()) else { return 7 };
    let outcome = changed(image, |state| {
        let offset = aligned(base, size, address, width)?;
        fit(state, *phase != 0, offset, value)?;
        state.write_dword(offset, value as u32);
        Ok(Some(state.lost))
    });
    told(answer, outcome)
}

#[inline(never)]
pub fn waiting(image: &[u8], answer: &mut [u8]) -> u8 {
    let Some(answer) = answer.first_chunk_mut() else { return 7 };
    told(answer, looked(image, |state| Ok(Some(state.irr & !state.mask & !state.isr))))
}

#[inline(never)]
pub fn hoist_end_startup(image: &[u8], phase: &mut [u8], answer: &mut [u8]) -> u8 {
    let (Some(answer), Some(phase)) = (answer.first_chunk_mut(), phase.first_mut()) else { return 7 };
    let outcome = looked(image, |state| if *phase != 0 || state.isr != 0 { Err(refusal(15)) } else { Ok(None) });
    if outcome.is_ok() {
        *phase = 1;
    }
    told(answer, outcome)
}
