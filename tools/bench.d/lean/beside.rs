//! The calls beside the plain ones: with a board (02, C-20), which is counted afresh from the image, and those of the hoist profile (02, C-22).

use super::*;

/// Where something waits, or a rule is broken: the whole test, apart from the way that is common.
#[inline(never)]
fn accepted_apart<F: Form<N>, const N: usize>(image: &[u8; N]) -> bool {
    accepted::<F, N>(image)
}

/// A checked image, or the refusal; the quick test comes first.
#[inline(always)]
fn passed<F: Form<N>, const N: usize>(image: &[u8]) -> Result<&[u8; N], Outcome> {
    let image: &[u8; N] = image.try_into().map_err(|_| (4, None))?;
    if is_quiet::<F, N>(image) || accepted_apart::<F, N>(image) { Ok(image) } else { Err(fault::<F, N>(image)) }
}

#[inline(always)]
fn moved<F: Form<N>, const N: usize>(image: &mut [u8], change: impl FnOnce(&mut [u8; N]) -> Outcome) -> Outcome {
    match passed::<F, N>(image) {
        Ok(_) => change(image.try_into().unwrap()),
        Err(refused) => refused,
    }
}

/// A call that was done leaves the counts of the image.
#[inline(always)]
fn counted<F: Form<N>, const N: usize>(image: &[u8; N], board: &mut [u8; 256], outcome: Outcome) -> Outcome {
    if outcome.0 == 0 {
        *board = [0; 256];
        let mut left = word(image, F::ISR);
        while left != 0 {
            board[usize::from(image[F::VECTORS + left.trailing_zeros() as usize])] += 1;
            left &= left - 1;
        }
    }
    outcome
}

#[inline(always)]
fn boarded<F: Form<N>, const N: usize>(image: &mut [u8], board: &mut [u8; 256], change: impl FnOnce(&mut [u8; N]) -> Outcome) -> Outcome {
    moved::<F, N>(image, |image| {
        let outcome = change(image);
        counted::<F, N>(image, board, outcome)
    })
}

#[inline(always)]
fn board_read_in<F: Form<N>, const N: usize>(
    image: &[u8],
    board: &mut [u8; 256],
    base: u64,
    size: u64,
    address: u64,
    width: u64,
) -> Outcome {
    match passed::<F, N>(image) {
        Ok(image) => counted::<F, N>(image, board, read_on::<F, N>(image, base, size, address, width)),
        Err(refused) => refused,
    }
}

#[inline(always)]
fn board_write_in<F: Form<N>, const N: usize>(
    image: &mut [u8],
    board: &mut [u8; 256],
    base: u64,
    size: u64,
    address: u64,
    width: u64,
    value: u64,
) -> Outcome {
    boarded::<F, N>(image, board, |image| write_on::<F, N>(image, base, size, address, width, value))
}

#[inline(always)]
fn board_level_in<F: Form<N>, const N: usize>(image: &mut [u8], board: &mut [u8; 256], input: u64, level: u64) -> Outcome {
    boarded::<F, N>(image, board, |image| level_on::<F, N>(image, input, level))
}

#[inline(always)]
fn board_poll_in<F: Form<N>, const N: usize>(image: &mut [u8], board: &mut [u8; 256], input: u64) -> Outcome {
    boarded::<F, N>(image, board, |image| poll_on::<F, N>(image, input))
}

#[inline(always)]
fn board_drain_in<F: Form<N>, const N: usize>(image: &mut [u8], board: &mut [u8; 256], room: &mut [u8]) -> Outcome {
    // Before a drain something waits, as a rule.
    changed::<F, N>(image, |image| {
        let outcome = drain_on::<F, N>(image, room);
        counted::<F, N>(image, board, outcome)
    })
}

/// Answer area and board, or nothing where one is too short.
#[inline(always)]
fn areas<'a>(answer: &'a mut [u8], board: &'a mut [u8]) -> Option<(&'a mut [u8; 16], &'a mut [u8; 256])> {
    Some((answer.first_chunk_mut()?, board.first_chunk_mut()?))
}

#[inline(never)]
pub fn board_reset(image: &mut [u8], board: &mut [u8], answer: &mut [u8]) -> u8 {
    let Some((answer, board)) = areas(answer, board) else { return 7 };
    let outcome = by_length!(image, reset_in);
    if outcome.0 == 0 {
        *board = [0; 256];
    }
    told(answer, outcome)
}

#[inline(never)]
pub fn board_read(image: &[u8], board: &mut [u8], base: u64, size: u64, address: u64, width: u64, answer: &mut [u8]) -> u8 {
    let Some((answer, board)) = areas(answer, board) else { return 7 };
    told(answer, by_length!(image, board_read_in, board, base, size, address, width))
}

#[inline(never)]
pub fn board_write(
    image: &mut [u8],
    board: &mut [u8],
    base: u64,
    size: u64,
    address: u64,
    width: u64,
    value: u64,
    answer: &mut [u8],
) -> u8 {
    let Some((answer, board)) = areas(answer, board) else { return 7 };
    told(answer, by_length!(image, board_write_in, board, base, size, address, width, value))
}

#[inline(never)]
pub fn board_level(image: &mut [u8], board: &mut [u8], input: u64, level: u64, answer: &mut [u8]) -> u8 {
    let Some((answer, board)) = areas(answer, board) else { return 7 };
    told(answer, by_length!(image, board_level_in, board, input, level))
}

#[inline(never)]
pub fn board_poll(image: &mut [u8], board: &mut [u8], input: u64, answer: &mut [u8]) -> u8 {
    let Some((answer, board)) = areas(answer, board) else { return 7 };
    told(answer, by_length!(image, board_poll_in, board, input))
}

#[inline(never)]
pub fn board_drain(image: &mut [u8], board: &mut [u8], events: &mut [u8], place: usize, answer: &mut [u8]) -> u8 {
    let Some((answer, board)) = areas(answer, board) else { return 7 };
    let Some(room) = events.get_mut(place..) else { return 7 };
    told(answer, by_length!(image, board_drain_in, board, room))
}

#[inline(never)]
pub fn board_event(board: &mut [u8], vector: u8, flag: u8, answer: &mut [u8]) -> u8 {
    let Some((answer, board)) = areas(answer, board) else { return 7 };
    let count = &mut board[usize::from(vector)];
    *count = if flag == 0 { count.saturating_sub(1) } else { count.saturating_add(1) };
    told(answer, (0, Some(u64::from(*count))))
}

/// Refusals 2, 1 and 14, or the offset of an aligned Dword.
#[inline(always)]
fn aligned(base: u64, size: u64, address: u64, width: u64) -> Result<u64, Outcome> {
    let offset = offset_of(base, size, address, width)?;
    if width == 4 && offset & 3 == 0 { Ok(offset) } else { Err((14, None)) }
}

/// Whether 15 refuses a write: to ISR, to vectors after start-up, or where it would change a vector in service.
#[inline(always)]
fn unfit<F: Form<N>, const N: usize>(image: &[u8; N], running: bool, offset: u64, value: u32) -> bool {
    if let 0x3a0 | 0x3a4 = offset {
        return true;
    }
    if !(0x200..0x240).contains(&offset) {
        return false;
    }
    let changed = dword::<F, N>(image, offset) ^ value;
    let served = word(image, F::ISR) >> (offset - 0x200);
    running || (0..4).any(|k| served >> k & 1 == 1 && changed >> (8 * k) & 0xff != 0)
}

#[inline(always)]
fn hoist_read_in<F: Form<N>, const N: usize>(image: &[u8], base: u64, size: u64, address: u64, width: u64) -> Outcome {
    let image = match passed::<F, N>(image) {
        Ok(image) => image,
        Err(refused) => return refused,
    };
    match aligned(base, size, address, width) {
        Ok(offset) => (0, Some(u64::from(dword::<F, N>(image, offset)))),
        Err(refused) => refused,
    }
}

#[inline(always)]
fn hoist_write_in<F: Form<N>, const N: usize>(
    image: &mut [u8],
    running: bool,
    base: u64,
    size: u64,
    address: u64,
    width: u64,
    value: u64,
) -> Outcome {
    moved::<F, N>(image, |image| match aligned(base, size, address, width) {
        Ok(offset) if unfit::<F, N>(image, running, offset, value as u32) => (15, None),
        Ok(offset) => (0, Some(u64::from(write_dword::<F, N>(image, offset, value as u32)))),
        Err(refused) => refused,
    })
}

#[inline(always)]
fn end_startup_in<F: Form<N>, const N: usize>(image: &[u8], running: bool) -> Outcome {
    match passed::<F, N>(image) {
        Ok(image) if running || word(image, F::ISR) != 0 => (15, None),
        Ok(_) => (0, None),
        Err(refused) => refused,
    }
}

#[inline(never)]
pub fn hoist_reset(image: &mut [u8], phase: &mut [u8], answer: &mut [u8]) -> u8 {
    let (Some(answer), Some(phase)) = (answer.first_chunk_mut(), phase.first_mut()) else { return 7 };
    let outcome = by_length!(image, reset_in);
    if outcome.0 == 0 {
        *phase = 0;
    }
    told(answer, outcome)
}

#[inline(never)]
pub fn hoist_read(image: &[u8], base: u64, size: u64, address: u64, width: u64, answer: &mut [u8]) -> u8 {
    let Some(answer) = answer.first_chunk_mut() else { return 7 };
    told(answer, by_length!(image, hoist_read_in, base, size, address, width))
}

#[inline(never)]
pub fn hoist_write(image: &mut [u8], phase: &[u8], base: u64, size: u64, address: u64, width: u64, value: u64, answer: &mut [u8]) -> u8 {
    let (Some(answer), Some(phase)) = (answer.first_chunk_mut(), phase.first()) else { return 7 };
    told(answer, by_length!(image, hoist_write_in, *phase != 0, base, size, address, width, value))
}

#[inline(always)]
fn waiting_in<F: Form<N>, const N: usize>(image: &[u8]) -> Outcome {
    match passed::<F, N>(image) {
        Ok(image) => (0, Some(word(image, F::IRR) & !word(image, F::MASK) & !word(image, F::ISR))),
        Err(refused) => refused,
    }
}

#[inline(never)]
pub fn waiting(image: &[u8], answer: &mut [u8]) -> u8 {
    let Some(answer) = answer.first_chunk_mut() else { return 7 };
    told(answer, by_length!(image, waiting_in))
}

#[inline(never)]
pub fn hoist_end_startup(image: &[u8], phase: &mut [u8], answer: &mut [u8]) -> u8 {
    let (Some(answer), Some(phase)) = (answer.first_chunk_mut(), phase.first_mut()) else { return 7 };
    let outcome = by_length!(image, end_startup_in, *phase != 0);
    if outcome.0 == 0 {
        *phase = 1;
    }
    told(answer, outcome)
}
