// Made from crates/pch_pic_board/src/lib.rt by tools/portable: do not change it here.
//! The calls with a board, for a host: each is in every other byte the call without, and then the board has the fresh counts of the image that it left. None requires
//! anything: every input has its outcome. Here is what lacks room, refusal 7, which comes first; the crates below make the call, and `counts` counts.

pub mod counts;

use super::answer::refusals::NO_ROOM;
use super::answer::tell;
use super::answer::Told;
use super::bits::bytes::put_zeros;
use super::six_calls::reset_drain;
use super::six_calls::tested_access;
use super::six_calls::tested_input;

/// What a call told goes into the answer area; if it was done, the board is then brought up to date with the image that it left.
///
/// ```text
/// requires { Finishing told image.now board.old answer.old }
/// ensures { Finished told image.now board.old answer.old result board.new answer.new }
/// ```
#[inline]
fn finish<const N: usize>(image: &[u8; N], board: &mut [u8], answer: &mut [u8], told: Told) -> u8 {
    assert!(256 <= board.len() && 16 <= answer.len());
    let number = tell(answer, told);
    counts::bring(image, board, number);
    number
}

/// After a reset: done, no input is in service, so that nothing has to be counted; refused, the board stays.
///
/// ```text
/// requires { board_length ≤ length board.old }
/// ensures { board.new ≡ cleared_after (told_number told) board.old }
/// ```
#[inline]
fn clear(board: &mut [u8], told: Told) {
    assert!(256 <= board.len());
    if told.is_ok() {
        put_zeros(&mut board[0..256]);
    }
}

/// ```text
/// ensures { board_leaves result image.new board.new answer.new []
///     ≡ boarding asked.reset image.old board.old answer.old }
/// ```
pub fn pch_pic_board_reset(image: &mut [u8], board: &mut [u8], answer: &mut [u8]) -> u8 {
    if answer.len() < 16 {
        return NO_ROOM;
    }
    if board.len() < 256 {
        return NO_ROOM;
    }
    if let Ok(image) = <&mut [u8; 259]>::try_from(&mut *image) {
        return pch_pic_board_reset_of(image, board, answer);
    }
    if let Ok(image) = <&mut [u8; 251]>::try_from(&mut *image) {
        return pch_pic_board_reset_of(image, board, answer);
    }
    if let Ok(image) = <&mut [u8; 290]>::try_from(&mut *image) {
        return pch_pic_board_reset_of(image, board, answer);
    }
    pch_pic_board_reset_of(&mut [0u8; 0], board, answer)
}

#[inline]
fn pch_pic_board_reset_of<const N: usize>(
    image: &mut [u8; N],
    board: &mut [u8],
    answer: &mut [u8],
) -> u8 {
    let told = reset_drain::reset(image);
    clear(board, told);
    tell(answer, told)
}

/// ```text
/// ensures { board_leaves result image.now board.new answer.new []
///     ≡ boarding (asked.read base size address width) image.now board.old answer.old }
/// ```
pub fn pch_pic_board_read(
    image: &[u8],
    board: &mut [u8],
    base: u64,
    size: u64,
    address: u64,
    width: u64,
    answer: &mut [u8],
) -> u8 {
    if answer.len() < 16 {
        return NO_ROOM;
    }
    if board.len() < 256 {
        return NO_ROOM;
    }
    if let Ok(image) = <&[u8; 259]>::try_from(image) {
        return pch_pic_board_read_of(image, board, base, size, address, width, answer);
    }
    if let Ok(image) = <&[u8; 251]>::try_from(image) {
        return pch_pic_board_read_of(image, board, base, size, address, width, answer);
    }
    if let Ok(image) = <&[u8; 290]>::try_from(image) {
        return pch_pic_board_read_of(image, board, base, size, address, width, answer);
    }
    pch_pic_board_read_of(&[0u8; 0], board, base, size, address, width, answer)
}

#[inline]
fn pch_pic_board_read_of<const N: usize>(
    image: &[u8; N],
    board: &mut [u8],
    base: u64,
    size: u64,
    address: u64,
    width: u64,
    answer: &mut [u8],
) -> u8 {
    let told = tested_access::read(image, base, size, address, width);
    finish(image, board, answer, told)
}

/// ```text
/// ensures { board_leaves result image.new board.new answer.new []
///     ≡ boarding (asked.write base size address width value) image.old board.old answer.old }
/// ```
pub fn pch_pic_board_write(
    image: &mut [u8],
    board: &mut [u8],
    base: u64,
    size: u64,
    address: u64,
    width: u64,
    value: u64,
    answer: &mut [u8],
) -> u8 {
    if answer.len() < 16 {
        return NO_ROOM;
    }
    if board.len() < 256 {
        return NO_ROOM;
    }
    if let Ok(image) = <&mut [u8; 259]>::try_from(&mut *image) {
        return pch_pic_board_write_of(image, board, base, size, address, width, value, answer);
    }
    if let Ok(image) = <&mut [u8; 251]>::try_from(&mut *image) {
        return pch_pic_board_write_of(image, board, base, size, address, width, value, answer);
    }
    if let Ok(image) = <&mut [u8; 290]>::try_from(&mut *image) {
        return pch_pic_board_write_of(image, board, base, size, address, width, value, answer);
    }
    pch_pic_board_write_of(&mut [0u8; 0], board, base, size, address, width, value, answer)
}

#[inline]
fn pch_pic_board_write_of<const N: usize>(
    image: &mut [u8; N],
    board: &mut [u8],
    base: u64,
    size: u64,
    address: u64,
    width: u64,
    value: u64,
    answer: &mut [u8],
) -> u8 {
    let told = tested_access::write(image, base, size, address, width, value);
    finish(image, board, answer, told)
}

/// ```text
/// ensures { board_leaves result image.new board.new answer.new []
///     ≡ boarding (asked.level input level) image.old board.old answer.old }
/// ```
pub fn pch_pic_board_level(
    image: &mut [u8],
    board: &mut [u8],
    input: u64,
    level: u64,
    answer: &mut [u8],
) -> u8 {
    if answer.len() < 16 {
        return NO_ROOM;
    }
    if board.len() < 256 {
        return NO_ROOM;
    }
    if let Ok(image) = <&mut [u8; 259]>::try_from(&mut *image) {
        return pch_pic_board_level_of(image, board, input, level, answer);
    }
    if let Ok(image) = <&mut [u8; 251]>::try_from(&mut *image) {
        return pch_pic_board_level_of(image, board, input, level, answer);
    }
    if let Ok(image) = <&mut [u8; 290]>::try_from(&mut *image) {
        return pch_pic_board_level_of(image, board, input, level, answer);
    }
    pch_pic_board_level_of(&mut [0u8; 0], board, input, level, answer)
}

#[inline]
fn pch_pic_board_level_of<const N: usize>(
    image: &mut [u8; N],
    board: &mut [u8],
    input: u64,
    level: u64,
    answer: &mut [u8],
) -> u8 {
    let told = tested_input::level(image, input, level);
    finish(image, board, answer, told)
}

/// ```text
/// ensures { board_leaves result image.new board.new answer.new []
///     ≡ boarding (asked.poll input) image.old board.old answer.old }
/// ```
pub fn pch_pic_board_poll(image: &mut [u8], board: &mut [u8], input: u64, answer: &mut [u8]) -> u8 {
    if answer.len() < 16 {
        return NO_ROOM;
    }
    if board.len() < 256 {
        return NO_ROOM;
    }
    if let Ok(image) = <&mut [u8; 259]>::try_from(&mut *image) {
        return pch_pic_board_poll_of(image, board, input, answer);
    }
    if let Ok(image) = <&mut [u8; 251]>::try_from(&mut *image) {
        return pch_pic_board_poll_of(image, board, input, answer);
    }
    if let Ok(image) = <&mut [u8; 290]>::try_from(&mut *image) {
        return pch_pic_board_poll_of(image, board, input, answer);
    }
    pch_pic_board_poll_of(&mut [0u8; 0], board, input, answer)
}

#[inline]
fn pch_pic_board_poll_of<const N: usize>(
    image: &mut [u8; N],
    board: &mut [u8],
    input: u64,
    answer: &mut [u8],
) -> u8 {
    let told = tested_input::poll(image, input);
    finish(image, board, answer, told)
}

/// ```text
/// ensures { board_leaves result image.new board.new answer.new events.new
///     ≡ boarding (asked.drain events.old place) image.old board.old answer.old }
/// ```
pub fn pch_pic_board_drain(
    image: &mut [u8],
    board: &mut [u8],
    events: &mut [u8],
    place: usize,
    answer: &mut [u8],
) -> u8 {
    if answer.len() < 16 {
        return NO_ROOM;
    }
    if board.len() < 256 {
        return NO_ROOM;
    }
    if events.len() < place {
        return NO_ROOM;
    }
    if let Ok(image) = <&mut [u8; 259]>::try_from(&mut *image) {
        return pch_pic_board_drain_of(image, board, events, place, answer);
    }
    if let Ok(image) = <&mut [u8; 251]>::try_from(&mut *image) {
        return pch_pic_board_drain_of(image, board, events, place, answer);
    }
    if let Ok(image) = <&mut [u8; 290]>::try_from(&mut *image) {
        return pch_pic_board_drain_of(image, board, events, place, answer);
    }
    pch_pic_board_drain_of(&mut [0u8; 0], board, events, place, answer)
}

#[inline]
fn pch_pic_board_drain_of<const N: usize>(
    image: &mut [u8; N],
    board: &mut [u8],
    events: &mut [u8],
    place: usize,
    answer: &mut [u8],
) -> u8 {
    let told = reset_drain::drain(image, &mut events[place..]);
    finish(image, board, answer, told)
}

/// A second board hears one event.
///
/// ```text
/// ensures { hears result board.new answer.new ≡ hearing board.old vector flag answer.old }
/// ```
pub fn pch_pic_board_event(board: &mut [u8], vector: u8, flag: u8, answer: &mut [u8]) -> u8 {
    if answer.len() < 16 {
        return NO_ROOM;
    }
    if board.len() < 256 {
        return NO_ROOM;
    }
    let count = counts::hear(board, vector, flag);
    tell(answer, Ok(Some(u64::from(count))))
}
