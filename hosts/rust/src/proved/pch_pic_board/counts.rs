// Made from crates/pch_pic_board/src/counts.rt by tools/portable: do not change it here.
//! The counts of a board: counted afresh from an image, in place, and moved by an event.

use super::super::bits::bytes::put_zeros;
use super::super::fields::entries::vector;
use super::super::fields::words::isr;
use super::super::image::form::form_of;
use super::super::image::form::Form;

/// 256 zeros, and then one step for each input in service, masked or not.
///
/// ```text
/// requires { (length image.now ≡ form_length (form_view form)) × (board_length ≤ length board.old) }
/// ensures { Reads image.now board.new (λ d. recounted d.core board.old) }
/// ```
pub fn recount(image: &[u8], form: Form, board: &mut [u8]) {
    put_zeros(&mut board[0..256]);
    let mut left = isr(image, form);
    while left != 0 {
        let irq = left.trailing_zeros() as usize;
        let carried = vector(image, form, irq) as usize;
        board[carried] += 1;
        left &= left - 1;
    }
}

/// After a call that handed back the number: done, the counts are those of the image that it left; refused, the board stays.
///
/// ```text
/// requires { (number ≡ 0 → image_test image.now ≡ accepted) × (board_length ≤ length board.old) }
/// ensures { board.new ≡ board_after number image.now board.old }
/// ```
pub fn bring(image: &[u8], board: &mut [u8], number: u8) {
    if number != 0 {
        return;
    }
    if let Some(form) = form_of(image.len()) {
        recount(image, form, board);
    }
}

/// The count after an event: one less for flag 0, one more for any other, within a byte.
///
/// ```text
/// ensures { result ≡ heard_count flag count }
/// ```
fn heard(flag: u8, count: u8) -> u8 {
    if flag == 0 {
        count.saturating_sub(1)
    } else {
        count.saturating_add(1)
    }
}

/// An event moves the count of its vector, which is handed back.
///
/// ```text
/// requires { board_length ≤ length board.old }
/// ensures { (result ≡ heard_count flag (get_or board.old vector 0)) × (board.new ≡ set board.old vector result) }
/// ```
pub fn hear(board: &mut [u8], vector: u8, flag: u8) -> u8 {
    let at = vector as usize;
    let count = heard(flag, board[at]);
    board[at] = count;
    count
}
