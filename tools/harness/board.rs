//! What 02, C-20, expects of the calls with a board: the call without it, over the device of the published Rust, and then a fresh recount of the Rust's ISR and vectors. Written
//! from that text, apart from the code under test.

use crate::boundary::Boundary;
use crate::call::Call;
use crate::told::tell;

/// A count for each vector.
pub const LINES: usize = 256;

pub fn call(boundary: &mut Boundary, call: &Call, image: &mut [u8], board: &mut [u8], events: &mut [u8], answer: &mut [u8]) -> u8 {
    if board.len() < LINES {
        return 7;
    }
    let number = boundary.perform(call, image, answer, events, &mut []);
    if number == 0 {
        let (isr, vectors) = boundary.in_service();
        board[..LINES].copy_from_slice(&recount(isr, &vectors));
    }
    number
}

/// For each vector, how many inputs in service carry it.
pub fn recount(isr: u64, vectors: &[u8; 64]) -> [u8; LINES] {
    let mut counts = [0; LINES];
    for (input, &vector) in vectors.iter().enumerate() {
        if isr & (1 << input) != 0 {
            counts[usize::from(vector)] += 1;
        }
    }
    counts
}

/// A second board hears an event: one less, not below 0, for flag 0, and one more, not past 255, for any other.
pub fn event(board: &mut [u8], vector: u8, flag: u8, answer: &mut [u8]) -> u8 {
    if answer.len() < 16 || board.len() < LINES {
        return 7;
    }
    let count = &mut board[usize::from(vector)];
    *count = if flag == 0 { count.saturating_sub(1) } else { count.saturating_add(1) };
    tell(answer, 0, Some(u64::from(*count)))
}
