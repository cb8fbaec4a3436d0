//! What 02, C-22, expects of the hoist profile, over the device of the published Rust. Written from that text, apart from the code under test.

use crate::boundary::Boundary;
use crate::call::Call;
use crate::image;
use crate::told::tell;

const ISR: [u64; 2] = [0x3a0, 0x3a4];
const VECTORS: u64 = 0x200;

/// A reset, a read or a write under the profile. A read is lent no phase.
pub fn call(boundary: &mut Boundary, call: &Call, image: &mut [u8], phase: &mut [u8], answer: &mut [u8]) -> u8 {
    if answer.len() < 16 {
        return 7;
    }
    let (base, size, address, width, written) = match *call {
        _ if phase.is_empty() && !matches!(call, Call::Read { .. }) => return 7,
        Call::Read { base, size, address, width } => (base, size, address, width, None),
        Call::Write { base, size, address, width, value } => (base, size, address, width, Some(value)),
        Call::Reset => {
            let number = boundary.perform(call, image, answer, &mut [], &mut []);
            if number == 0 {
                phase[0] = 0;
            }
            return number;
        }
        _ => unreachable!("the profile has no other call of its own"),
    };
    // what the full device refuses, the image, 2 and 1, comes first; a read of the same bytes is refused as a write is
    let (mut looked, mut told) = (image.to_vec(), [0; 16]);
    let number = boundary.perform(&Call::Read { base, size, address, width }, &mut looked, &mut told, &mut [], &mut []);
    if number != 0 {
        answer[..16].copy_from_slice(&told);
        return number;
    }
    let offset = address - base;
    if width != 4 || offset % 4 != 0 {
        return tell(answer, 14, None);
    }
    if written.is_some_and(|value| refuses(boundary, phase[0], offset, value)) {
        return tell(answer, 15, None);
    }
    boundary.perform(call, image, answer, &mut [], &mut [])
}

/// ISR is never written; the vectors only in start-up, and then no byte is changed whose input is in service.
fn refuses(boundary: &Boundary, phase: u8, offset: u64, value: u64) -> bool {
    if ISR.contains(&offset) {
        return true;
    }
    if !(VECTORS..VECTORS + 64).contains(&offset) {
        return false;
    }
    let (isr, vectors) = boundary.in_service();
    let first = (offset - VECTORS) as usize;
    phase != 0 || (0..4).any(|k| isr & (1 << (first + k)) != 0 && vectors[first + k] != (value >> (8 * k)) as u8)
}

/// Start-up ends, but not a second time, nor while an input is in service.
pub fn end_startup(image: &[u8], phase: &mut [u8], answer: &mut [u8]) -> u8 {
    if answer.len() < 16 || phase.is_empty() {
        return 7;
    }
    let (number, value) = image::test(image);
    if number != 0 {
        return tell(answer, number, value);
    }
    if phase[0] != 0 || image::decode(image, 0).0.intisr != 0 {
        return tell(answer, 15, None);
    }
    phase[0] = 1;
    tell(answer, 0, None)
}
