// Made from crates/ledger/src/watch_write.rt by tools/portable: do not change it here.
//! Register writes as a pass takes them: of each width at most two halves of a register, of which it heeds MASK, CLEAR and ISR.

use super::super::bits;
use super::super::device::map::in_byte_area;
use super::super::device::map::Cell;
use super::super::device::map::Register;
use super::super::device::map_low::decode_low;
use super::watch::write_clear;
use super::watch::write_mask;
use super::watch::Watched;

// ---- a half of a register

/// ```text
/// requires { Roomy wide sheet.old × (k < record_limit wide) }
/// ensures { Follows wide (lines_of w) w.waiting (lines_of result) result.waiting sheet.old sheet.new k
///     (λ c. register_acts (register_view register) high val) }
/// ```
fn write_half(
    sheet: &mut [u8],
    wide: bool,
    w: Watched,
    k: u64,
    register: Register,
    val: u32,
    high: bool,
) -> Watched {
    match register {
        Register::Mask => write_mask(sheet, wide, w, k, val, high),
        Register::Clear => write_clear(sheet, wide, w, k, bits::in_half(val, high)),
        Register::Isr => Watched {
            isr: bits::replace_u32(w.isr, val, high),
            ..w
        },
        Register::Id | Register::Irr | Register::Plain(_) => w,
    }
}

/// A register that is heeded, as it reads: CLEAR as 0, ISR without the masked inputs.
///
/// ```text
/// ensures { ReadsAs (lines_of w) result (register_view register) }
/// ```
fn value_of(w: Watched, register: Register) -> u64 {
    match register {
        Register::Mask => w.mask,
        Register::Isr => w.isr & !w.mask,
        Register::Id | Register::Clear | Register::Irr | Register::Plain(_) => 0,
    }
}

// ---- a Byte, or a Dword

/// The Dword that it is, or that it lies in.
///
/// ```text
/// ensures { result ≡ (if narrow then place_of offset else offset) }
/// ```
fn place_of(offset: usize, narrow: bool) -> usize {
    if narrow { offset & !0x3 } else { offset }
}

/// What a half of a register is written with: of a Byte the half as read, with that byte replaced.
///
/// ```text
/// ensures { PutIn (lines_of w) (register_view register) high offset narrow x result }
/// ```
fn value_in(
    w: Watched,
    register: Register,
    high: bool,
    offset: usize,
    narrow: bool,
    x: u64,
) -> u32 {
    let low = bits::half(x, false);
    if narrow {
        let old = bits::half(value_of(w, register), high);
        let place = offset & 0x3;
        return bits::with_byte(old, place, bits::byte_of(low, 0));
    }
    low
}

/// ```text
/// requires { Roomy wide sheet.old × (k < record_limit wide) }
/// ensures { Follows wide (lines_of w) w.waiting (lines_of result) result.waiting sheet.old sheet.new k
///     (λ c. write_acts c (piece_width narrow) offset x) }
/// ```
fn write_piece(
    sheet: &mut [u8],
    wide: bool,
    w: Watched,
    k: u64,
    offset: usize,
    narrow: bool,
    x: u64,
) -> Watched {
    if narrow & in_byte_area(offset) {
        return w;
    }
    match decode_low(place_of(offset, narrow)) {
        Cell::Half(register, high) => {
            let val = value_in(w, register, high, offset, narrow, x);
            write_half(sheet, wide, w, k, register, val, high)
        }
        Cell::Bytes | Cell::Nothing => w,
    }
}

// ---- the four widths

/// A Word is two Bytes and a Qword two Dwords; the second meets what the first left.
///
/// ```text
/// requires { Roomy wide sheet.old × (k < record_limit wide) × Sized width × (offset + width ≤ 2 ^ 64 - 1) }
/// ensures { Follows wide (lines_of w) w.waiting (lines_of result) result.waiting sheet.old sheet.new k
///     (λ c. write_acts c (width_of width) offset value) }
/// ```
pub fn write(
    sheet: &mut [u8],
    wide: bool,
    w: Watched,
    k: u64,
    offset: usize,
    value: u64,
    width: u64,
) -> Watched {
    let mut kept = w;
    let mut at = offset;
    let mut x = value;
    let mut left = width;
    while left != 0 {
        kept = write_piece(sheet, wide, kept, k, at, left < 4, x);
        if left == 1 {
            return kept;
        }
        if left == 4 {
            return kept;
        }
        at += (left / 2) as usize;
        x = x >> (4 * left);
        left = left / 2;
    }
    kept
}
