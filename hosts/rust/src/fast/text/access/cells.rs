// Made from crates/access/src/cells.rt by tools/portable: do not change it here.
//! What stands at an offset, read and written in place: route and vector bytes, and a Dword of them or of a register.

use super::super::bits;
use super::super::device::map::Cell;
use super::super::device::map_low;
use super::super::fields::entries::put_routes;
use super::super::fields::entries::put_vectors;
use super::super::fields::entries::route;
use super::super::fields::entries::routes;
use super::super::fields::entries::vector;
use super::super::fields::entries::vectors;
use super::super::image::form::Form;
use super::super::lines::halves::value_of;
use super::super::lines::halves::write_half;

// ---- route and vector bytes: 64 each, from offsets that 64 divides. The two are told apart by number: an enum of them would be made here and taken apart at once.

/// ```text
/// requires { length image.now ≡ form_length (form_view form) }
/// ensures { Reads image.now result (λ d. entry d.core offset) }
/// ```
#[inline]
pub fn read_entry<const N: usize>(image: &[u8; N], offset: usize) -> u8 {
    match offset / 64 {
        4 => route(image, offset % 64),
        8 => vector(image, offset % 64),
        _ => 0,
    }
}

/// ```text
/// requires { length image.old ≡ form_length (form_view form) }
/// ensures { Writes image.old image.new 0 (λ c. entry_acts offset val) }
/// ```
#[inline]
pub fn write_entry<const N: usize>(image: &mut [u8; N], offset: usize, val: u8) {
    match offset / 64 {
        4 => put_routes(image, offset % 64, 1, val as u64),
        8 => put_vectors(image, offset % 64, 1, val as u64),
        _ => {}
    }
}

/// Several at once, where none is past the last input's.
///
/// ```text
/// requires { (length image.now ≡ form_length (form_view form)) × Run offset n × (n ≤ 8) }
/// ensures { Reads image.now result (λ d. number_of (entries_of d.core offset n)) }
/// ```
#[inline]
pub fn read_run<const N: usize>(image: &[u8; N], offset: usize, n: usize) -> u64 {
    assert!(n <= 8);
    if offset < 0x200 {
        routes(image, offset % 64, n)
    } else {
        vectors(image, offset % 64, n)
    }
}

/// By the table, in arms that are no two ways out of one test: of such the compiler brings the shifts together, and stores byte by byte.
///
/// ```text
/// requires { (length image.old ≡ form_length (form_view form)) × Run offset n }
/// ensures { Writes image.old image.new 0 (λ c. entries_acts offset n x) }
/// ```
#[inline]
pub fn write_run<const N: usize>(image: &mut [u8; N], offset: usize, n: usize, x: u64) {
    match offset / 64 {
        4 => put_routes(image, offset % 64, n, x),
        8 => put_vectors(image, offset % 64, n, x),
        _ => {}
    }
}

/// ```text
/// requires { (length image.now ≡ form_length (form_view form)) × (cell_at offset ≡ bytes) }
/// ensures { Reads image.now result (λ d. read_cell d.core offset bytes) }
/// ```
#[inline]
fn read_four<const N: usize>(image: &[u8; N], offset: usize) -> u32 {
    if offset % 64 <= 60 {
        return bits::half(read_run(image, offset, 4), false);
    }
    let a = read_entry(image, offset) as u32;
    let b = read_entry(image, offset + 1) as u32;
    let c = read_entry(image, offset + 2) as u32;
    let d = read_entry(image, offset + 3) as u32;
    a + 256 * (b + 256 * (c + 256 * d))
}

/// ```text
/// requires { (length image.old ≡ form_length (form_view form)) × (cell_at offset ≡ bytes) }
/// ensures { Writes image.old image.new 0 (λ c. cell_acts offset val bytes) }
/// ```
#[inline]
fn write_four<const N: usize>(image: &mut [u8; N], offset: usize, val: u32) {
    if offset % 64 <= 60 {
        write_run(image, offset, 4, val as u64);
        return;
    }
    write_entry(image, offset, bits::byte_of(val, 0));
    write_entry(image, offset + 1, bits::byte_of(val, 1));
    write_entry(image, offset + 2, bits::byte_of(val, 2));
    write_entry(image, offset + 3, bits::byte_of(val, 3));
}

// ---- a Dword

/// The image is lent anew in each arm: a shared slice that is passed on as it is gets copied, and then each caller hands it over in memory.
///
/// ```text
/// requires { length image.now ≡ form_length (form_view form) }
/// ensures { Reads image.now result (λ d. read_dword d.core offset) }
/// ```
#[inline]
pub fn read_dword<const N: usize>(image: &[u8; N], offset: usize) -> u32 {
    match map_low::decode_low(offset) {
        Cell::Half(register, high) => bits::half(value_of(&*image, register), high),
        Cell::Bytes => read_four(&*image, offset),
        Cell::Nothing => 0,
    }
}

/// ```text
/// requires { length image.old ≡ form_length (form_view form) }
/// ensures { (result ≤ 65) × Writes image.old image.new result (λ c. dword_acts offset val) }
/// ```
#[inline]
pub fn write_dword<const N: usize>(image: &mut [u8; N], offset: usize, val: u32) -> u32 {
    match map_low::decode_low(offset) {
        Cell::Half(register, high) => write_half(image, register, val, high),
        Cell::Bytes => {
            write_four(image, offset, val);
            0
        }
        Cell::Nothing => 0,
    }
}
