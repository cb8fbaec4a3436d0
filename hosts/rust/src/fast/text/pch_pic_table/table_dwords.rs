// Made from crates/pch_pic_table/src/table_dwords.rt by tools/portable: do not change it here.
//! Dwords by the table, in place on an image: a half at its lowest byte; among the route and vector bytes four Bytes, low first.

use super::super::bits;
use super::super::image::form::Form;
use super::super::lines::halves::value_of;
use super::super::lines::halves::write_half;
use super::super::table::look;
use super::super::table::Place;
use super::table_bytes::read_byte;
use super::table_bytes::write_byte;

/// ```text
/// requires { (length image.now ≡ form_length (form_view form)) × Agrees table.now × (cell_at offset ≡ bytes) }
/// ensures { Reads image.now result (λ d. read_dword d.core offset) }
/// ```
#[inline]
fn read_four<const N: usize>(image: &[u8; N], table: &[[u8; 32]; 32], offset: usize) -> u32 {
    let a = read_byte(image, table, offset) as u32;
    let b = read_byte(image, table, offset + 1) as u32;
    let c = read_byte(image, table, offset + 2) as u32;
    let d = read_byte(image, table, offset + 3) as u32;
    a + 256 * (b + 256 * (c + 256 * d))
}

/// ```text
/// requires { (length image.now ≡ form_length (form_view form)) × Agrees table.now }
/// ensures { Reads image.now result (λ d. read_dword d.core offset) }
/// ```
#[inline]
pub fn read_dword<const N: usize>(image: &[u8; N], table: &[[u8; 32]; 32], offset: usize) -> u32 {
    match look(table, offset) {
        Place::Part {
            register,
            high,
            byte,
            ..
        } => {
            if byte != 0 {
                return 0;
            }
            bits::half(value_of(image, register), high)
        }
        Place::Route(_) | Place::Vector(_) => read_four(image, table, offset),
        Place::Nothing => 0,
    }
}

/// No Byte among them drops an event.
///
/// ```text
/// requires { (length image.old ≡ form_length (form_view form)) × Agrees table.now × (cell_at offset ≡ bytes) }
/// ensures { Writes image.old image.new 0 (λ c. dword_acts offset val) }
/// ```
#[inline]
fn write_four<const N: usize>(
    image: &mut [u8; N],
    table: &[[u8; 32]; 32],
    offset: usize,
    val: u32,
) {
    write_byte(image, table, offset, bits::byte_of(val, 0));
    write_byte(image, table, offset + 1, bits::byte_of(val, 1));
    write_byte(image, table, offset + 2, bits::byte_of(val, 2));
    write_byte(image, table, offset + 3, bits::byte_of(val, 3));
}

/// ```text
/// requires { (length image.old ≡ form_length (form_view form)) × Agrees table.now }
/// ensures { (result ≤ 65) × Writes image.old image.new result (λ c. dword_acts offset val) }
/// ```
#[inline]
pub fn write_dword<const N: usize>(
    image: &mut [u8; N],
    table: &[[u8; 32]; 32],
    offset: usize,
    val: u32,
) -> u32 {
    match look(table, offset) {
        Place::Part {
            register,
            high,
            byte,
            ..
        } => {
            if byte != 0 {
                return 0;
            }
            write_half(image, register, val, high)
        }
        Place::Route(_) | Place::Vector(_) => {
            write_four(image, table, offset, val);
            0
        }
        Place::Nothing => 0,
    }
}
