// Made from crates/pch_pic_table/src/table_bytes.rt by tools/portable: do not change it here.
//! Bytes by the table, in place on an image.

use super::super::bits;
use super::super::fields::entries::put_routes;
use super::super::fields::entries::put_vectors;
use super::super::fields::entries::route;
use super::super::fields::entries::vector;
use super::super::image::form::Form;
use super::super::lines::halves::value_of;
use super::super::lines::halves::write_half;
use super::super::table::look;
use super::super::table::Place;

/// ```text
/// requires { (length image.now ≡ form_length (form_view form)) × Agrees table.now }
/// ensures { Reads image.now result (λ d. read_byte d.core offset) }
/// ```
#[inline]
pub fn read_byte<const N: usize>(image: &[u8; N], table: &[[u8; 32]; 32], offset: usize) -> u8 {
    match look(table, offset) {
        Place::Part {
            register,
            high,
            byte,
            silent,
        } => {
            if silent {
                return 0;
            }
            bits::byte_of(bits::half(value_of(image, register), high), byte)
        }
        Place::Route(input) => route(image, input),
        Place::Vector(input) => vector(image, input),
        Place::Nothing => 0,
    }
}

/// ```text
/// requires { (length image.old ≡ form_length (form_view form)) × Agrees table.now }
/// ensures { (result ≤ 65) × Writes image.old image.new result (λ c. byte_acts c offset val) }
/// ```
#[inline]
pub fn write_byte<const N: usize>(
    image: &mut [u8; N],
    table: &[[u8; 32]; 32],
    offset: usize,
    val: u8,
) -> u32 {
    match look(table, offset) {
        Place::Part {
            register,
            high,
            byte,
            silent,
        } => {
            if silent {
                return 0;
            }
            let old = bits::half(value_of(image, register), high);
            write_half(image, register, bits::with_byte(old, byte, val), high)
        }
        Place::Route(input) => {
            put_routes(image, input, 1, val as u64);
            0
        }
        Place::Vector(input) => {
            put_vectors(image, input, 1, val as u64);
            0
        }
        Place::Nothing => 0,
    }
}
