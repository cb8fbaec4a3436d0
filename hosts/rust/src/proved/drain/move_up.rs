// Made from crates/drain/src/move_up.rt by tools/portable: do not change it here.
//! Things of two bytes, of which the first go: the others move to the front, and zeros follow them.

use super::super::bits::bytes::copy;
use super::super::bits::bytes::put_zeros;
use super::super::image::form;

/// Of `len` things of two bytes the first n go. Those that are left are read from a room of twice the length, in whose second half are zeros: so all move by loads and
/// stores of a fixed length, however many they are. Where none is left nothing moves: the whole room becomes zeros.
///
/// ```text
/// requires { (n ≤ len) × (len ≤ capacity) × (length dst.old ≡ pairs_length) }
/// ensures { Leaves dst.old dst.new len n }
/// ```
pub fn leave(dst: &mut [u8], n: usize, len: usize) {
    if n < len {
        let mut room = [0u8; 64];
        copy(&mut room[0..32], dst);
        let from = form::PAIR * n;
        let end = from + form::PAIRS_LENGTH;
        copy(dst, &room[from..end]);
    } else {
        put_zeros(dst);
    }
}
