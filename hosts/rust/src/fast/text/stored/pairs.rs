// Made from crates/stored/src/pairs.rt by tools/portable: do not change it here.
//! The ring's events as sixteen pairs of bytes, read and written: the oldest first, the unused ones zero.

use super::super::bits::bytes::put_zeros;
use super::super::device::state::Ring;
use super::super::image::form::FLAG;
use super::super::image::form::PAIR;

/// The ring of the events that pairs spell, from the first slot on.
///
/// ```text
/// requires { (length pairs.now ≡ 2 * capacity) × (len ≤ capacity) }
/// ensures { IsRing result (record { waiting = events_of len pairs.now; drops = drops }) }
/// ```
#[inline(always)]
pub fn ring_of(pairs: &[u8], len: usize, drops: u32) -> Ring {
    assert!(pairs.len() == 32 && len <= 16);
    let mut output_vectors = [0u8; 16];
    let mut output_asserted = [false; 16];
    for i in 0..16 {
        output_vectors[i] = pairs[PAIR * i];
        output_asserted[i] = pairs[PAIR * i + FLAG] == 1;
    }
    Ring {
        output_vectors,
        output_asserted,
        output_head: 0,
        output_len: len,
        output_drops: drops,
    }
}

/// The n oldest events as pairs, from the front of dst; every other byte stays.
///
/// ```text
/// requires { WellRing ring × (n ≤ ring.output_len) × (2 * n ≤ length dst.old) }
/// ensures { dst.new ≡ pairs_of (take n (ring_view ring).waiting) ++ drop (2 * n) dst.old }
/// ```
#[inline(always)]
fn put_events(dst: &mut [u8], ring: Ring, n: usize) {
    assert!(2 * n <= dst.len());
    for i in 0..n {
        let at = (ring.output_head + i) % 16;
        dst[PAIR * i] = ring.output_vectors[at];
        dst[PAIR * i + FLAG] = u8::from(ring.output_asserted[at]);
    }
}

/// All sixteen pairs: the unused ones are zeroed with the others, before the waiting ones are written.
///
/// ```text
/// requires { (length dst.old ≡ 2 * capacity) × WellRing ring }
/// ensures { dst.new ≡ sixteen event_twos (ring_view ring).waiting }
/// ```
#[inline(always)]
pub fn put_pairs(dst: &mut [u8], ring: Ring) {
    assert!(dst.len() == 32);
    put_zeros(dst);
    put_events(dst, ring, ring.output_len);
}
