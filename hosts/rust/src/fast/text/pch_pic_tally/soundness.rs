// Made from crates/pch_pic_tally/src/soundness.rt by tools/portable: do not change it here.
//! From which bytes can be counted on: no number of 2^63 or more, and no wait that began behind all records. So no number that an add makes passes 2^64.
//! Two passes settle that a tally is whole. Only in one that is not the first wrong number is searched for.

use super::super::answer::refusals::Refusal;
use super::super::bits::bytes::word_at;

/// The numbers of a tally, those of its inputs, how many inputs there are, and the place of the number of records.
const NUMBERS: usize = 650;

const OF_INPUTS: usize = 640;

const INPUTS: usize = 64;

const COUNTED: usize = 5120;

/// No number is so great.
const LIMIT: u64 = 0x8000_0000_0000_0000;

/// Where the first wrong number stands.
#[derive(Clone, Copy)]
pub struct WrongAt(pub u64);

impl From<WrongAt> for Refusal {
    #[inline]
    fn from(wrong: WrongAt) -> Refusal {
        Refusal::WrongTally(wrong.0)
    }
}

/// ```text
/// ensures { result ≡ of_open_wait k }
/// ```
#[inline]
fn of_open_wait(k: usize) -> bool {
    (k % 10 == 9) & (k < OF_INPUTS)
}

/// ```text
/// ensures { result ≡ wrong_number x k counted }
/// ```
#[inline]
fn is_wrong(x: u64, k: usize, counted: u64) -> bool {
    (LIMIT <= x) | (of_open_wait(k) & (counted < x))
}

/// The bits that any number has: no number is greater.
///
/// ```text
/// requires { tally_length ≤ length tally.now }
/// ensures { NoneAbove tally.now result }
/// ```
#[inline]
fn all_bits(tally: &[u8]) -> u64 {
    assert!(5200 <= tally.len());
    let mut found = 0;
    for k in 0..NUMBERS {
        found |= word_at(tally, 8 * k);
    }
    found
}

/// The latest record at which a wait began.
///
/// ```text
/// requires { tally_length ≤ length tally.now }
/// ensures { NoneLater tally.now result }
/// ```
#[inline]
fn latest(tally: &[u8]) -> u64 {
    assert!(5200 <= tally.len());
    let mut most = 0u64;
    for n in 0..INPUTS {
        // the word first: the other way round each takes an instruction more
        most = word_at(tally, 80 * n + 72).max(most);
    }
    most
}

/// The first wrong number.
///
/// ```text
/// requires { tally_length ≤ length tally.now }
/// ensures { sound_view result ≡ tally_test tally.now }
/// ```
#[inline(never)]
fn search(tally: &[u8]) -> Result<(), WrongAt> {
    assert!(5200 <= tally.len());
    let counted = word_at(tally, COUNTED);
    for k in 0..NUMBERS {
        let at = 8 * k;
        if is_wrong(word_at(tally, at), k, counted) {
            return Err(WrongAt(at as u64));
        }
    }
    Ok(())
}

/// ```text
/// requires { tally_length ≤ length tally.now }
/// ensures { sound_view result ≡ tally_test tally.now }
/// ```
#[inline(never)]
pub fn test(tally: &[u8]) -> Result<(), WrongAt> {
    assert!(5200 <= tally.len());
    let bits = all_bits(&*tally);
    let last = latest(&*tally);
    let counted = word_at(tally, COUNTED);
    if (bits < LIMIT) & (last <= counted) {
        return Ok(());
    }
    search(tally)
}
