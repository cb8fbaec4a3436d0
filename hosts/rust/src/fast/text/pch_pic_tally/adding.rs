// Made from crates/pch_pic_tally/src/adding.rt by tools/portable: do not change it here.
//! The records of a trace, counted in a tally, as the day goes on from an image. The tests come first, in their order: the image, the trace, the tally.

use super::super::answer::accepted::accepted;
use super::super::answer::Told;
use super::super::fields::ring;
use super::super::fields::words;
use super::super::image::form::Form;
use super::super::ledger::cells::cell;
use super::super::ledger::cells::put_cell;
use super::super::ledger::follow::follow;
use super::super::ledger::totals::TOTAL;
use super::super::ledger::watch::Watched;
use super::super::trace;
use super::soundness;

/// What a pass keeps of the device that an image holds.
///
/// ```text
/// requires { length image.now ≡ form_length (form_view form) }
/// ensures { Keeps image.now result }
/// ```
#[inline]
fn kept_of<const N: usize>(image: &[u8; N]) -> Watched {
    Watched {
        mask: words::mask(image),
        irr: words::irr(image),
        isr: words::isr(image),
        waiting: ring::waiting(image),
    }
}

/// The records from the first place on have the numbers behind those that were counted.
///
/// ```text
/// requires { Reaches trace.now first records × (tally_length ≤ length tally.old) × (tally_test tally.old ≡ sound) }
/// ensures { CountsFrom trace.now records kept tally.old tally.new }
/// ```
#[inline]
fn count(trace: &[u8], first: usize, records: usize, kept: Watched, tally: &mut [u8]) {
    assert!(records <= 4000 && first <= trace.len() && 16 * records <= trace.len() - first && 5200 <= tally.len());
    let base = cell(tally, true, TOTAL, 0);
    follow(trace, first, records, tally, true, kept, base);
    put_cell(tally, true, TOTAL, 0, base + records as u64);
}

/// Of an accepted image.
///
/// ```text
/// requires { Passed (form_view form) image.now × (tally_length ≤ length tally.old) }
/// ensures { ends_as result tally.new ≡ added_to trace.now image.now tally.old }
/// ```
#[inline]
fn add_on<const N: usize>(trace: &[u8], image: &[u8; N], tally: &mut [u8]) -> Told {
    assert!(5200 <= tally.len());
    let records = trace::test(trace)?;
    soundness::test(tally)?;
    let kept = kept_of(image);
    count(trace, records.first, records.count, kept, tally);
    Ok(None)
}

/// ```text
/// requires { tally_length ≤ length tally.old }
/// ensures { ends_as result tally.new ≡ added trace.now image.now tally.old }
/// ```
#[inline]
pub fn add<const N: usize>(trace: &[u8], image: &[u8; N], tally: &mut [u8]) -> Told {
    assert!(5200 <= tally.len());
    let form = accepted(image)?;
    add_on(trace, image, tally)
}
