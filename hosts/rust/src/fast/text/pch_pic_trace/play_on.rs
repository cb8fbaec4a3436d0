// Made from crates/pch_pic_trace/src/play_on.rt by tools/portable: do not change it here.
//! A trace played on from an image: the image is tested as its records' calls test it, the trace whole, and then its records are played one after another.

use super::super::answer::accepted::accepted;
use super::super::answer::Told;
use super::play_records::play_all;
use super::play_records::roomy;

/// What is refused changes nothing: the image first, then the trace, and last the room.
///
/// ```text
/// ensures { ends result image.new answers.new events.new
///     ≡ play_on_ending trace.now image.old answers.old events.old }
/// ```
#[inline]
pub fn play<const N: usize>(
    trace: &[u8],
    image: &mut [u8; N],
    answers: &mut [u8],
    events: &mut [u8],
) -> Told {
    let form = accepted(image)?;
    let records = roomy(trace, answers.len(), events.len())?;
    play_all(
        trace,
        records.first,
        records.count,
        image,
        answers,
        events,
    );
    Ok(Some(records.count as u64))
}
