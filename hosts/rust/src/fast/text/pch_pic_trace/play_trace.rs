// Made from crates/pch_pic_trace/src/play_trace.rt by tools/portable: do not change it here.
//! A trace played from reset: tested whole, and then its records one after another.

use super::super::answer::refusals::Refusal;
use super::super::answer::Told;
use super::super::image::form::form_of;
use super::super::six_calls::reset_drain;
use super::play_records::play_all;
use super::play_records::roomy;

/// Of the image the length alone is tested; what is refused changes nothing.
///
/// ```text
/// ensures { ends result image.new answers.new events.new
///     ≡ play_ending trace.now image.old answers.old events.old }
/// ```
#[inline]
pub fn play<const N: usize>(
    trace: &[u8],
    image: &mut [u8; N],
    answers: &mut [u8],
    events: &mut [u8],
) -> Told {
    let Some(form) = form_of(image.len()) else {
        return Err(Refusal::WrongLength);
    };
    let records = roomy(trace, answers.len(), events.len())?;
    let _ = reset_drain::reset(image);
    play_all(
        trace,
        records.first,
        records.count,
        image,
        answers,
        events,
    );
    Ok(Some(records.count as u64))
}
