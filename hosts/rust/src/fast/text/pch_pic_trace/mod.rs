// Made from crates/pch_pic_trace/src/lib.rt by tools/portable: do not change it here.
//! The calls on a lent trace. None requires anything: every input has its outcome. Here is what lacks room, refusal 7, which writes no byte; the crates below test and play.

pub mod play_on;
pub mod play_records;
pub mod play_trace;
pub mod record_call;
pub mod record_step;

use self::play_records::ANSWER;
use super::answer;
use super::answer::refusals::NO_ROOM;

/// A trace played from reset on the image: each record's sixteen answer bytes, and the drained events back to back.
///
/// ```text
/// ensures { play_leaves result image.new answers.new events.new answer.new
///     ≡ playing trace.now image.old answers.old events.old answer.old }
/// ```
pub fn pch_pic_play(
    trace: &[u8],
    image: &mut [u8],
    answers: &mut [u8],
    events: &mut [u8],
    answer: &mut [u8],
) -> u8 {
    if answer.len() < 16 {
        return NO_ROOM;
    }
    if let Ok(image) = <&mut [u8; 259]>::try_from(&mut *image) {
        return pch_pic_play_of(trace, image, answers, events, answer);
    }
    if let Ok(image) = <&mut [u8; 251]>::try_from(&mut *image) {
        return pch_pic_play_of(trace, image, answers, events, answer);
    }
    if let Ok(image) = <&mut [u8; 290]>::try_from(&mut *image) {
        return pch_pic_play_of(trace, image, answers, events, answer);
    }
    pch_pic_play_of(trace, &mut [0u8; 0], answers, events, answer)
}

#[inline]
fn pch_pic_play_of<const N: usize>(
    trace: &[u8],
    image: &mut [u8; N],
    answers: &mut [u8],
    events: &mut [u8],
    answer: &mut [u8],
) -> u8 {
    let told = play_trace::play(trace, image, answers, events);
    answer::tell_late(answer, told)
}

/// A trace played on from the image as it is: in all else as from reset.
///
/// ```text
/// ensures { play_leaves result image.new answers.new events.new answer.new
///     ≡ playing_on trace.now image.old answers.old events.old answer.old }
/// ```
pub fn pch_pic_play_on(
    trace: &[u8],
    image: &mut [u8],
    answers: &mut [u8],
    events: &mut [u8],
    answer: &mut [u8],
) -> u8 {
    if answer.len() < ANSWER {
        return NO_ROOM;
    }
    if let Ok(image) = <&mut [u8; 259]>::try_from(&mut *image) {
        return pch_pic_play_on_of(trace, image, answers, events, answer);
    }
    if let Ok(image) = <&mut [u8; 251]>::try_from(&mut *image) {
        return pch_pic_play_on_of(trace, image, answers, events, answer);
    }
    if let Ok(image) = <&mut [u8; 290]>::try_from(&mut *image) {
        return pch_pic_play_on_of(trace, image, answers, events, answer);
    }
    pch_pic_play_on_of(trace, &mut [0u8; 0], answers, events, answer)
}

#[inline]
fn pch_pic_play_on_of<const N: usize>(
    trace: &[u8],
    image: &mut [u8; N],
    answers: &mut [u8],
    events: &mut [u8],
    answer: &mut [u8],
) -> u8 {
    let told = play_on::play(trace, image, answers, events);
    answer::tell_late(answer, told)
}
