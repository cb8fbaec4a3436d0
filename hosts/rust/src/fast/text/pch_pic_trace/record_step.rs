// Made from crates/pch_pic_trace/src/record_step.rt by tools/portable: do not change it here.
//! One record of a trace played on an image that is accepted: a drain of all, or the call that it is; and its answer.

use super::super::answer::put_answer;
use super::super::answer::tell;
use super::super::drain::drains;
use super::super::image::form;
use super::super::image::form::Form;
use super::super::trace::record_bytes::Record;
use super::super::trace::record_bytes::DRAIN;
use super::record_call::call;

/// The room of a drain of all.
pub const ROOM: usize = 64;

/// A drain of all; how many bytes of events came out.
///
/// ```text
/// requires { Drainable (form_view form) (record_view r) image.old answer.old out.old }
/// ensures { Steps (record_view r) image.old image.new answer.new out.old out.new result }
/// ```
#[inline]
fn drain_all<const N: usize>(
    image: &mut [u8; N],
    r: Record,
    answer: &mut [u8],
    out: &mut [u8],
) -> usize {
    assert!(answer.len() == 16 && out.len() == 64);
    let count = drains::drain(image, out);
    put_answer(answer, 0, Some(count as u64));
    form::EVENT * count
}

/// Sixteen bytes are its answer, and what it drains goes to the front of the events; how many bytes these are.
///
/// ```text
/// requires { Playable (form_view form) (record_view r) image.old answer.old events.old }
/// ensures { Steps (record_view r) image.old image.new answer.new events.old events.new result }
/// ```
#[inline]
pub fn step<const N: usize>(
    image: &mut [u8; N],
    r: Record,
    answer: &mut [u8],
    events: &mut [u8],
) -> usize {
    assert!(answer.len() == 16);
    if r.kind == DRAIN {
        return drain_all(image, r, answer, &mut events[0..ROOM]);
    }
    let told = call(image, r);
    tell(answer, told);
    0
}
