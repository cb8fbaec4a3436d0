// Made from crates/pch_pic_trace/src/play_records.rt by tools/portable: do not change it here.
//! The records of a good trace, one after another: how many of them drain, whether there is room for them, and all of them played on an image that is accepted, with
//! nothing of it tested again.

use super::super::answer::refusals::Refusal;
use super::super::image::form::Form;
use super::super::trace;
use super::super::trace::contents::Records;
use super::super::trace::record_bytes::DRAIN;
use super::super::trace::record_bytes::LENGTH;
use super::super::trace::record_view::record_at;
use super::record_step::step;
use super::record_step::ROOM;

/// The bytes of an answer.
pub const ANSWER: usize = 16;

/// How many of the records drain.
///
/// ```text
/// requires { Reaches trace.now first records }
/// ensures { result ≡ drains_in (records_from trace.now records 0) }
/// ```
pub fn count_drains(trace: &[u8], first: usize, records: usize) -> usize {
    let mut drains = 0;
    for k in 0..records {
        let r = record_at(trace, first + LENGTH * k);
        if r.kind == DRAIN {
            drains += 1;
        }
    }
    drains
}

/// The records of a good trace, where so many bytes are room for their answers, and so many for the events of those that drain.
///
/// ```text
/// ensures { Fits result trace.now answers events }
/// ```
pub fn roomy(trace: &[u8], answers: usize, events: usize) -> Result<Records, Refusal> {
    let records = trace::test(trace)?;
    if answers < ANSWER * records.count {
        return Err(Refusal::NoRoom);
    }
    let drains = count_drains(trace, records.first, records.count);
    if events < ROOM * drains {
        return Err(Refusal::NoRoom);
    }
    Ok(records)
}

/// The records of a good trace, on an image that is accepted. A record's answer has its own sixteen bytes, and events follow those before them. It is counted in
/// bytes: counted in records, a round has a shift and a copy more.
///
/// ```text
/// requires { Ready trace.now first records (form_view form) image.old answers.old events.old }
/// ensures { PlayedTo trace.now records image.old answers.old events.old
///     image.new answers.new events.new }
/// ```
pub fn play_all(
    trace: &[u8],
    first: usize,
    records: usize,
    image: &mut [u8],
    form: Form,
    answers: &mut [u8],
    events: &mut [u8],
) {
    let last = ANSWER * records;
    let mut used = 0;
    let mut at = 0;
    while at < last {
        let r = record_at(trace, first + at);
        let end = at + ANSWER;
        used += step(image, form, r, &mut answers[at..end], &mut events[used..]);
        at = end;
    }
}
