// Made from crates/pch_pic_trace/src/record_call.rt by tools/portable: do not change it here.
//! The exported call that a record of a trace is, but for a drain, made on an image that is accepted: with base 0 and size 65,536, and with nothing tested again.

use super::super::answer::Told;
use super::super::image::form::Form;
use super::super::six_calls::accepted_access;
use super::super::six_calls::accepted_input;
use super::super::trace::record_bytes::Record;
use super::super::trace::record_bytes::LOWER;
use super::super::trace::record_bytes::POLL;
use super::super::trace::record_bytes::RAISE;
use super::super::trace::record_bytes::READ;

const SIZE: u64 = 0x1_0000;

/// Any record but a drain. The offset is widened where it is used: before the match it is kept on the stack for every kind, and a record takes three instructions more.
///
/// ```text
/// requires { Callable (form_view form) (record_view r) image.old }
/// ensures { ends result image.new [] ≡ ending (request_of (record_view r)) image.old }
/// ```
pub fn call(image: &mut [u8], form: Form, r: Record) -> Told {
    let byte = r.byte as u64;
    match r.kind {
        RAISE => accepted_input::level(image, form, byte, 1),
        LOWER => accepted_input::level(image, form, byte, 0),
        POLL => accepted_input::poll(image, form, byte),
        READ => accepted_access::read(image, form, 0, SIZE, r.offset as u64, byte),
        _ => accepted_access::write(image, form, 0, SIZE, r.offset as u64, byte, r.value),
    }
}
