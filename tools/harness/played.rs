//! What is expected of a play, from a reset (02, C-11) or on from an image: its refusals, and the calls of its records made one after another by the boundary, over the
//! device of the published Rust.

use crate::boundary::Boundary;
use crate::call::{Call, From};
use crate::image::{self, Form};
use crate::trace::{self, DRAIN, ROOM};

/// What is lent to a play, beside the answer area.
pub struct Lent<'a> {
    pub trace: &'a [u8],
    pub image: &'a mut [u8],
    pub answers: &'a mut [u8],
    pub events: &'a mut [u8],
}

pub fn play(boundary: &mut Boundary, from: From, lent: Lent, answer: &mut [u8]) -> u8 {
    if answer.len() < 16 {
        return 7;
    }
    let (number, value) = match played(boundary, from, lent) {
        Ok(records) => (0, Some(records)),
        Err((7, _)) => return 7,
        Err(refused) => refused,
    };
    answer[..16].fill(0);
    answer[0] = number;
    if let Some(value) = value {
        answer[1] = 1;
        answer[8..16].copy_from_slice(&value.to_le_bytes());
    }
    number
}

/// How many records were played, or the refusal and its value. All of them come before anything is played.
fn played(boundary: &mut Boundary, from: From, lent: Lent) -> Result<u64, (u8, Option<u64>)> {
    let Lent { trace, image, answers, events } = lent;
    if Form::of(image.len()).is_none() {
        return Err((4, None));
    }
    if from == From::Image {
        // as each of the records' calls would test it
        match image::test(image) {
            (0, _) => {}
            refused => return Err(refused),
        }
    }
    let records = trace::test(trace)?;
    let drains = records.iter().filter(|record| record[0] == DRAIN).count();
    if answers.len() < 16 * records.len() || events.len() < ROOM * drains {
        return Err((7, None));
    }
    if from == From::Reset {
        let reset = boundary.perform(&Call::Reset, image, &mut [0; 16], &mut [], &mut []);
        assert_eq!(reset, 0, "bytes of a form's length can be reset");
    }
    let mut used = 0;
    for (record, answer) in records.iter().zip(answers.chunks_mut(16)) {
        let number = boundary.perform(&trace::call(record, used), image, answer, events, &mut []);
        // the value of a drain is how many it moved
        if record[0] == DRAIN && number == 0 {
            used += 4 * usize::from(answer[8]);
        }
    }
    Ok(records.len() as u64)
}
