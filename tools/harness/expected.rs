//! What 01 and 02 expect of a front's call.

use crate::board;
use crate::boundary::Boundary;
use crate::call::Call;
use crate::case::Front;
use crate::hoist;
use crate::lent::Block;
use crate::numbers;
use crate::played::{self, Lent};
use crate::salvaged;
use crate::sheet;
use crate::tally;

/// The number, and what the call leaves of the blocks.
pub fn expected(boundary: &mut Boundary, front: &Front, lent: &mut [Block]) -> u8 {
    match (front, lent) {
        (Front::Plain(call), [image, events, answer]) => boundary.perform(call, image.slice(), answer.slice(), events.slice(), &mut []),
        (Front::Convert, [image, target, answer]) => {
            let call = Call::Convert { target: target.bytes().len() };
            boundary.perform(&call, image.slice(), answer.slice(), &mut [], target.slice())
        }
        (&Front::Difference { later, earlier }, [difference]) => {
            let bytes = numbers::difference(later, earlier).to_le_bytes();
            difference.slice().iter_mut().zip(bytes).for_each(|(place, byte)| *place = byte);
            0
        }
        (&Front::Play(from), [trace, image, answers, events, answer]) => {
            let lent = Lent { trace: trace.bytes(), image: image.slice(), answers: answers.slice(), events: events.slice() };
            played::play(boundary, from, lent, answer.slice())
        }
        (Front::Board(call), [image, events, answer, board]) => {
            board::call(boundary, call, image.slice(), board.slice(), events.slice(), answer.slice())
        }
        (&Front::Event { vector, flag }, [board, answer]) => board::event(board.slice(), vector, flag, answer.slice()),
        (Front::Hoist(call), [image, phase, answer]) => hoist::call(boundary, call, image.slice(), phase.slice(), answer.slice()),
        (Front::EndStartup, [image, phase, answer]) => hoist::end_startup(image.bytes(), phase.slice(), answer.slice()),
        (Front::Salvage, [trace, kept, list, answer]) => salvaged::salvage(trace.bytes(), kept.slice(), list.slice(), answer.slice()),
        (Front::Waiting, [image, answer]) => boundary.waiting(image.bytes(), answer.slice()),
        (Front::Sheet, [trace, sheet, answer]) => sheet::sheet(boundary, trace.bytes(), sheet.slice(), answer.slice()),
        (Front::TallyBegin, [tally, answer]) => tally::begin(tally.slice(), answer.slice()),
        (Front::TallyAdd, [trace, image, tally, answer]) => {
            tally::add(boundary, trace.bytes(), image.bytes(), tally.slice(), answer.slice())
        }
        (Front::TallySheet, [tally, sheet, answer]) => tally::sheet(tally.bytes(), sheet.slice(), answer.slice()),
        _ => unreachable!("a case has the areas of its call"),
    }
}
