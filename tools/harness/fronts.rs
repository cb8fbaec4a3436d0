//! Makes a call of the later fronts of the library under test on lent blocks.

use crate::call::Call;
use crate::case::Front;
use crate::lent::Block;
use crate::under_test::{self, Area, lend};

/// An area that a call has not.
const NONE: Area = (std::ptr::null_mut(), 0);

/// Makes the call; the number that is handed back.
// SAFETY, of each: each pointer and length is an area of its own that outlives the call; an empty one may be null, as the boundary says.
pub fn make(front: &Front, lent: &mut [Block]) -> u8 {
    match (front, lent) {
        (Front::Plain(call), [image, events, answer]) => lend([image, answer, events], |[i, a, e]| under_test::make(call, [i, a, e, NONE])),
        (Front::Convert, [image, target, answer]) => {
            lend([image, answer, target], |[i, a, t]| under_test::make(&Call::Convert { target: t.1 }, [i, a, NONE, t]))
        }
        (&Front::Difference { later, earlier }, [difference]) => {
            let bytes = under_test::difference(later, earlier).to_le_bytes();
            difference.slice().iter_mut().zip(bytes).for_each(|(place, byte)| *place = byte);
            0
        }
        (&Front::Play(from), [trace, image, answers, events, answer]) => {
            lend([trace, image, answers, events, answer], |areas| under_test::make_play(from, areas))
        }
        (Front::Board(call), [image, events, answer, board]) => lend([image, events, answer, board], |areas| with_board(call, areas)),
        (&Front::Event { vector, flag }, [board, answer]) => {
            lend([board, answer], |[(b, bl), (a, al)]| unsafe { library::pch_pic_board_event(b, bl, vector, flag, a, al) })
        }
        (Front::Hoist(call), [image, phase, answer]) => lend([image, phase, answer], |areas| under_profile(call, areas)),
        (Front::EndStartup, [image, phase, answer]) => {
            lend([image, phase, answer], |[(i, il), (p, pl), (a, al)]| unsafe { library::pch_pic_hoist_end_startup(i, il, p, pl, a, al) })
        }
        (Front::Salvage, [trace, kept, list, answer]) => lend([trace, kept, list, answer], |[(t, tl), (k, kl), (l, ll), (a, al)]| unsafe {
            library::pch_pic_salvage(t, tl, k, kl, l, ll, a, al)
        }),
        (Front::Waiting, [image, answer]) => lend([image, answer], under_test::make_waiting),
        (Front::Sheet, [trace, sheet, answer]) => {
            lend([trace, sheet, answer], |[(t, tl), (s, sl), (a, al)]| unsafe { library::pch_pic_sheet(t, tl, s, sl, a, al) })
        }
        (Front::TallyBegin, [tally, answer]) => {
            lend([tally, answer], |[(t, tl), (a, al)]| unsafe { library::pch_pic_tally_begin(t, tl, a, al) })
        }
        (Front::TallyAdd, [trace, image, tally, answer]) => {
            lend([trace, image, tally, answer], |[(r, rl), (i, il), (t, tl), (a, al)]| unsafe {
                library::pch_pic_tally_add(r, rl, i, il, t, tl, a, al)
            })
        }
        (Front::TallySheet, [tally, sheet, answer]) => {
            lend([tally, sheet, answer], |[(t, tl), (s, sl), (a, al)]| unsafe { library::pch_pic_tally_sheet(t, tl, s, sl, a, al) })
        }
        _ => unreachable!("a case has the areas of its call"),
    }
}

fn with_board(call: &Call, [(i, il), (e, el), (a, al), (b, bl)]: [Area; 4]) -> u8 {
    unsafe {
        match *call {
            Call::Reset => library::pch_pic_board_reset(i, il, b, bl, a, al),
            Call::Read { base, size, address, width } => library::pch_pic_board_read(i, il, b, bl, base, size, address, width, a, al),
            Call::Write { base, size, address, width, value } => {
                library::pch_pic_board_write(i, il, b, bl, base, size, address, width, value, a, al)
            }
            Call::Level { input, level } => library::pch_pic_board_level(i, il, b, bl, input, level, a, al),
            Call::Poll { input } => library::pch_pic_board_poll(i, il, b, bl, input, a, al),
            Call::Drain { place } => library::pch_pic_board_drain(i, il, b, bl, e, el, place as usize, a, al),
            Call::Convert { .. } => unreachable!("a conversion has no board"),
        }
    }
}

fn under_profile(call: &Call, [(i, il), (p, pl), (a, al)]: [Area; 3]) -> u8 {
    unsafe {
        match *call {
            Call::Reset => library::pch_pic_hoist_reset(i, il, p, pl, a, al),
            Call::Read { base, size, address, width } => library::pch_pic_hoist_read(i, il, base, size, address, width, a, al),
            Call::Write { base, size, address, width, value } => {
                library::pch_pic_hoist_write(i, il, p, pl, base, size, address, width, value, a, al)
            }
            _ => unreachable!("the profile has no other call of its own"),
        }
    }
}
