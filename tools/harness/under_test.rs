//! Makes a call of the library under test on lent areas. A read or a write is made a second time by the table, on areas that held the same, and has to leave
//! the same number and the same bytes.

use crate::call::{Call, From};
use crate::lent::{Areas, Block, Five};
use std::sync::atomic::{AtomicBool, Ordering};

static BOXED: AtomicBool = AtomicBool::new(false);

/// From now on each area is lent as a heap block of its own, no byte longer than it is said to be, so that a checker of memory sees any
/// access past it, a read too. The edges say nothing then.
#[allow(dead_code)]
pub fn box_areas() {
    BOXED.store(true, Ordering::Relaxed);
}

pub fn call(call: &Call, lent: &mut Areas) -> u8 {
    let twin = matches!(call, Call::Read { .. } | Call::Write { .. }).then(|| lent.clone());
    let number = on(call, lent, make);
    if let Some(mut twin) = twin {
        let other = on(call, &mut twin, make_by_table);
        assert_eq!(other, number, "by the table it hands back another number");
        assert!(twin.image.same(&lent.image), "by the table it leaves another image: {:?}", twin.image.difference(&lent.image));
        assert!(twin.answer.same(&lent.answer), "by the table it leaves another answer area: {:?}", twin.answer.difference(&lent.answer));
        assert!(twin.events.same(&lent.events), "by the table it leaves another event buffer");
        assert!(twin.target.same(&lent.target), "by the table it leaves another target");
    }
    number
}

#[allow(dead_code)]
pub fn difference(later: u16, earlier: u16) -> i16 {
    // SAFETY: it is lent nothing.
    unsafe { library::pch_pic_difference(later, earlier) }
}

/// Plays a trace, from a reset or on from the image.
#[allow(dead_code)]
pub fn play(from: From, lent: &mut Five) -> u8 {
    let Five { trace, image, answers, events, answer } = lent;
    lend([trace, image, answers, events, answer], |areas| make_play(from, areas))
}

/// Lends blocks to a call.
#[allow(dead_code)]
pub fn lend<const N: usize>(mut blocks: [&mut Block; N], make: impl FnOnce([Area; N]) -> u8) -> u8 {
    if !BOXED.load(Ordering::Relaxed) {
        return make(blocks.map(|block| block.lent()));
    }
    let mut boxes = blocks.each_ref().map(|block| Box::<[u8]>::from(block.bytes()));
    let number = make(boxes.each_mut().map(|block| (block.as_mut_ptr(), block.len())));
    for (block, left) in blocks.iter_mut().zip(&boxes) {
        block.slice().copy_from_slice(left);
    }
    number
}

#[allow(dead_code)]
pub fn make_play(from: From, [(t, tl), (i, il), (s, sl), (e, el), (a, al)]: [Area; 5]) -> u8 {
    // SAFETY: each pointer and length is an area of its own that outlives the call; an empty one may be null, as the boundary says.
    unsafe {
        match from {
            From::Reset => library::pch_pic_play(t, tl, i, il, s, sl, e, el, a, al),
            From::Image => library::pch_pic_play_on(t, tl, i, il, s, sl, e, el, a, al),
        }
    }
}

/// Asks who waits in the image.
#[allow(dead_code)]
pub fn waiting(lent: &mut Areas) -> u8 {
    // it has no numbers of its own, so that any call stands for it
    on(&Call::Reset, lent, |_, [image, answer, ..]| make_waiting([image, answer]))
}

#[allow(dead_code)]
pub fn make_waiting([(i, il), (a, al)]: [Area; 2]) -> u8 {
    // SAFETY: as above.
    unsafe { library::pch_pic_waiting(i, il, a, al) }
}

pub type Area = (*mut u8, usize);

fn on(call: &Call, lent: &mut Areas, make: fn(&Call, [Area; 4]) -> u8) -> u8 {
    let Areas { image, answer, events, target } = lent;
    if !BOXED.load(Ordering::Relaxed) {
        let lent =
            [(image.pointer(), image.len), (answer.pointer(), answer.len), (events.pointer(), events.len), (target.pointer(), target.len)];
        return make(call, lent);
    }
    let mut boxes = [image.bytes(), answer.bytes(), events.bytes(), target.bytes()].map(Box::<[u8]>::from);
    let number = make(call, boxes.each_mut().map(|block| (block.as_mut_ptr(), block.len())));
    image.slice().copy_from_slice(&boxes[0]);
    answer.slice().copy_from_slice(&boxes[1]);
    events.slice().copy_from_slice(&boxes[2]);
    target.slice().copy_from_slice(&boxes[3]);
    number
}

pub fn make(call: &Call, [(i, il), (a, al), (e, el), (t, tl)]: [Area; 4]) -> u8 {
    // SAFETY: each pointer and length is an area of its own that outlives the call; an empty one may be null, as the boundary says.
    unsafe {
        match *call {
            Call::Reset => library::pch_pic_reset(i, il, a, al),
            Call::Read { base, size, address, width } => library::pch_pic_read(i, il, base, size, address, width, a, al),
            Call::Write { base, size, address, width, value } => library::pch_pic_write(i, il, base, size, address, width, value, a, al),
            Call::Level { input, level } => library::pch_pic_level(i, il, input, level, a, al),
            Call::Poll { input } => library::pch_pic_poll(i, il, input, a, al),
            Call::Drain { place } => library::pch_pic_drain(i, il, e, el, place as usize, a, al),
            Call::Convert { .. } => library::pch_pic_convert(i, il, t, tl, a, al),
        }
    }
}

fn make_by_table(call: &Call, [(i, il), (a, al), ..]: [Area; 4]) -> u8 {
    // SAFETY: as above.
    unsafe {
        match *call {
            Call::Read { base, size, address, width } => library::pch_pic_table_read(i, il, base, size, address, width, a, al),
            Call::Write { base, size, address, width, value } => {
                library::pch_pic_table_write(i, il, base, size, address, width, value, a, al)
            }
            _ => unreachable!("only reads and writes are decoded"),
        }
    }
}
