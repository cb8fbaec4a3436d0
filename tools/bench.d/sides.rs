//! The sides that are measured, and the loops that are timed: the library, plain Rust in two shapes, and nothing, which shows what the loop itself
//! costs.

use crate::call::Call;
use crate::kinds::{Kind, NUMBERED, Slot};
use crate::plays::{Lent, Play, Way};
use std::hint::black_box;
use std::slice::{from_raw_parts as part, from_raw_parts_mut as part_mut};

mod library {
    // Bound when the program is linked, so that another archive needs no other build.
    unsafe extern "C" {
        pub fn pch_pic_reset(image: *mut u8, il: usize, answer: *mut u8, al: usize) -> u8;
        pub fn pch_pic_read(i: *const u8, il: usize, base: u64, size: u64, address: u64, width: u64, answer: *mut u8, al: usize) -> u8;
        pub fn pch_pic_write(
            i: *mut u8,
            il: usize,
            base: u64,
            size: u64,
            at: u64,
            width: u64,
            value: u64,
            answer: *mut u8,
            al: usize,
        ) -> u8;
        pub fn pch_pic_level(image: *mut u8, il: usize, input: u64, level: u64, answer: *mut u8, al: usize) -> u8;
        pub fn pch_pic_poll(image: *mut u8, il: usize, input: u64, answer: *mut u8, al: usize) -> u8;
        pub fn pch_pic_drain(image: *mut u8, il: usize, events: *mut u8, el: usize, place: usize, answer: *mut u8, al: usize) -> u8;
        pub fn pch_pic_convert(image: *const u8, il: usize, target: *mut u8, tl: usize, answer: *mut u8, al: usize) -> u8;
        pub fn pch_pic_play(
            trace: *const u8,
            tl: usize,
            image: *mut u8,
            il: usize,
            answers: *mut u8,
            bl: usize,
            events: *mut u8,
            el: usize,
            answer: *mut u8,
            al: usize,
        ) -> u8;
        pub fn pch_pic_play_on(
            trace: *const u8,
            tl: usize,
            image: *mut u8,
            il: usize,
            answers: *mut u8,
            bl: usize,
            events: *mut u8,
            el: usize,
            answer: *mut u8,
            al: usize,
        ) -> u8;
        pub fn pch_pic_salvage(
            trace: *const u8,
            tl: usize,
            kept: *mut u8,
            kl: usize,
            list: *mut u8,
            ll: usize,
            answer: *mut u8,
            al: usize,
        ) -> u8;
        pub fn pch_pic_tally_begin(tally: *mut u8, tl: usize, answer: *mut u8, al: usize) -> u8;
        pub fn pch_pic_tally_add(
            trace: *const u8,
            rl: usize,
            image: *const u8,
            il: usize,
            tally: *mut u8,
            tl: usize,
            answer: *mut u8,
            al: usize,
        ) -> u8;
        pub fn pch_pic_tally_sheet(tally: *const u8, tl: usize, sheet: *mut u8, sl: usize, answer: *mut u8, al: usize) -> u8;
        pub fn pch_pic_sheet(trace: *const u8, tl: usize, sheet: *mut u8, sl: usize, answer: *mut u8, al: usize) -> u8;
    }
}
pub use library::*;

/// An area as C lends it.
pub type Area = (*mut u8, usize);

/// The calls of a side.
///
/// SAFETY of each: the areas are there at the lengths said, apart from one another.
pub trait Side {
    unsafe fn reset(image: Area, answer: Area) -> u8;
    unsafe fn read(image: Area, window: (u64, u64), address: u64, width: u64, answer: Area) -> u8;
    unsafe fn write(image: Area, window: (u64, u64), address: u64, width: u64, value: u64, answer: Area) -> u8;
    unsafe fn level(image: Area, input: u64, level: u64, answer: Area) -> u8;
    unsafe fn poll(image: Area, input: u64, answer: Area) -> u8;
    unsafe fn drain(image: Area, events: Area, place: usize, answer: Area) -> u8;
    unsafe fn convert(image: Area, target: Area, answer: Area) -> u8;
    unsafe fn play(trace: &[u8], image: Area, answers: Area, events: Area, answer: Area) -> u8;
    unsafe fn play_on(trace: &[u8], image: Area, answers: Area, events: Area, answer: Area) -> u8;
    unsafe fn salvage(trace: &[u8], kept: Area, list: Area, answer: Area) -> u8;
    unsafe fn sheet(trace: &[u8], sheet: Area, answer: Area) -> u8;
    unsafe fn tally_add(trace: &[u8], image: &[u8], tally: Area, answer: Area) -> u8;
    unsafe fn tally_sheet(tally: &[u8], sheet: Area, answer: Area) -> u8;
}

pub struct Library;

impl Side for Library {
    #[inline(always)]
    unsafe fn reset(i: Area, a: Area) -> u8 {
        unsafe { pch_pic_reset(i.0, i.1, a.0, a.1) }
    }
    #[inline(always)]
    unsafe fn read(i: Area, (base, size): (u64, u64), address: u64, width: u64, a: Area) -> u8 {
        unsafe { pch_pic_read(i.0, i.1, base, size, address, width, a.0, a.1) }
    }
    #[inline(always)]
    unsafe fn write(i: Area, (base, size): (u64, u64), address: u64, width: u64, value: u64, a: Area) -> u8 {
        unsafe { pch_pic_write(i.0, i.1, base, size, address, width, value, a.0, a.1) }
    }
    #[inline(always)]
    unsafe fn level(i: Area, input: u64, level: u64, a: Area) -> u8 {
        unsafe { pch_pic_level(i.0, i.1, input, level, a.0, a.1) }
    }
    #[inline(always)]
    unsafe fn poll(i: Area, input: u64, a: Area) -> u8 {
        unsafe { pch_pic_poll(i.0, i.1, input, a.0, a.1) }
    }
    #[inline(always)]
    unsafe fn drain(i: Area, e: Area, place: usize, a: Area) -> u8 {
        unsafe { pch_pic_drain(i.0, i.1, e.0, e.1, place, a.0, a.1) }
    }
    #[inline(always)]
    unsafe fn convert(i: Area, t: Area, a: Area) -> u8 {
        unsafe { pch_pic_convert(i.0, i.1, t.0, t.1, a.0, a.1) }
    }
    #[inline(always)]
    unsafe fn play(trace: &[u8], i: Area, b: Area, e: Area, a: Area) -> u8 {
        unsafe { pch_pic_play(trace.as_ptr(), trace.len(), i.0, i.1, b.0, b.1, e.0, e.1, a.0, a.1) }
    }
    #[inline(always)]
    unsafe fn play_on(trace: &[u8], i: Area, b: Area, e: Area, a: Area) -> u8 {
        unsafe { pch_pic_play_on(trace.as_ptr(), trace.len(), i.0, i.1, b.0, b.1, e.0, e.1, a.0, a.1) }
    }
    #[inline(always)]
    unsafe fn salvage(trace: &[u8], k: Area, l: Area, a: Area) -> u8 {
        unsafe { pch_pic_salvage(trace.as_ptr(), trace.len(), k.0, k.1, l.0, l.1, a.0, a.1) }
    }
    #[inline(always)]
    unsafe fn sheet(trace: &[u8], s: Area, a: Area) -> u8 {
        unsafe { pch_pic_sheet(trace.as_ptr(), trace.len(), s.0, s.1, a.0, a.1) }
    }
    #[inline(always)]
    unsafe fn tally_add(trace: &[u8], image: &[u8], t: Area, a: Area) -> u8 {
        unsafe { pch_pic_tally_add(trace.as_ptr(), trace.len(), image.as_ptr(), image.len(), t.0, t.1, a.0, a.1) }
    }
    #[inline(always)]
    unsafe fn tally_sheet(tally: &[u8], s: Area, a: Area) -> u8 {
        unsafe { pch_pic_tally_sheet(tally.as_ptr(), tally.len(), s.0, s.1, a.0, a.1) }
    }
}

/// A side that is a crate of plain Rust.
macro_rules! rust {
    ($side:ident, $of:ident) => {
        pub struct $side;

        impl Side for $side {
            #[inline(always)]
            unsafe fn reset(i: Area, a: Area) -> u8 {
                unsafe { $of::reset(part_mut(i.0, i.1), part_mut(a.0, a.1)) }
            }
            #[inline(always)]
            unsafe fn read(i: Area, (base, size): (u64, u64), address: u64, width: u64, a: Area) -> u8 {
                unsafe { $of::read(part(i.0, i.1), base, size, address, width, part_mut(a.0, a.1)) }
            }
            #[inline(always)]
            unsafe fn write(i: Area, (base, size): (u64, u64), address: u64, width: u64, value: u64, a: Area) -> u8 {
                unsafe { $of::write(part_mut(i.0, i.1), base, size, address, width, value, part_mut(a.0, a.1)) }
            }
            #[inline(always)]
            unsafe fn level(i: Area, input: u64, level: u64, a: Area) -> u8 {
                unsafe { $of::level(part_mut(i.0, i.1), input, level, part_mut(a.0, a.1)) }
            }
            #[inline(always)]
            unsafe fn poll(i: Area, input: u64, a: Area) -> u8 {
                unsafe { $of::poll(part_mut(i.0, i.1), input, part_mut(a.0, a.1)) }
            }
            #[inline(always)]
            unsafe fn drain(i: Area, e: Area, place: usize, a: Area) -> u8 {
                unsafe { $of::drain(part_mut(i.0, i.1), part_mut(e.0, e.1), place, part_mut(a.0, a.1)) }
            }
            #[inline(always)]
            unsafe fn convert(i: Area, t: Area, a: Area) -> u8 {
                unsafe { $of::convert(part(i.0, i.1), part_mut(t.0, t.1), part_mut(a.0, a.1)) }
            }
            #[inline(always)]
            unsafe fn play(trace: &[u8], i: Area, b: Area, e: Area, a: Area) -> u8 {
                unsafe { $of::play(trace, part_mut(i.0, i.1), part_mut(b.0, b.1), part_mut(e.0, e.1), part_mut(a.0, a.1)) }
            }
            #[inline(always)]
            unsafe fn play_on(trace: &[u8], i: Area, b: Area, e: Area, a: Area) -> u8 {
                unsafe { $of::play_on(trace, part_mut(i.0, i.1), part_mut(b.0, b.1), part_mut(e.0, e.1), part_mut(a.0, a.1)) }
            }
            #[inline(always)]
            unsafe fn salvage(trace: &[u8], k: Area, l: Area, a: Area) -> u8 {
                unsafe { $of::salvage(trace, part_mut(k.0, k.1), part_mut(l.0, l.1), part_mut(a.0, a.1)) }
            }
            #[inline(always)]
            unsafe fn sheet(trace: &[u8], s: Area, a: Area) -> u8 {
                unsafe { $of::sheet(trace, part_mut(s.0, s.1), part_mut(a.0, a.1)) }
            }
            #[inline(always)]
            unsafe fn tally_add(trace: &[u8], image: &[u8], t: Area, a: Area) -> u8 {
                unsafe { $of::tally_add(trace, image, part_mut(t.0, t.1), part_mut(a.0, a.1)) }
            }
            #[inline(always)]
            unsafe fn tally_sheet(tally: &[u8], s: Area, a: Area) -> u8 {
                unsafe { $of::tally_sheet(tally, part_mut(s.0, s.1), part_mut(a.0, a.1)) }
            }
        }
    };
}
rust!(Plain, plain);
rust!(Lean, lean);

/// The calls of the portable text by the names that the sides have.
pub mod portable {
    pub use text::calls::{
        pch_pic_board_drain as board_drain, pch_pic_board_event as board_event, pch_pic_board_level as board_level,
        pch_pic_board_poll as board_poll, pch_pic_board_read as board_read, pch_pic_board_reset as board_reset,
        pch_pic_board_write as board_write, pch_pic_convert as convert, pch_pic_drain as drain,
        pch_pic_hoist_end_startup as hoist_end_startup, pch_pic_hoist_read as hoist_read, pch_pic_hoist_reset as hoist_reset,
        pch_pic_hoist_write as hoist_write, pch_pic_level as level, pch_pic_play as play, pch_pic_play_on as play_on, pch_pic_poll as poll,
        pch_pic_read as read, pch_pic_reset as reset, pch_pic_salvage as salvage, pch_pic_sheet as sheet, pch_pic_tally_add as tally_add,
        pch_pic_tally_sheet as tally_sheet, pch_pic_waiting as waiting, pch_pic_write as write,
    };
}
rust!(Portable, portable);

pub struct Nothing;

#[inline(never)]
pub extern "C" fn nothing(image: *mut u8, answer: *mut u8) -> u8 {
    black_box((image, answer));
    0
}

impl Side for Nothing {
    #[inline(always)]
    unsafe fn reset(i: Area, a: Area) -> u8 {
        nothing(i.0, a.0)
    }
    #[inline(always)]
    unsafe fn read(i: Area, _: (u64, u64), _: u64, _: u64, a: Area) -> u8 {
        nothing(i.0, a.0)
    }
    #[inline(always)]
    unsafe fn write(i: Area, _: (u64, u64), _: u64, _: u64, _: u64, a: Area) -> u8 {
        nothing(i.0, a.0)
    }
    #[inline(always)]
    unsafe fn level(i: Area, _: u64, _: u64, a: Area) -> u8 {
        nothing(i.0, a.0)
    }
    #[inline(always)]
    unsafe fn poll(i: Area, _: u64, a: Area) -> u8 {
        nothing(i.0, a.0)
    }
    #[inline(always)]
    unsafe fn drain(i: Area, _: Area, _: usize, a: Area) -> u8 {
        nothing(i.0, a.0)
    }
    #[inline(always)]
    unsafe fn convert(i: Area, _: Area, a: Area) -> u8 {
        nothing(i.0, a.0)
    }
    #[inline(always)]
    unsafe fn play(_: &[u8], i: Area, _: Area, _: Area, a: Area) -> u8 {
        nothing(i.0, a.0)
    }
    #[inline(always)]
    unsafe fn play_on(_: &[u8], i: Area, _: Area, _: Area, a: Area) -> u8 {
        nothing(i.0, a.0)
    }
    #[inline(always)]
    unsafe fn salvage(_: &[u8], k: Area, _: Area, a: Area) -> u8 {
        nothing(k.0, a.0)
    }
    #[inline(always)]
    unsafe fn sheet(_: &[u8], s: Area, a: Area) -> u8 {
        nothing(s.0, a.0)
    }
    #[inline(always)]
    unsafe fn tally_add(_: &[u8], _: &[u8], t: Area, a: Area) -> u8 {
        nothing(t.0, a.0)
    }
    #[inline(always)]
    unsafe fn tally_sheet(_: &[u8], s: Area, a: Area) -> u8 {
        nothing(s.0, a.0)
    }
}

/// The call, made once, on the lengths said.
#[inline(always)]
pub fn make<S: Side>(call: &Call, slot: &mut Slot, image_len: usize, answer_len: usize) -> u8 {
    assert!(image_len <= NUMBERED && answer_len <= 16);
    let image = (slot.image.as_mut_ptr(), image_len);
    let answer = (slot.answer.as_mut_ptr(), answer_len);
    // SAFETY: the areas are the slot's, apart from one another, and no longer than they are.
    unsafe {
        match *call {
            Call::Reset => S::reset(image, answer),
            Call::Read { base, size, address, width } => S::read(image, (base, size), address, width, answer),
            Call::Write { base, size, address, width, value } => S::write(image, (base, size), address, width, value, answer),
            Call::Level { input, level } => S::level(image, input, level, answer),
            Call::Poll { input } => S::poll(image, input, answer),
            Call::Drain { place } => S::drain(image, (slot.events.as_mut_ptr(), slot.events.len()), place as usize, answer),
            // What comes of it is looked at by converted.
            Call::Convert { target } => S::convert(image, ([0; NUMBERED].as_mut_ptr(), target.min(NUMBERED)), answer),
        }
    }
}

/// A conversion, and the target that it wrote.
pub fn converted<S: Side>(slot: &mut Slot, image_len: usize, answer_len: usize, target_len: usize) -> (u8, [u8; NUMBERED]) {
    assert!(image_len <= NUMBERED && answer_len <= 16 && target_len <= NUMBERED);
    let mut target = [0xcc; NUMBERED];
    let (image, answer) = ((slot.image.as_mut_ptr(), image_len), (slot.answer.as_mut_ptr(), answer_len));
    // SAFETY: as in make.
    let number = unsafe { S::convert(image, (target.as_mut_ptr(), target_len), answer) };
    (number, target)
}

/// The timed loop over prepared slots: one call on each. Each sort of call has a loop of its own, so that there is no match in it.
#[inline(always)]
fn each<S: Side>(kind: &Kind, slots: &mut [Slot]) {
    let (il, al) = (black_box(kind.image_len), black_box(kind.answer_len));
    assert!(il <= NUMBERED && al <= 16);
    macro_rules! all {
        ($call:ident, $($number:expr),*) => {
            for slot in slots {
                // SAFETY: as in make.
                black_box(unsafe { S::$call((slot.image.as_mut_ptr(), il), $($number,)* (slot.answer.as_mut_ptr(), al)) });
            }
        };
    }
    match black_box(kind.call) {
        Call::Reset => all!(reset,),
        Call::Read { base, size, address, width } => all!(read, (base, size), address, width),
        Call::Write { base, size, address, width, value } => all!(write, (base, size), address, width, value),
        Call::Level { input, level } => all!(level, input, level),
        Call::Poll { input } => all!(poll, input),
        Call::Drain { place } => {
            for slot in slots {
                let events = (slot.events.as_mut_ptr(), slot.events.len());
                // SAFETY: as in make.
                black_box(unsafe { S::drain((slot.image.as_mut_ptr(), il), events, place as usize, (slot.answer.as_mut_ptr(), al)) });
            }
        }
        Call::Convert { target } => {
            let (mut bytes, tl) = ([0; NUMBERED], target.min(NUMBERED));
            for slot in slots {
                let target = (bytes.as_mut_ptr(), tl);
                // SAFETY: as in make; one target serves all.
                black_box(unsafe { S::convert((slot.image.as_mut_ptr(), il), target, (slot.answer.as_mut_ptr(), al)) });
            }
        }
    }
}

#[inline(always)]
fn day<S: Side>(calls: &[Call], slot: &mut Slot, image_len: usize) {
    for call in calls {
        black_box(make::<S>(call, slot, image_len, 16));
    }
}

/// The trace played in one call. The number that is handed back.
#[inline(always)]
pub fn play<S: Side>(trace: &[u8], lent: &mut Lent) -> u8 {
    let area = |bytes: &mut Vec<u8>| (bytes.as_mut_ptr(), bytes.len());
    // SAFETY: the areas are what is lent, apart from one another, as long as they are.
    unsafe { S::play(trace, area(&mut lent.image), area(&mut lent.answers), area(&mut lent.events), area(&mut lent.answer)) }
}

/// The trace played on from the image. The number that is handed back.
#[inline(always)]
pub fn play_on<S: Side>(trace: &[u8], lent: &mut Lent) -> u8 {
    let area = |bytes: &mut Vec<u8>| (bytes.as_mut_ptr(), bytes.len());
    // SAFETY: as in play.
    unsafe { S::play_on(trace, area(&mut lent.image), area(&mut lent.answers), area(&mut lent.events), area(&mut lent.answer)) }
}

/// The trace salvaged. The number that is handed back.
#[inline(always)]
pub fn salvage<S: Side>(trace: &[u8], lent: &mut Lent) -> u8 {
    let area = |bytes: &mut Vec<u8>| (bytes.as_mut_ptr(), bytes.len());
    // SAFETY: as in play.
    unsafe { S::salvage(trace, area(&mut lent.kept), area(&mut lent.list), area(&mut lent.answer)) }
}

/// The sheet of the trace. The number that is handed back.
#[inline(always)]
pub fn sheet<S: Side>(trace: &[u8], lent: &mut Lent) -> u8 {
    // SAFETY: as in play.
    unsafe { S::sheet(trace, (lent.sheet.as_mut_ptr(), lent.sheet.len()), (lent.answer.as_mut_ptr(), lent.answer.len())) }
}

/// The trace added to the tally, as the day goes on from the image. The number that is handed back.
#[inline(always)]
pub fn tally_add<S: Side>(trace: &[u8], lent: &mut Lent) -> u8 {
    let area = |bytes: &mut Vec<u8>| (bytes.as_mut_ptr(), bytes.len());
    // SAFETY: as in play.
    unsafe { S::tally_add(trace, &lent.image, area(&mut lent.tally), area(&mut lent.answer)) }
}

/// The sheet of the tally. The number that is handed back.
#[inline(always)]
pub fn tally_sheet<S: Side>(lent: &mut Lent) -> u8 {
    // SAFETY: as in play.
    unsafe { S::tally_sheet(&lent.tally, (lent.sheet.as_mut_ptr(), lent.sheet.len()), (lent.answer.as_mut_ptr(), lent.answer.len())) }
}

/// The reset, and then the calls of a trace's records one by one, each with its own sixteen answer bytes, and the drained events back to back.
#[inline(always)]
pub fn one_by_one<S: Side>(calls: &[Call], lent: &mut Lent) {
    let image = (lent.image.as_mut_ptr(), lent.image.len());
    // SAFETY: as in play; a drain has the events that are left.
    unsafe { S::reset(image, (lent.answer.as_mut_ptr(), lent.answer.len())) };
    let mut used = 0;
    for (call, answer) in calls.iter().zip(lent.answers.chunks_exact_mut(16)) {
        let area = (answer.as_mut_ptr(), answer.len());
        // SAFETY: as above.
        black_box(unsafe {
            match *call {
                Call::Read { base, size, address, width } => S::read(image, (base, size), address, width, area),
                Call::Write { base, size, address, width, value } => S::write(image, (base, size), address, width, value, area),
                Call::Level { input, level } => S::level(image, input, level, area),
                Call::Poll { input } => S::poll(image, input, area),
                _ => {
                    let number = S::drain(image, (lent.events.as_mut_ptr(), lent.events.len()), used, area);
                    used += 4 * usize::from(answer[8]);
                    number
                }
            }
        });
    }
}

#[inline(always)]
fn played<S: Side>(play: &Play, lent: &mut Lent, times: usize) {
    for _ in 0..times {
        match play.way {
            Way::Played => drop(black_box(self::play::<S>(&play.trace, lent))),
            Way::PlayedOn => drop(black_box(self::play_on::<S>(&play.trace, lent))),
            Way::OneByOne => one_by_one::<S>(&play.calls, lent),
            Way::Salvaged => drop(black_box(salvage::<S>(&play.trace, lent))),
            Way::Summed => drop(black_box(sheet::<S>(&play.trace, lent))),
            Way::Added => drop(black_box(tally_add::<S>(&play.trace, lent))),
            Way::Totalled => drop(black_box(tally_sheet::<S>(lent))),
        }
    }
}

// What the instruction counter looks for by name: collection is on in functions whose names begin so.
macro_rules! timed {
    ($side:ty, $each:ident, $day:ident, $play:ident) => {
        #[unsafe(no_mangle)]
        #[inline(never)]
        pub fn $each(kind: &Kind, slots: &mut [Slot]) {
            each::<$side>(kind, slots)
        }

        #[unsafe(no_mangle)]
        #[inline(never)]
        pub fn $day(calls: &[Call], slot: &mut Slot, image_len: usize) {
            day::<$side>(calls, slot, image_len)
        }

        #[unsafe(no_mangle)]
        #[inline(never)]
        pub fn $play(play: &Play, lent: &mut Lent, times: usize) {
            played::<$side>(play, lent, times)
        }
    };
}
timed!(Library, bench_timed_each_a, bench_timed_day_a, bench_timed_play_a);
timed!(Plain, bench_timed_each_b, bench_timed_day_b, bench_timed_play_b);
timed!(Lean, bench_timed_each_d, bench_timed_day_d, bench_timed_play_d);
timed!(Portable, bench_timed_each_p, bench_timed_day_p, bench_timed_play_p);
timed!(Nothing, bench_timed_each_n, bench_timed_day_n, bench_timed_play_n);
