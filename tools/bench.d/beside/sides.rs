//! The sides of the calls beside the plain ones, and the loops that are timed.

use super::{Asked, Kind, Lengths, Lent, WHOLE};
use crate::call::Call;
use crate::kinds::{NUMBERED, SIZE};
use crate::sides::{Area, Lean, Library, Nothing, Plain, Portable, Side as Plainly, nothing, portable};
use std::hint::black_box;
use std::slice::{from_raw_parts, from_raw_parts_mut};

mod library {
    type Bytes = *mut u8;
    // Bound when the program is linked.
    unsafe extern "C" {
        pub fn pch_pic_board_reset(i: Bytes, il: usize, b: Bytes, bl: usize, a: Bytes, al: usize) -> u8;
        pub fn pch_pic_board_read(
            i: *const u8,
            il: usize,
            b: Bytes,
            bl: usize,
            base: u64,
            size: u64,
            at: u64,
            width: u64,
            a: Bytes,
            al: usize,
        ) -> u8;
        pub fn pch_pic_board_write(
            i: Bytes,
            il: usize,
            b: Bytes,
            bl: usize,
            base: u64,
            size: u64,
            at: u64,
            width: u64,
            value: u64,
            a: Bytes,
            al: usize,
        ) -> u8;
        pub fn pch_pic_board_level(i: Bytes, il: usize, b: Bytes, bl: usize, input: u64, level: u64, a: Bytes, al: usize) -> u8;
        pub fn pch_pic_board_poll(i: Bytes, il: usize, b: Bytes, bl: usize, input: u64, a: Bytes, al: usize) -> u8;
        pub fn pch_pic_board_drain(i: Bytes, il: usize, b: Bytes, bl: usize, e: Bytes, el: usize, place: usize, a: Bytes, al: usize) -> u8;
        pub fn pch_pic_board_event(b: Bytes, bl: usize, vector: u8, flag: u8, a: Bytes, al: usize) -> u8;
        pub fn pch_pic_hoist_reset(i: Bytes, il: usize, p: Bytes, pl: usize, a: Bytes, al: usize) -> u8;
        pub fn pch_pic_hoist_read(i: *const u8, il: usize, base: u64, size: u64, at: u64, width: u64, a: Bytes, al: usize) -> u8;
        pub fn pch_pic_hoist_write(
            i: Bytes,
            il: usize,
            p: *const u8,
            pl: usize,
            base: u64,
            size: u64,
            at: u64,
            width: u64,
            value: u64,
            a: Bytes,
            al: usize,
        ) -> u8;
        pub fn pch_pic_hoist_end_startup(i: *const u8, il: usize, p: Bytes, pl: usize, a: Bytes, al: usize) -> u8;
        pub fn pch_pic_waiting(i: *const u8, il: usize, a: Bytes, al: usize) -> u8;
    }
}
pub use library::*;

/// Base, size, address and width of an access.
pub type Access = (u64, u64, u64, u64);

/// The calls of a side; by themselves they do nothing.
///
/// SAFETY of each: the areas are there at the lengths said, apart from one another.
pub trait Side {
    #[inline(always)]
    unsafe fn board_reset(i: Area, _: Area, a: Area) -> u8 {
        nothing(i.0, a.0)
    }
    #[inline(always)]
    unsafe fn board_read(i: Area, _: Area, _: Access, a: Area) -> u8 {
        nothing(i.0, a.0)
    }
    #[inline(always)]
    unsafe fn board_write(i: Area, _: Area, _: Access, _: u64, a: Area) -> u8 {
        nothing(i.0, a.0)
    }
    #[inline(always)]
    unsafe fn board_level(i: Area, _: Area, _: u64, _: u64, a: Area) -> u8 {
        nothing(i.0, a.0)
    }
    #[inline(always)]
    unsafe fn board_poll(i: Area, _: Area, _: u64, a: Area) -> u8 {
        nothing(i.0, a.0)
    }
    #[inline(always)]
    unsafe fn board_drain(i: Area, _: Area, _: Area, _: usize, a: Area) -> u8 {
        nothing(i.0, a.0)
    }
    #[inline(always)]
    unsafe fn board_event(b: Area, _: u8, _: u8, a: Area) -> u8 {
        nothing(b.0, a.0)
    }
    #[inline(always)]
    unsafe fn hoist_reset(i: Area, _: Area, a: Area) -> u8 {
        nothing(i.0, a.0)
    }
    #[inline(always)]
    unsafe fn hoist_read(i: Area, _: Access, a: Area) -> u8 {
        nothing(i.0, a.0)
    }
    #[inline(always)]
    unsafe fn hoist_write(i: Area, _: Area, _: Access, _: u64, a: Area) -> u8 {
        nothing(i.0, a.0)
    }
    #[inline(always)]
    unsafe fn hoist_end_startup(i: Area, _: Area, a: Area) -> u8 {
        nothing(i.0, a.0)
    }
    #[inline(always)]
    unsafe fn waiting(i: Area, a: Area) -> u8 {
        nothing(i.0, a.0)
    }
}

impl Side for Nothing {}

impl Side for Library {
    #[inline(always)]
    unsafe fn board_reset(i: Area, b: Area, a: Area) -> u8 {
        unsafe { pch_pic_board_reset(i.0, i.1, b.0, b.1, a.0, a.1) }
    }
    #[inline(always)]
    unsafe fn board_read(i: Area, b: Area, (base, size, at, width): Access, a: Area) -> u8 {
        unsafe { pch_pic_board_read(i.0, i.1, b.0, b.1, base, size, at, width, a.0, a.1) }
    }
    #[inline(always)]
    unsafe fn board_write(i: Area, b: Area, (base, size, at, width): Access, value: u64, a: Area) -> u8 {
        unsafe { pch_pic_board_write(i.0, i.1, b.0, b.1, base, size, at, width, value, a.0, a.1) }
    }
    #[inline(always)]
    unsafe fn board_level(i: Area, b: Area, input: u64, level: u64, a: Area) -> u8 {
        unsafe { pch_pic_board_level(i.0, i.1, b.0, b.1, input, level, a.0, a.1) }
    }
    #[inline(always)]
    unsafe fn board_poll(i: Area, b: Area, input: u64, a: Area) -> u8 {
        unsafe { pch_pic_board_poll(i.0, i.1, b.0, b.1, input, a.0, a.1) }
    }
    #[inline(always)]
    unsafe fn board_drain(i: Area, b: Area, e: Area, place: usize, a: Area) -> u8 {
        unsafe { pch_pic_board_drain(i.0, i.1, b.0, b.1, e.0, e.1, place, a.0, a.1) }
    }
    #[inline(always)]
    unsafe fn board_event(b: Area, vector: u8, flag: u8, a: Area) -> u8 {
        unsafe { pch_pic_board_event(b.0, b.1, vector, flag, a.0, a.1) }
    }
    #[inline(always)]
    unsafe fn hoist_reset(i: Area, p: Area, a: Area) -> u8 {
        unsafe { pch_pic_hoist_reset(i.0, i.1, p.0, p.1, a.0, a.1) }
    }
    #[inline(always)]
    unsafe fn hoist_read(i: Area, (base, size, at, width): Access, a: Area) -> u8 {
        unsafe { pch_pic_hoist_read(i.0, i.1, base, size, at, width, a.0, a.1) }
    }
    #[inline(always)]
    unsafe fn hoist_write(i: Area, p: Area, (base, size, at, width): Access, value: u64, a: Area) -> u8 {
        unsafe { pch_pic_hoist_write(i.0, i.1, p.0, p.1, base, size, at, width, value, a.0, a.1) }
    }
    #[inline(always)]
    unsafe fn hoist_end_startup(i: Area, p: Area, a: Area) -> u8 {
        unsafe { pch_pic_hoist_end_startup(i.0, i.1, p.0, p.1, a.0, a.1) }
    }
    #[inline(always)]
    unsafe fn waiting(i: Area, a: Area) -> u8 {
        unsafe { pch_pic_waiting(i.0, i.1, a.0, a.1) }
    }
}

#[inline(always)]
unsafe fn part<'a>(area: Area) -> &'a [u8] {
    unsafe { from_raw_parts(area.0, area.1) }
}

#[inline(always)]
unsafe fn part_mut<'a>(area: Area) -> &'a mut [u8] {
    unsafe { from_raw_parts_mut(area.0, area.1) }
}

/// A side that is a crate of plain Rust.
macro_rules! rust {
    ($side:ident, $of:ident) => {
        impl Side for $side {
            #[inline(always)]
            unsafe fn board_reset(i: Area, b: Area, a: Area) -> u8 {
                unsafe { $of::board_reset(part_mut(i), part_mut(b), part_mut(a)) }
            }
            #[inline(always)]
            unsafe fn board_read(i: Area, b: Area, (base, size, at, width): Access, a: Area) -> u8 {
                unsafe { $of::board_read(part(i), part_mut(b), base, size, at, width, part_mut(a)) }
            }
            #[inline(always)]
            unsafe fn board_write(i: Area, b: Area, (base, size, at, width): Access, value: u64, a: Area) -> u8 {
                unsafe { $of::board_write(part_mut(i), part_mut(b), base, size, at, width, value, part_mut(a)) }
            }
            #[inline(always)]
            unsafe fn board_level(i: Area, b: Area, input: u64, level: u64, a: Area) -> u8 {
                unsafe { $of::board_level(part_mut(i), part_mut(b), input, level, part_mut(a)) }
            }
            #[inline(always)]
            unsafe fn board_poll(i: Area, b: Area, input: u64, a: Area) -> u8 {
                unsafe { $of::board_poll(part_mut(i), part_mut(b), input, part_mut(a)) }
            }
            #[inline(always)]
            unsafe fn board_drain(i: Area, b: Area, e: Area, place: usize, a: Area) -> u8 {
                unsafe { $of::board_drain(part_mut(i), part_mut(b), part_mut(e), place, part_mut(a)) }
            }
            #[inline(always)]
            unsafe fn board_event(b: Area, vector: u8, flag: u8, a: Area) -> u8 {
                unsafe { $of::board_event(part_mut(b), vector, flag, part_mut(a)) }
            }
            #[inline(always)]
            unsafe fn hoist_reset(i: Area, p: Area, a: Area) -> u8 {
                unsafe { $of::hoist_reset(part_mut(i), part_mut(p), part_mut(a)) }
            }
            #[inline(always)]
            unsafe fn hoist_read(i: Area, (base, size, at, width): Access, a: Area) -> u8 {
                unsafe { $of::hoist_read(part(i), base, size, at, width, part_mut(a)) }
            }
            #[inline(always)]
            unsafe fn hoist_write(i: Area, p: Area, (base, size, at, width): Access, value: u64, a: Area) -> u8 {
                unsafe { $of::hoist_write(part_mut(i), part(p), base, size, at, width, value, part_mut(a)) }
            }
            #[inline(always)]
            unsafe fn hoist_end_startup(i: Area, p: Area, a: Area) -> u8 {
                unsafe { $of::hoist_end_startup(part(i), part_mut(p), part_mut(a)) }
            }
            #[inline(always)]
            unsafe fn waiting(i: Area, a: Area) -> u8 {
                unsafe { $of::waiting(part(i), part_mut(a)) }
            }
        }
    };
}
rust!(Plain, plain);
rust!(Lean, lean);
rust!(Portable, portable);

/// The areas of what is lent.
struct Areas {
    image: Area,
    board: Area,
    phase: Area,
    events: Area,
    answer: Area,
}

fn within(lengths: Lengths) {
    assert!(lengths.image <= NUMBERED && lengths.board <= 256 && lengths.phase <= 1 && lengths.answer <= 16);
}

#[inline(always)]
fn areas(lent: &mut Lent, lengths: Lengths) -> Areas {
    Areas {
        image: (lent.slot.image.as_mut_ptr(), lengths.image),
        board: (lent.board.as_mut_ptr(), lengths.board),
        phase: (lent.phase.as_mut_ptr(), lengths.phase),
        events: (lent.slot.events.as_mut_ptr(), lent.slot.events.len()),
        answer: (lent.slot.answer.as_mut_ptr(), lengths.answer),
    }
}

/// What hosts do after a write: a drain, and a poll of each input that waits, or of everyone, with a board. The number is that of the last call.
///
/// SAFETY: as of a side's calls.
#[inline(always)]
unsafe fn settle<S: Side>(l: &Areas, everyone: bool) -> u8 {
    unsafe {
        let mut number = S::board_drain(l.image, l.board, l.events, 0, l.answer);
        let mut left = !0;
        if !everyone {
            number = S::waiting(l.image, l.answer);
            left = part(l.answer).last_chunk().map_or(0, |value| u64::from_le_bytes(*value));
        }
        while number == 0 && left != 0 {
            number = S::board_poll(l.image, l.board, left.trailing_zeros().into(), l.answer);
            left &= left - 1;
        }
        number
    }
}

/// The inputs that are edges, as hosts look at them.
///
/// SAFETY: as of a side's calls.
#[inline(always)]
unsafe fn edges<S: Plainly>(l: &Areas) -> u8 {
    unsafe { S::read(l.image, (0, SIZE), 0x060, 8, l.answer) }
}

/// All calls of a settle in the hosts.
///
/// SAFETY: as of a side's calls.
#[inline(always)]
unsafe fn host_settle<S: Side + Plainly>(l: &Areas) -> u8 {
    unsafe {
        match edges::<S>(l) {
            0 => settle::<S>(l, false),
            number => number,
        }
    }
}

/// A load sample: each time the line moves the host looks at EDGE and drains first.
///
/// SAFETY: as of a side's calls.
#[inline(always)]
unsafe fn sample<S: Side + Plainly>(l: &Areas) -> u8 {
    unsafe {
        let mut number = 0;
        for level in [1, 0] {
            number |= edges::<S>(l) | S::board_drain(l.image, l.board, l.events, 0, l.answer);
            number |= S::board_level(l.image, l.board, 9, level, l.answer);
            if level == 1 {
                number |= S::hoist_read(l.image, (0, SIZE, 0x3a0, 4), l.answer);
            }
        }
        number
    }
}

/// Does something with what is asked: $do is given a name for the areas, and the call on them. The profile has no other calls on the image.
macro_rules! matched {
    ($side:ident, $asked:expr, $do:ident) => {
        match $asked {
            Asked::Board(Call::Reset) => $do!(l, $side::board_reset(l.image, l.board, l.answer)),
            Asked::Board(Call::Read { base, size, address, width }) => {
                $do!(l, $side::board_read(l.image, l.board, (base, size, address, width), l.answer))
            }
            Asked::Board(Call::Write { base, size, address, width, value }) => {
                $do!(l, $side::board_write(l.image, l.board, (base, size, address, width), value, l.answer))
            }
            Asked::Board(Call::Level { input, level }) => $do!(l, $side::board_level(l.image, l.board, input, level, l.answer)),
            Asked::Board(Call::Poll { input }) => $do!(l, $side::board_poll(l.image, l.board, input, l.answer)),
            Asked::Board(Call::Drain { place }) => {
                $do!(l, $side::board_drain(l.image, l.board, l.events, place as usize, l.answer))
            }
            Asked::Event { vector, flag } => $do!(l, $side::board_event(l.board, vector, flag, l.answer)),
            Asked::Hoist(Call::Reset) => $do!(l, $side::hoist_reset(l.image, l.phase, l.answer)),
            Asked::Hoist(Call::Read { base, size, address, width }) => {
                $do!(l, $side::hoist_read(l.image, (base, size, address, width), l.answer))
            }
            Asked::Hoist(Call::Write { base, size, address, width, value }) => {
                $do!(l, $side::hoist_write(l.image, l.phase, (base, size, address, width), value, l.answer))
            }
            Asked::EndStartup => $do!(l, $side::hoist_end_startup(l.image, l.phase, l.answer)),
            Asked::Waiting => $do!(l, $side::waiting(l.image, l.answer)),
            Asked::Settle { everyone } => $do!(l, settle::<$side>(&l, everyone)),
            Asked::HostSettle => $do!(l, host_settle::<$side>(&l)),
            Asked::Sample => $do!(l, sample::<$side>(&l)),
            asked => panic!("{asked:?} is no call"),
        }
    };
}

/// The call, made once, on the lengths said.
pub fn make<S: Side + Plainly>(asked: &Asked, lent: &mut Lent, lengths: Lengths) -> u8 {
    within(lengths);
    macro_rules! once {
        ($l:ident, $call:expr) => {{
            let $l = areas(lent, lengths);
            // SAFETY: the areas are those lent, apart from one another, and no longer than they are.
            unsafe { $call }
        }};
    }
    matched!(S, *asked, once)
}

/// The timed loop: one call on each. Each sort of call has a loop of its own, so that there is no match in it.
#[inline(always)]
fn each<S: Side + Plainly>(kind: &Kind, lents: &mut [Lent]) {
    let lengths = black_box(WHOLE);
    within(lengths);
    macro_rules! all {
        ($l:ident, $call:expr) => {
            for lent in lents {
                let $l = areas(lent, lengths);
                // SAFETY: as in make.
                black_box(unsafe { $call });
            }
        };
    }
    matched!(S, black_box(kind.asked), all)
}

// What the instruction counter looks for by name.
macro_rules! timed {
    ($side:ty, $each:ident) => {
        #[unsafe(no_mangle)]
        #[inline(never)]
        pub fn $each(kind: &Kind, lents: &mut [Lent]) {
            each::<$side>(kind, lents)
        }
    };
}
timed!(Library, bench_timed_beside_a);
timed!(Plain, bench_timed_beside_b);
timed!(Lean, bench_timed_beside_d);
timed!(Portable, bench_timed_beside_p);
timed!(Nothing, bench_timed_beside_n);
