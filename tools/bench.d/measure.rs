//! The clock: the sides take turns, round by round, so that the machine's other work hits all alike, and the best round of each counts. All
//! kinds are gone through several times, since a spell of other work may outlast the rounds of one kind.

use crate::beside;
use crate::call::Call;
use crate::count::{BEGIN, END, sign};
use crate::kinds::{Kind, NUMBERED, Prepared, Slot};
use crate::plays::{Lent, Play};
use crate::sides;
use std::time::Instant;

/// As many slots as fit into the first cache beside the devices of side c. They are prepared anew before each batch, outside the clock.
pub const BATCH: usize = 64;

pub struct Bench {
    slots: Vec<Slot>,
    besides: Vec<beside::Lent>,
    #[cfg(oracle)]
    devices: Vec<crate::device::Standing>,
}

impl Bench {
    pub fn new() -> Self {
        let slot = Slot { image: [0; NUMBERED], answer: [0; 16], events: [0; 64] };
        Bench {
            slots: vec![slot; BATCH],
            besides: vec![beside::Lent::new(&Prepared::new(), NUMBERED, 0); beside::BATCH],
            #[cfg(oracle)]
            devices: (0..BATCH).map(|_| crate::device::Standing::new()).collect(),
        }
    }

    /// Nanoseconds of so many batches of this kind.
    pub fn kind(&mut self, side: char, kind: &Kind, batches: usize) -> u64 {
        #[cfg(oracle)]
        if side == 'c' {
            let start = crate::device::start(kind);
            return (0..batches)
                .map(|_| {
                    self.devices.iter_mut().for_each(|standing| standing.set(&start));
                    let began = Instant::now();
                    crate::device::bench_timed_each_c(kind, &mut self.devices);
                    began.elapsed().as_nanos() as u64
                })
                .sum();
        }
        let timed = each(side);
        (0..batches)
            .map(|_| {
                self.slots.fill(kind.slot.clone());
                let began = Instant::now();
                timed(kind, &mut self.slots);
                began.elapsed().as_nanos() as u64
            })
            .sum()
    }

    /// This kind once on each of the first slots, for the counter.
    pub fn once(&mut self, side: char, kind: &Kind, slots: usize) {
        #[cfg(oracle)]
        if side == 'c' {
            let start = crate::device::start(kind);
            self.devices.iter_mut().for_each(|standing| standing.set(&start));
            sign(BEGIN);
            crate::device::bench_timed_each_c(kind, &mut self.devices[..slots]);
            return sign(END);
        }
        let timed = each(side);
        self.slots.fill(kind.slot.clone());
        sign(BEGIN);
        timed(kind, &mut self.slots[..slots]);
        sign(END);
    }

    /// Nanoseconds of so many batches of this kind beside the plain ones.
    pub fn beside(&mut self, side: char, kind: &beside::Kind, batches: usize) -> u64 {
        let timed = each_beside(side);
        (0..batches)
            .map(|_| {
                self.besides.fill(kind.lent.clone());
                let began = Instant::now();
                timed(kind, &mut self.besides);
                began.elapsed().as_nanos() as u64
            })
            .sum()
    }

    /// That kind once on each of the first that are lent, for the counter.
    pub fn beside_once(&mut self, side: char, kind: &beside::Kind, lents: usize) {
        let timed = each_beside(side);
        self.besides.fill(kind.lent.clone());
        sign(BEGIN);
        timed(kind, &mut self.besides[..lents]);
        sign(END);
    }

    /// Nanoseconds of the day, on one image of so many bytes from its first call on.
    pub fn day(&mut self, side: char, calls: &[Call], image_len: usize) -> u64 {
        #[cfg(oracle)]
        if side == 'c' {
            let began = Instant::now();
            crate::device::bench_timed_day_c(calls, &mut self.devices[0]);
            return began.elapsed().as_nanos() as u64;
        }
        let timed = day(side);
        let began = Instant::now();
        timed(calls, &mut self.slots[0], image_len);
        began.elapsed().as_nanos() as u64
    }

    /// The day once, for the counter.
    pub fn day_once(&mut self, side: char, calls: &[Call], image_len: usize) {
        #[cfg(oracle)]
        if side == 'c' {
            sign(BEGIN);
            crate::device::bench_timed_day_c(calls, &mut self.devices[0]);
            return sign(END);
        }
        let timed = day(side);
        sign(BEGIN);
        timed(calls, &mut self.slots[0], image_len);
        sign(END);
    }
}

/// Nanoseconds of so many plays.
pub fn played(side: char, of: &Play, lent: &mut Lent, times: usize) -> u64 {
    let timed = play(side);
    let began = Instant::now();
    timed(of, lent, times);
    began.elapsed().as_nanos() as u64
}

/// So many plays, for the counter.
pub fn play_counted(side: char, of: &Play, lent: &mut Lent, times: usize) {
    let timed = play(side);
    sign(BEGIN);
    timed(of, lent, times);
    sign(END);
}

/// A side's timed loop over slots.
fn each(side: char) -> fn(&Kind, &mut [Slot]) {
    match side {
        'a' => sides::bench_timed_each_a,
        'b' => sides::bench_timed_each_b,
        'd' => sides::bench_timed_each_d,
        'p' => sides::bench_timed_each_p,
        _ => sides::bench_timed_each_n,
    }
}

/// A side's timed loop over what is lent to the calls beside the plain ones.
fn each_beside(side: char) -> fn(&beside::Kind, &mut [beside::Lent]) {
    match side {
        'a' => beside::sides::bench_timed_beside_a,
        'b' => beside::sides::bench_timed_beside_b,
        'd' => beside::sides::bench_timed_beside_d,
        'p' => beside::sides::bench_timed_beside_p,
        _ => beside::sides::bench_timed_beside_n,
    }
}

/// A side's day.
fn day(side: char) -> fn(&[Call], &mut Slot, usize) {
    match side {
        'a' => sides::bench_timed_day_a,
        'b' => sides::bench_timed_day_b,
        'd' => sides::bench_timed_day_d,
        'p' => sides::bench_timed_day_p,
        _ => sides::bench_timed_day_n,
    }
}

/// A side's plays and salvages.
fn play(side: char) -> fn(&Play, &mut Lent, usize) {
    match side {
        'a' => sides::bench_timed_play_a,
        'b' => sides::bench_timed_play_b,
        'd' => sides::bench_timed_play_d,
        'p' => sides::bench_timed_play_p,
        _ => sides::bench_timed_play_n,
    }
}

/// What a row has come to so far: the best round of each side.
pub struct Best {
    calls: usize,
    least: Vec<u64>,
}

impl Best {
    pub fn new(sides: usize, calls: usize) -> Self {
        Best { calls, least: vec![u64::MAX; sides] }
    }

    /// More rounds, the sides in turn.
    pub fn rounds(&mut self, rounds: usize, sides: &[char], mut round: impl FnMut(char) -> u64) {
        for _ in 0..rounds {
            for (least, &side) in self.least.iter_mut().zip(sides) {
                *least = round(side).min(*least);
            }
        }
    }

    /// Nanoseconds per call of each side.
    pub fn per_call(&self) -> Vec<f64> {
        self.least.iter().map(|&nanoseconds| nanoseconds as f64 / self.calls as f64).collect()
    }
}

/// Does it so many frames further down the stack, so that no side meets only a stack that happens to lie badly for it.
#[inline(never)]
pub fn deeper(frames: usize, work: &mut dyn FnMut()) {
    let frame = std::hint::black_box([frames as u64; 2]);
    if frames == 0 {
        work()
    } else {
        deeper(frames - 1, work)
    }
    std::hint::black_box(&frame);
}

/// Keeps the program on the processor that it runs on; gives its number.
pub fn pin() -> Option<usize> {
    unsafe extern "C" {
        fn sched_getcpu() -> i32;
        fn sched_setaffinity(process: i32, size: usize, mask: *const u64) -> i32;
    }
    // SAFETY: the mask is there at the size said; 0 is this process.
    unsafe {
        let cpu = usize::try_from(sched_getcpu()).ok()?;
        let mut mask = [0u64; 16];
        *mask.get_mut(cpu / 64)? |= 1 << (cpu % 64);
        (sched_setaffinity(0, size_of_val(&mask), mask.as_ptr()) == 0).then_some(cpu)
    }
}
