//! Random histories, from reset and from random accepted images, compared after every call.

use crate::bench::Bench;
use crate::call::Call;
use crate::chance::Chance;
use crate::generate;
use crate::image::{FORMS, Form};
use std::time::{Duration, Instant};

pub fn run(bench: &mut Bench, chance: &mut Chance, calls: u64) {
    let goal = bench.passed + bench.failed + calls;
    let mut progress = Progress::new(calls, goal);
    let mut good = Vec::with_capacity(320);
    let mut bad = Vec::with_capacity(320);
    while bench.passed + bench.failed < goal && !bench.over() {
        let rest = goal - bench.passed - bench.failed;
        let length = chance.between(1, 300).min(rest);
        history(bench, chance, length, &mut good, &mut bad);
        progress.tell(bench);
    }
}

fn history(bench: &mut Bench, chance: &mut Chance, length: u64, good: &mut Vec<u8>, bad: &mut Vec<u8>) {
    let mut mood = generate::mood(chance);
    bench.set_head(chance.below(16) as usize);
    bench.difference(chance.number() as u16, chance.number() as u16);
    let mut made = 1;
    let form = chance.one_of(&FORMS);
    bench.set_image(&generate::accepted(chance, form));
    if made < length && chance.percent(60) {
        // any bytes of a form's length will do for a reset, accepted or not
        bench.set_lengths(16, 0, false);
        if bench.call(&Call::Reset, chance.number()).is_none() {
            return;
        }
        made += 1;
    }
    while made < length {
        made += 1;
        if chance.percent(2) {
            mood = generate::mood(chance);
        }
        let call = lend(bench, chance, &mood);
        let damaged = chance.percent(4);
        if damaged {
            good.clear();
            good.extend_from_slice(bench.image());
            bad.clone_from(good);
            let form = Form::of(good.len()).expect("a good image has a form");
            generate::damage(chance, bad, form);
            bench.set_image(bad);
        }
        match bench.call(&call, chance.number()) {
            None => return,
            // What was moved to another form is a load, and the history goes on from there.
            Some(0) if matches!(call, Call::Convert { .. }) && chance.percent(50) => bench.take_target(),
            // A damaged image that was accepted is a load, and the history goes on from it.
            Some(0) if damaged && chance.percent(50) && Form::of(bad.len()).is_some() => {}
            Some(_) if damaged => bench.set_image(good),
            Some(_) => {}
        }
    }
}

/// Chooses a call, and lengths for what is lent to it.
pub fn lend(bench: &mut Bench, chance: &mut Chance, mood: &generate::Mood) -> Call {
    let mut call = match chance.below(100) {
        0 => Call::Reset,
        1..=2 => Call::Convert { target: generate::length(chance) },
        _ => generate::call(chance, mood),
    };
    let mut events = 0;
    if let Call::Drain { place } = &mut call {
        events = if chance.percent(40) { chance.between(64, 96) } else { chance.below(72) } as usize;
        *place = generate::place(chance, events);
    }
    let answer = if chance.percent(97) { chance.between(16, 40) } else { chance.below(21) };
    bench.set_lengths(answer as usize, events, chance.percent(10));
    call
}

/// A line on standard error now and then, so that a long run can be watched.
struct Progress {
    calls: u64,
    first: u64,
    start: Instant,
    last: Instant,
}

impl Progress {
    fn new(calls: u64, goal: u64) -> Self {
        let now = Instant::now();
        Progress { calls, first: goal - calls, start: now, last: now }
    }

    fn tell(&mut self, bench: &Bench) {
        if self.last.elapsed() < Duration::from_secs(3) {
            return;
        }
        self.last = Instant::now();
        let made = bench.passed + bench.failed - self.first;
        let rate = made as f64 / self.start.elapsed().as_secs_f64();
        eprintln!("differential: {made} of {} random calls, {rate:.0} a second, {} failed", self.calls, bench.failed);
    }
}
