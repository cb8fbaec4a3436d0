//! The exhaustive parts: what is small enough is tried whole.

use crate::bench::{Bench, FILL};
use crate::call::Call;
use crate::chance::Chance;
use crate::generate;
use crate::image::{self, FORMS, Form, Image, NUMBERED, ONE, TWO};

pub fn run(bench: &mut Bench, chance: &mut Chance) {
    let states = states(chance);
    let parts: [(&str, Part); 14] = [
        ("registers", registers),
        ("widths", widths),
        ("inputs", inputs),
        ("windows", windows),
        ("drains", drains),
        ("damage", damages),
        ("damage to numbers", damaged_numbers),
        ("lengths of the image", lengths),
        ("lengths of the answer area", answers),
        ("order of the refusals", orders),
        ("conversions", conversions),
        ("conversions there and back", there_and_back),
        ("a long history", long_history),
        ("differences", differences),
    ];
    let mut counts = Vec::new();
    for (name, part) in parts {
        let before = bench.passed;
        bench.set_lengths(16, 64, false);
        bench.set_head(chance.below(16) as usize);
        part(bench, chance, &states);
        counts.push(format!("{name} {}", bench.passed - before));
    }
    eprintln!("differential: sweeps: {}", counts.join(", "));
}

type Part = fn(&mut Bench, &mut Chance, &[Image]);

/// Reset; all latched and waiting behind the mask; all in service; masked bits in service; a full ring whose count is near its stop;
/// and some random ones. All are of form 1; every call is made in the other forms as well.
fn states(chance: &mut Chance) -> Vec<Image> {
    let reset = reset_image();
    let with = |mask: u64, irr: u64, isr: u64| {
        let mut image = reset.clone();
        for (place, bits) in [(ONE.mask, mask), (46, irr), (ONE.irr, irr), (ONE.isr, isr)] {
            image[place..place + 8].copy_from_slice(&bits.to_le_bytes());
        }
        image
    };
    let mut full = with(0x0f0f_0f0f_f0f0_f0f0, 0xffff_0000_ffff_00ff, 0x00ff_ff00_0ff0_3c3c);
    full[ONE.count] = 16;
    full[ONE.drops..ONE.drops + 4].copy_from_slice(&(u32::MAX - 3).to_le_bytes());
    for (k, pair) in full[ONE.pairs..].chunks_mut(2).enumerate() {
        pair.copy_from_slice(&[0xf0 - k as u8, (k % 3 == 0) as u8]);
    }
    let mut states = vec![
        reset.clone(),
        with(u64::MAX, u64::MAX, 0),
        with(0, u64::MAX, u64::MAX),
        with(0xaaaa_aaaa_5555_5555, 0xffff_ffff_ffff_ffff, 0xcccc_cccc_cccc_cccc),
        full,
    ];
    states.extend((0..4).map(|_| generate::accepted(chance, ONE)));
    states
}

/// Each of them in all forms, where there are numbers with any.
fn in_all(states: &[Image], chance: &mut Chance) -> Vec<(Form, Image)> {
    let all = states.iter().flat_map(|state| {
        FORMS.map(|form| {
            let mut moved = Image::new();
            image::moved(state, form, &mut moved);
            image::set_numbers(&generate::numbers(chance, usize::from(state[ONE.count])), &mut moved);
            (form, moved)
        })
    });
    all.collect()
}

fn reset_image() -> Image {
    let mut image = vec![0; ONE.length];
    image[..22].copy_from_slice(ONE.contents);
    image[ONE.mask..ONE.mask + 8].fill(0xff);
    image[ONE.routes..ONE.routes + 64].fill(1);
    for (input, byte) in image[ONE.vectors..ONE.vectors + 64].iter_mut().enumerate() {
        *byte = input as u8;
    }
    image
}

/// Every offset from 0 to 0x500 and the last twelve, by every width, read and written, over every state.
fn registers(bench: &mut Bench, chance: &mut Chance, states: &[Image]) {
    let (base, size) = (0, u64::MAX);
    for state in states {
        for address in (0..=0x500).chain(u64::MAX - 12..=u64::MAX) {
            for width in [1, 2, 4, 8] {
                bench.set_image(state);
                bench.call(&Call::Read { base, size, address, width }, FILL);
                for value in [0, u64::MAX, chance.number(), 1 << chance.below(64)] {
                    bench.set_image(state);
                    bench.call(&Call::Write { base, size, address, width, value }, FILL);
                }
                if bench.over() {
                    return;
                }
            }
        }
    }
}

/// Widths that are no width: all up to 300, and those that a cast would take for 1, 2, 4 or 8.
fn widths(bench: &mut Bench, _: &mut Chance, states: &[Image]) {
    bench.set_image(&states[1]);
    let cut = (8..64).flat_map(|k| [1, 2, 4, 8].map(|width| (1 << k) + width));
    for width in (0..=300).chain(cut).chain([u64::MAX - 1, u64::MAX]) {
        for address in [0x020, 0x3ff, 0x400] {
            bench.call(&Call::Read { base: 0, size: 0x400, address, width }, FILL);
            bench.call(&Call::Write { base: 0, size: 0x400, address, width, value: 0xfffe }, FILL);
        }
    }
}

/// Every input from 0 to 70 and some huge ones, raised, lowered and polled, over every state.
fn inputs(bench: &mut Bench, _: &mut Chance, states: &[Image]) {
    for state in states {
        for input in (0..=70).chain([0x80, 0xff, 0x100, 1 << 32, (1 << 32) + 3, 1 << 63, u64::MAX - 1, u64::MAX]) {
            let levels = [0, 1, 2, 0x100, 1 << 32, u64::MAX].map(|level| Call::Level { input, level });
            for call in levels.into_iter().chain([Call::Poll { input }]) {
                bench.set_image(state);
                bench.call(&call, FILL);
            }
        }
        if bench.over() {
            return;
        }
    }
}

/// Windows of many shapes, and the addresses at their ends.
fn windows(bench: &mut Bench, _: &mut Chance, states: &[Image]) {
    bench.set_image(&states[1]);
    for base in [0, 1, 3, 5, 0x400, 1 << 32, 1 << 63, u64::MAX - 0x400, u64::MAX - 8, u64::MAX - 1, u64::MAX] {
        let rest = u64::MAX - base;
        for size in [0, 1, 2, 4, 8, 0x400, 1 << 63, rest.saturating_sub(1), rest, rest.saturating_add(1), u64::MAX - 1, u64::MAX] {
            let end = base.saturating_add(size);
            let near = |at: u64| (0..6).map(move |k| at.wrapping_add(k).wrapping_sub(3));
            for address in near(base).chain(near(end)).chain(u64::MAX - 8..=u64::MAX) {
                for width in [1, 2, 4, 8, 0, 3, 16] {
                    bench.call(&Call::Read { base, size, address, width }, FILL);
                    bench.call(&Call::Write { base, size, address, width, value: 0x8182_8384_8586_8788 }, FILL);
                }
            }
            if bench.over() {
                return;
            }
        }
    }
}

/// An image of that form from reset, with so many events waiting and any numbers.
fn waiting(chance: &mut Chance, form: Form, count: usize) -> Image {
    let mut image = Image::new();
    image::moved(&reset_image(), form, &mut image);
    image[form.count] = count as u8;
    for pair in image[form.pairs..form.pairs + 2 * count].chunks_mut(2) {
        pair.copy_from_slice(&[chance.number() as u8, chance.below(2) as u8]);
    }
    image::set_numbers(&generate::numbers(chance, count), &mut image);
    image
}

/// Every number waiting, every length of the event buffer up to 72, every place in it and just past it.
fn drains(bench: &mut Bench, chance: &mut Chance, _: &[Image]) {
    for count in 0..=16 {
        bench.set_head(chance.below(16) as usize);
        for events in 0..=72 {
            for place in (0..=events as u64 + 3).chain([1 << 32, 1 << 63, u64::MAX]) {
                bench.set_lengths(16, events, place % 2 == 0);
                bench.set_image(&waiting(chance, NUMBERED, count));
                bench.call(&Call::Drain { place }, FILL);
            }
            if bench.over() {
                return;
            }
        }
    }
}

/// One call of each kind that a good image would not refuse.
fn one_of_each(k: u64) -> Call {
    let (base, size) = (0x100, 0x400);
    match k % 6 {
        0 => Call::Read { base, size, address: base + 0x3a0, width: 8 },
        1 => Call::Write { base, size, address: base + 0x020, width: 4, value: 0x0ff0_f00f },
        2 => Call::Level { input: 7 + 8 * (k / 6 % 7), level: k / 6 % 2 },
        3 => Call::Poll { input: 3 + k / 6 % 60 },
        4 => Call::Drain { place: 1 },
        _ => Call::Reset,
    }
}

/// Every byte of an image takes every value, over every state in all forms: accepted or refused as the rules say.
fn damages(bench: &mut Bench, chance: &mut Chance, states: &[Image]) {
    for (k, (form, state)) in in_all(states, chance).iter().enumerate() {
        // The bodies of form 2 are those of form 1, where each damage is tried in form 2 as well.
        let damaged = if *form == TWO { form.contents.len() } else { form.length };
        for at in 0..damaged {
            for value in 0..=255 {
                let mut damaged = state.clone();
                damaged[at] = value;
                bench.set_image(&damaged);
                bench.call(&one_of_each((k + at) as u64 + u64::from(value)), FILL);
            }
            if bench.over() {
                return;
            }
        }
    }
}

/// The fifth body: with every number waiting every byte takes some values, alone and with an unused pair broken too, for every call.
fn damaged_numbers(bench: &mut Bench, chance: &mut Chance, _: &[Image]) {
    for count in 0..=16 {
        let state = waiting(chance, NUMBERED, count);
        for at in 256..NUMBERED.length {
            for value in [0, 1, 0x80, 0xff, state[at] ^ 1 << chance.below(8)] {
                let mut damaged = state.clone();
                damaged[at] = value;
                for kind in 0..6 {
                    bench.set_image(&damaged);
                    bench.call(&one_of_each(kind), FILL);
                }
                for target in FORMS.map(|form| form.length) {
                    bench.set_image(&damaged);
                    bench.call(&Call::Convert { target }, FILL);
                }
                // an unused pair, where there is one, else the last flag
                damaged[NUMBERED.pairs + 31] = 2;
                bench.set_image(&damaged);
                bench.call(&one_of_each(at as u64), FILL);
            }
        }
        if bench.over() {
            return;
        }
    }
}

/// Every length of an image from 0 to 300, for every call; a null image too.
fn lengths(bench: &mut Bench, chance: &mut Chance, states: &[Image]) {
    for (form, state) in &in_all(states, chance) {
        let mut longer = [0; 300];
        longer[..form.length].copy_from_slice(state);
        for kind in 0..6 {
            for length in 0..=300 {
                bench.set_image(&longer[..length]);
                bench.call(&one_of_each(kind), FILL);
            }
            bench.null_image();
            bench.call(&one_of_each(kind), FILL);
        }
        if bench.over() {
            return;
        }
    }
}

/// Every length of the answer area from 0 to 48, for every call; a null one too.
fn answers(bench: &mut Bench, chance: &mut Chance, states: &[Image]) {
    for (_, state) in &in_all(states, chance) {
        for kind in 0..6 {
            for length in 0..=48 {
                for null in [false, true] {
                    bench.set_lengths(length, 64, null);
                    bench.set_image(state);
                    bench.call(&one_of_each(kind), FILL);
                }
            }
        }
        if bench.over() {
            return;
        }
    }
}

/// Several faults at once: the number handed back is the first in 01's order, 7, 4, 5, 8 to 11, then 3, or 2 before 1.
fn orders(bench: &mut Bench, chance: &mut Chance, states: &[Image]) {
    let (base, size) = (0x100, 0x400);
    let mut calls = vec![Call::Reset];
    for width in [4, 3] {
        for address in [base, 0xff, 0x500] {
            calls.push(Call::Read { base, size, address, width });
            calls.push(Call::Write { base, size, address, width, value: 0 });
        }
    }
    for input in [63, 64] {
        calls.extend([Call::Level { input, level: 0 }, Call::Level { input, level: 1 }, Call::Poll { input }]);
    }
    for place in [64, 65] {
        calls.push(Call::Drain { place });
    }
    calls.extend([0, TWO.length, TWO.length + 1, ONE.length, NUMBERED.length].map(|target| Call::Convert { target }));
    for (form, state) in &in_all(states, chance) {
        for call in &calls {
            for faults in 0..256 {
                let mut bytes = state.clone();
                if faults & 1 != 0 {
                    bytes[form.count] = 17;
                }
                if faults & 16 != 0 {
                    bytes[form.copy.unwrap_or(form.irr)] ^= 0x40;
                }
                if faults & 96 != 0 && bytes[form.count] == 0 {
                    bytes[form.count] = 1;
                }
                if faults & 32 != 0 {
                    bytes[form.pairs + 1] = 2; // the flag of the oldest
                }
                if faults & 64 != 0 {
                    bytes[form.pairs + 31] = 3; // the last pair, unused or with a flag that is none
                }
                if faults & 128 != 0
                    && let Some(numbers) = form.numbers
                {
                    bytes[numbers + 33] = 3; // the last number, unused or any
                }
                if faults & 2 != 0 {
                    bytes[0] ^= 3;
                }
                if faults & 4 != 0 {
                    bytes.push(0);
                }
                bench.set_lengths(if faults & 8 != 0 { 15 } else { 16 }, 64, false);
                bench.set_image(&bytes);
                bench.call(call, FILL);
            }
        }
        if bench.over() {
            return;
        }
    }
}

/// Conversions: from every state in all forms to every length of a target, from every length of an image to those of and near the forms, with every
/// length of the answer area, and with every byte of the image changed.
fn conversions(bench: &mut Bench, chance: &mut Chance, states: &[Image]) {
    let targets = [0, 1, 250, 251, 252, 258, 259, 260, 289, 290, 291];
    for (form, state) in &in_all(states, chance) {
        bench.set_lengths(16, 0, false);
        bench.set_head(chance.below(16) as usize);
        for target in 0..=300 {
            bench.set_image(state);
            bench.call(&Call::Convert { target }, chance.number());
        }
        let mut longer = [0; 300];
        longer[..form.length].copy_from_slice(state);
        for length in 0..=300 {
            bench.set_image(&longer[..length]);
            bench.call(&Call::Convert { target: chance.one_of(&targets) }, chance.number());
        }
        for target in targets {
            bench.null_image();
            bench.call(&Call::Convert { target }, FILL);
            for answer in 0..=48 {
                bench.set_lengths(answer, 0, answer % 2 == 1);
                bench.set_image(state);
                bench.call(&Call::Convert { target }, chance.number());
            }
        }
        bench.set_lengths(16, 0, false);
        for at in 0..form.length {
            for value in (0..4).chain([17, 0x80, 0xff, state[at] ^ 1 << chance.below(8)]) {
                let mut damaged = state.clone();
                damaged[at] = value;
                bench.set_image(&damaged);
                bench.call(&Call::Convert { target: chance.one_of(&FORMS).length }, chance.number());
            }
        }
        if bench.over() {
            return;
        }
    }
}

/// From each form to each, and on from there to each, with every number waiting: two conversions, and each outcome drained and raised.
fn there_and_back(bench: &mut Bench, chance: &mut Chance, _: &[Image]) {
    for count in 0..=16 {
        for form in FORMS {
            let state = waiting(chance, form, count);
            for first in FORMS {
                for second in FORMS {
                    bench.set_lengths(16, 64, false);
                    bench.set_image(&state);
                    for target in [first.length, second.length] {
                        bench.call(&Call::Convert { target }, chance.number());
                        bench.take_target();
                    }
                    let rises = [0x020, 0x024].map(|address| Call::Write { base: 0, size: 0x400, address, width: 4, value: 0 });
                    for call in rises.into_iter().chain([Call::Level { input: 9, level: 1 }, Call::Drain { place: 0 }]) {
                        bench.call(&call, chance.number());
                    }
                }
            }
            if bench.over() {
                return;
            }
        }
    }
}

/// One history on one numbered image, from reset, until its numbers have gone round twice: in each round all lines go up and are masked with two writes,
/// which drop most of what they make.
fn long_history(bench: &mut Bench, chance: &mut Chance, _: &[Image]) {
    const ROUND: u64 = 64 + 64 + 1;
    bench.set_image(&vec![0; NUMBERED.length]);
    bench.call(&Call::Reset, FILL);
    let mask = |bench: &mut Bench, chance: &mut Chance, value| {
        for address in [0x020, 0x024] {
            bench.call(&Call::Write { base: 0, size: 0x400, address, width: 4, value }, chance.number());
        }
    };
    for round in 0..=2 * 65_536 / ROUND {
        mask(bench, chance, 0);
        for input in 0..64 {
            bench.call(&Call::Level { input, level: 1 }, chance.number());
        }
        mask(bench, chance, u64::MAX);
        bench.call(&Call::Drain { place: chance.below(20) }, chance.number());
        // unmasked with its line up, one input is announced by an event of its own
        bench.call(&Call::Write { base: 0, size: 0x400, address: 0x020, width: 4, value: 0xffff_fffe }, chance.number());
        bench.call(&Call::Level { input: 0, level: round % 2 }, chance.number());
        bench.call(&Call::Write { base: 0, size: 0x400, address: 0x080, width: 8, value: u64::MAX }, chance.number());
        bench.call(&Call::Drain { place: 0 }, chance.number());
        if bench.over() {
            return;
        }
    }
}

/// Differences: every number and these, both ways; and random pairs.
fn differences(bench: &mut Bench, chance: &mut Chance, _: &[Image]) {
    for number in 0..=u16::MAX {
        for other in [0, 1, 0x7fff, 0x8000, 0xffff, number ^ 0x8000, chance.number() as u16] {
            bench.difference(number, other);
            bench.difference(other, number);
        }
    }
}
