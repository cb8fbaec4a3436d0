//! Random windows, calls and images, weighted so that they reach what matters: registers and their neighbours, ends of ranges, the far
//! end, full rings, drop counts near their stop, numbers that go round, masked bits in service, unknown widths, inputs from 64 up.

use crate::call::Call;
use crate::chance::Chance;
use crate::image::{self, FORMS, Form, Image};
use crate::numbers::Numbers;

/// The low halves of 01's registers; each high half stands 4 above.
pub const REGISTERS: [u64; 10] = [0x000, 0x020, 0x040, 0x060, 0x080, 0x0c0, 0x0e0, 0x380, 0x3a0, 0x3e0];
const MASK: u64 = 0x020;
const CLEAR: u64 = 0x080;
const ISR: u64 = 0x3a0;

/// Where something begins or ends, with the bytes around it.
const ENDS: [(u64, u64); 8] =
    [(0x0fc, 0x104), (0x13c, 0x144), (0x1fc, 0x204), (0x200, 0x240), (0x23c, 0x244), (0x37c, 0x3a8), (0x3dc, 0x3e8), (0x3f8, 0x408)];

/// Numbers that a careless cast or comparison takes for another.
const ODD_NUMBERS: [u64; 12] =
    [0xff, 0x100, 0x101, 0xffff, 0x1_0000, 1 << 31, 1 << 32, (1 << 32) + 1, (1 << 32) + 5, 1 << 63, u64::MAX - 1, u64::MAX];

/// A window, the inputs that a history keeps coming back to, and how its calls are mixed.
pub struct Mood {
    pub base: u64,
    pub size: u64,
    inputs: [u64; 6],
    mix: Mix,
}

/// How often each kind of call comes, out of the sum.
#[derive(Clone, Copy)]
struct Mix {
    read: u64,
    write: u64,
    raise: u64,
    lower: u64,
    poll: u64,
    drain: u64,
    /// Of the writes, how many percent go to MASK, CLEAR or ISR.
    lines: u64,
}

const MIXES: [Mix; 4] = [
    // a bit of everything
    Mix { read: 25, write: 35, raise: 12, lower: 8, poll: 10, drain: 8, lines: 50 },
    // a guest that masks, unmasks and clears while nobody drains: full rings and drops
    Mix { read: 5, write: 55, raise: 25, lower: 5, poll: 5, drain: 1, lines: 95 },
    // lines that go up and down
    Mix { read: 8, write: 20, raise: 30, lower: 25, poll: 15, drain: 5, lines: 70 },
    // the register file
    Mix { read: 50, write: 45, raise: 2, lower: 1, poll: 1, drain: 1, lines: 15 },
];

pub fn mood(chance: &mut Chance) -> Mood {
    let (base, size) = window(chance);
    let inputs = std::array::from_fn(|_| chance.below(64));
    Mood { base, size, inputs, mix: chance.one_of(&MIXES) }
}

/// One with a window that is given.
pub fn mood_in(chance: &mut Chance, base: u64, size: u64) -> Mood {
    Mood { base, size, ..mood(chance) }
}

/// Mostly a window that holds the registers; else ones at and around the far end, small and empty ones, any.
fn window(chance: &mut Chance) -> (u64, u64) {
    match chance.below(20) {
        0..=6 => (0, 0x400),
        7..=8 => (0x1000_0000, 0x1000),
        9 => (chance.number(), 0x400),
        10..=12 => (0, u64::MAX),
        13 => (chance.below(16), u64::MAX),
        14 => {
            let base = chance.below(16);
            (base, (u64::MAX - base).wrapping_add(chance.below(5)).wrapping_sub(2))
        }
        15 => (u64::MAX - chance.below(0x500), chance.one_of(&[0x400, 0x500, 1 << 40, u64::MAX])),
        16 => (u64::MAX - 0x400, chance.between(0x3fe, 0x402)),
        17 => (chance.number(), chance.below(9)),
        18 => (chance.below(0x1000), chance.below(0x500)),
        _ => (chance.number(), chance.number()),
    }
}

pub fn call(chance: &mut Chance, mood: &Mood) -> Call {
    let mix = mood.mix;
    let mut pick = chance.below(mix.read + mix.write + mix.raise + mix.lower + mix.poll + mix.drain);
    let mut is = |share: u64| {
        let yes = pick < share;
        pick = pick.wrapping_sub(share);
        yes
    };
    if is(mix.read) {
        let offset = offset(chance);
        let (base, size, address, width) = access(chance, mood, offset);
        Call::Read { base, size, address, width }
    } else if is(mix.write) {
        let offset = if chance.percent(mix.lines) { line_offset(chance) } else { offset(chance) };
        let (base, size, address, width) = access(chance, mood, offset);
        Call::Write { base, size, address, width, value: value(chance) }
    } else if is(mix.raise) {
        let level = if chance.percent(80) { 1 } else { chance.one_of(&ODD_NUMBERS) };
        Call::Level { input: input(chance, mood), level }
    } else if is(mix.lower) {
        Call::Level { input: input(chance, mood), level: 0 }
    } else if is(mix.poll) {
        Call::Poll { input: input(chance, mood) }
    } else {
        // the caller chooses the buffer, and with it a place
        Call::Drain { place: 0 }
    }
}

/// A place in or just past an event buffer of so many bytes.
pub fn place(chance: &mut Chance, events: usize) -> u64 {
    match chance.below(10) {
        0..=4 => chance.below(events as u64 + 1),
        5 => 0,
        6 => events as u64,
        7 => (events as u64).saturating_sub(chance.below(4)),
        8 => events as u64 + chance.below(4),
        _ => chance.one_of(&ODD_NUMBERS),
    }
}

fn input(chance: &mut Chance, mood: &Mood) -> u64 {
    match chance.below(20) {
        0..=11 => chance.one_of(&mood.inputs),
        12..=17 => chance.below(64),
        18 => chance.between(60, 70),
        _ => chance.one_of(&ODD_NUMBERS),
    }
}

fn width(chance: &mut Chance) -> u64 {
    if chance.percent(95) {
        chance.one_of(&[1, 2, 4, 8])
    } else if chance.percent(60) {
        chance.below(17)
    } else {
        chance.one_of(&[0x101, 0x104, (1 << 32) + 1, (1 << 32) + 2, (1 << 32) + 4, (1 << 32) + 8, 1 << 63, u64::MAX])
    }
}

fn access(chance: &mut Chance, mood: &Mood, offset: u64) -> (u64, u64, u64, u64) {
    let Mood { base, size, .. } = *mood;
    let end = base.saturating_add(size);
    let address = match chance.below(40) {
        0 => base.wrapping_sub(chance.below(5)),
        1 => end.wrapping_add(chance.below(9)).wrapping_sub(4),
        2 => u64::MAX - chance.below(9),
        3 => chance.number(),
        _ => base.wrapping_add(offset),
    };
    (base, size, address, width(chance))
}

/// Mostly a register or one of its neighbours, else the ends of ranges, the tables, the far end, any.
fn offset(chance: &mut Chance) -> u64 {
    match chance.below(20) {
        0..=6 => register(chance),
        7..=11 => {
            let (first, last) = chance.one_of(&ENDS);
            chance.between(first, last)
        }
        12..=14 => chance.one_of(&[0x100, 0x200]) + chance.below(64),
        15..=16 => chance.below(0x500),
        17 => u64::MAX - chance.below(12),
        18 => register(chance).wrapping_add(chance.one_of(&[1 << 16, 1 << 31, 1 << 32, 1 << 63])),
        _ => chance.number() >> chance.below(64),
    }
}

fn register(chance: &mut Chance) -> u64 {
    let at = chance.one_of(&REGISTERS) + 4 * chance.below(2);
    if chance.percent(60) { at } else { at.wrapping_add(chance.below(12)).wrapping_sub(4) }
}

/// Where a write moves the lines: MASK, CLEAR or ISR, mostly at a half's first byte.
fn line_offset(chance: &mut Chance) -> u64 {
    let at = chance.one_of(&[MASK, MASK, MASK, CLEAR, ISR]) + 4 * chance.below(2);
    if chance.percent(70) { at } else { at + chance.below(4) }
}

/// All, none, few, many or any bits.
fn value(chance: &mut Chance) -> u64 {
    let bits = chance.number();
    match chance.below(10) {
        0 => 0,
        1 => u64::MAX,
        2 => 1 << (bits % 64),
        3 => !(1 << (bits % 64)),
        4 => bits & chance.number() & chance.number(),
        5 => bits | chance.number() | chance.number(),
        6 => (bits & 0xff) << (8 * chance.below(8)),
        _ => bits,
    }
}

/// Bits set with a density that changes from draw to draw, the extremes among them.
fn register_bits(chance: &mut Chance) -> u64 {
    let (a, b) = (chance.number(), chance.number());
    match chance.below(7) {
        0 => 0,
        1 => u64::MAX,
        2 => a & b,
        3 => a | b,
        4 => a & b & chance.number() & chance.number(),
        _ => a,
    }
}

/// An image of that form that every rule accepts, masked bits in ISR, full rings and counts near the stop among them.
pub fn accepted(chance: &mut Chance, form: Form) -> Image {
    let mut image = vec![0; form.length];
    image[..form.contents.len()].copy_from_slice(form.contents);
    for place in form.registers() {
        image[place..place + 8].copy_from_slice(&register_bits(chance).to_le_bytes());
    }
    if let Some(copy) = form.copy {
        image.copy_within(form.irr..form.irr + 8, copy);
    }
    let same = chance.percent(10).then(|| chance.number() as u8);
    for byte in &mut image[form.routes..form.vectors + 64] {
        *byte = same.unwrap_or(chance.number() as u8);
    }
    let count = match chance.below(6) {
        0 => 0,
        1 => 16,
        2 => chance.between(13, 15),
        _ => chance.below(17),
    } as usize;
    image[form.count] = count as u8;
    let drops = match chance.below(5) {
        0 => 0,
        1 => u32::MAX,
        2 => u32::MAX - chance.below(40) as u32,
        3 => chance.one_of(&[0xff, 0xffff, 0xff_ffff, 0x7fff_ffff]),
        _ => chance.number() as u32,
    };
    image[form.drops..form.drops + 4].copy_from_slice(&drops.to_le_bytes());
    for pair in image[form.pairs..form.pairs + 2 * count].chunks_mut(2) {
        pair.copy_from_slice(&[chance.number() as u8, chance.below(2) as u8]);
    }
    image::set_numbers(&numbers(chance, count), &mut image);
    image
}

/// An accepted image in which some events wait, and more have room.
#[allow(dead_code)]
pub fn with_events(chance: &mut Chance, form: Form) -> Vec<u8> {
    loop {
        let image = accepted(chance, form);
        if (2..16).contains(&image[form.count]) {
            return image;
        }
    }
}

/// Places and bytes that break each rule of the form in such an image: 5, 9, 10, 11, and, where it has them, of the copy of IRR 8 and of the numbers 11.
#[allow(dead_code)]
pub fn breaches(image: &[u8], form: Form) -> Vec<(usize, u8)> {
    let mut breaches = vec![(0, 9), (form.count, 17), (form.pairs + 3, 2), (form.pairs + 31, 1)];
    breaches.extend(form.copy.map(|copy| (copy, image[copy] ^ 1)));
    breaches.extend(form.numbers.map(|numbers| (numbers + 33, 1)));
    breaches
}

/// Numbers for so many waiting events: mostly such as a history leaves, next numbers near where they go round among them, else any.
pub fn numbers(chance: &mut Chance, count: usize) -> Numbers {
    let next = match chance.below(5) {
        0 => 0,
        1 => u16::MAX - chance.below(40) as u16,
        2 => chance.one_of(&[1, 16, 0x7fff, 0x8000, 0xff, 0x100, u16::MAX]),
        _ => chance.number() as u16,
    };
    let any = chance.percent(30);
    let mut number = next.wrapping_sub(count as u16).wrapping_sub(chance.below(3) as u16);
    let waiting = (0..count).map(|_| {
        number = if any { chance.number() as u16 } else { number.wrapping_add(1) };
        number
    });
    Numbers { next, waiting: waiting.collect() }
}

/// A damaged image of a form: some bytes changed, or another length, that of another form too. It may still be accepted.
pub fn damage(chance: &mut Chance, bytes: &mut Vec<u8>, form: Form) {
    match chance.below(8) {
        0 => bytes.truncate(chance.below(form.length as u64) as usize),
        1 => bytes.resize(length(chance), chance.number() as u8),
        // contents, copy of IRR and IRR, count, pairs and numbers: where the rules look
        2 => flip(chance, bytes, 0, form.contents.len()),
        3 => flip(chance, bytes, form.copy.unwrap_or(form.irr), form.irr + 8),
        4 => bytes[form.count] = chance.number() as u8,
        5 => flip(chance, bytes, form.pairs, form.length),
        6 => flip(chance, bytes, form.count, form.count + 1),
        _ => {
            for _ in 0..chance.between(1, 4) {
                flip(chance, bytes, 0, form.length);
            }
        }
    }
}

/// A length for an image or a target: mostly one of a form, else near to them, or of parts of them.
pub fn length(chance: &mut Chance) -> usize {
    match chance.below(10) {
        0..=5 => chance.one_of(&FORMS).length,
        6 => chance.between(249, 261) as usize,
        7 => chance.between(288, 300) as usize,
        8 => chance.one_of(&[0, 22, 27, 256]),
        _ => chance.below(301) as usize,
    }
}

fn flip(chance: &mut Chance, bytes: &mut [u8], first: usize, end: usize) {
    let at = chance.between(first as u64, end as u64 - 1) as usize;
    bytes[at] ^= if chance.percent(60) { 1 << chance.below(8) } else { chance.between(1, 255) as u8 };
}
