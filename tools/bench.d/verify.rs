//! Before anything is timed: the sides must leave the same bytes, over all the kinds, over the mixed day and over random calls.

use crate::call::Call;
use crate::chance::Chance;
use crate::kinds::{BASE, Kind, LENGTH, LENGTHS, NUMBERED, Prepared, SIZE, Slot, count_at, moved};
use crate::plays::{self, Lent, Play, Way, blocks};
use crate::sides::{
    Lean, Library, Plain, Portable, Side, converted, make, one_by_one, play, play_on, salvage, sheet, tally_add, tally_sheet,
};

/// What a side hands back, and the target of a conversion.
fn by<S: Side>(call: &Call, slot: &mut Slot, image_len: usize, answer_len: usize) -> (u8, [u8; NUMBERED]) {
    match *call {
        Call::Convert { target } => converted::<S>(slot, image_len, answer_len, target),
        _ => (make::<S>(call, slot, image_len, answer_len), [0; NUMBERED]),
    }
}

/// The sides make the call; they must hand back the same number and leave the same bytes. The number, and the image or target that is left.
fn same(what: &str, call: &Call, slot: &mut Slot, image_len: usize, answer_len: usize) -> Result<(u8, [u8; NUMBERED]), String> {
    let (mut plain, mut lean, mut portable) = (slot.clone(), slot.clone(), slot.clone());
    let (number, target) = by::<Library>(call, slot, image_len, answer_len);
    let others = [
        ("plain Rust", by::<Plain>(call, &mut plain, image_len, answer_len), plain),
        ("lean Rust", by::<Lean>(call, &mut lean, image_len, answer_len), lean),
        ("portable Rust", by::<Portable>(call, &mut portable, image_len, answer_len), portable),
    ];
    let first = |a: &[u8], b: &[u8]| a.iter().zip(b).position(|(a, b)| a != b);
    for (name, (handed, written), other) in &others {
        if number != *handed || slot != other || target != *written {
            return Err(format!(
                "{what}: {call:?} on {image_len} bytes: the library hands back {number}, {name} {handed}; first different byte: image {:?}, answer \
                 {:?}, events {:?}, target {:?}",
                first(&slot.image, &other.image),
                first(&slot.answer, &other.answer),
                first(&slot.events, &other.events),
                first(&target, written)
            ));
        }
    }
    Ok((number, if let Call::Convert { .. } = call { target } else { slot.image }))
}

/// A kind is what its name says, and the sides agree on it.
pub fn kind(kind: &Kind) -> Result<(), String> {
    let mut slot = kind.slot.clone();
    let (number, left) = same(kind.name, &kind.call, &mut slot, kind.image_len, kind.answer_len)?;
    let count = count_at(if let Call::Convert { target } = kind.call { target } else { kind.image_len });
    let drops = u32::from_le_bytes(left[count + 1..count + 5].try_into().unwrap());
    let told = (number, left[count], drops);
    let reset = kind.call == Call::Reset;
    if told != (kind.number, if reset { 0 } else { kind.waiting }, kind.drops) {
        return Err(format!("kind {} is not what it says: number, waiting, drops are {told:?}", kind.name));
    }
    #[cfg(oracle)]
    if crate::device::has(kind) {
        let mut standing = crate::device::Standing::new();
        standing.set(&crate::device::start(kind));
        return device(kind.name, &kind.call, &mut standing, &mut 0, &slot, kind.image_len);
    }
    Ok(())
}

/// The published Rust must come to the image, the value and the events that the library left, but for numbers.
#[cfg(oracle)]
fn device(
    what: &str,
    call: &Call,
    standing: &mut crate::device::Standing,
    drops: &mut u32,
    left: &Slot,
    image_len: usize,
) -> Result<(), String> {
    let mut slot = left.clone();
    let value = crate::device::as_boundary(call, standing, drops, &mut slot, image_len);
    let told = (left.answer[1] == 1).then(|| u64::from_le_bytes(left.answer[8..].try_into().unwrap()));
    if value == told && slot.image == left.image && slot.events == left.events {
        return Ok(());
    }
    Err(format!("{what}: {call:?}: the published Rust gives {value:?}, the library {told:?}, or another state"))
}

pub fn day(calls: &[Call], image_len: usize) -> Result<(), String> {
    let mut slot = Slot::new(&[0; LENGTH], image_len);
    #[cfg(oracle)]
    let (mut standing, mut drops) = (crate::device::Standing::new(), 0);
    for call in calls {
        same("mixed day", call, &mut slot, image_len, 16)?;
        #[cfg(oracle)]
        device("mixed day", call, &mut standing, &mut drops, &slot, image_len)?;
    }
    if slot.image[count_at(image_len) + 1..][..4] != [0; 4] {
        return Err("the mixed day drops events".into());
    }
    Ok(())
}

/// How many random calls are compared.
pub const RANDOM: u64 = 300_000;

/// Random calls on random states, with refusals of every number among them; gives how often each number came.
pub fn random() -> Result<[u64; 12], String> {
    let mut chance = Chance::new(7);
    let mut numbers = [0; 12];
    let mut slot = Slot::new(&Prepared::new().0, LENGTH);
    let mut length = LENGTH;
    for k in 0..RANDOM {
        if k % 40 == 0 {
            length = chance.one_of(&LENGTHS);
            slot.image = random_image(&mut chance, length);
        }
        if chance.percent(2) {
            slot.image[chance.below(length as u64) as usize] = chance.one_of(&[0, 1, 2, 16, 17, 255]);
        }
        slot.answer = chance.number().to_le_bytes().repeat(2).try_into().unwrap();
        slot.events = chance.number().to_le_bytes().repeat(8).try_into().unwrap();
        let image_len = if chance.percent(1) { chance.below(NUMBERED as u64 + 1) as usize } else { length };
        let answer_len = if chance.percent(1) { chance.below(17) as usize } else { 16 };
        let target = if chance.percent(90) { chance.one_of(&LENGTHS) } else { chance.below(NUMBERED as u64 + 1) as usize };
        let call = if chance.percent(5) { Call::Convert { target } } else { random_call(&mut chance) };
        let (number, _) = same("random", &call, &mut slot, image_len, answer_len)?;
        numbers[number as usize] += 1;
        if number == 5 || number >= 8 {
            slot.image = random_image(&mut chance, length);
        }
    }
    // 02, C-16: there is no 6 any more
    match numbers.iter().enumerate().position(|(number, &met)| met == 0 && number != 6) {
        Some(number) => Err(format!("the random calls never met number {number}")),
        None => Ok(numbers),
    }
}

/// The sides play the trace, and must hand back the same number and leave the same bytes.
fn same_play(what: &str, trace: &[u8], lent: &mut Lent) -> Result<u8, String> {
    let (mut plain, mut lean, mut portable) = (lent.clone(), lent.clone(), lent.clone());
    let number = play::<Library>(trace, lent);
    let others = [
        ("plain Rust", play::<Plain>(trace, &mut plain), plain),
        ("lean Rust", play::<Lean>(trace, &mut lean), lean),
        ("portable Rust", play::<Portable>(trace, &mut portable), portable),
    ];
    match others.iter().find(|other| other.1 != number || other.2 != *lent) {
        Some((name, handed, _)) => Err(format!("{what}: a play hands back {number}, that of {name} {handed}, or leaves other bytes")),
        None => Ok(number),
    }
}

/// The same of a trace that is played on.
fn same_play_on(what: &str, trace: &[u8], lent: &mut Lent) -> Result<u8, String> {
    let (mut plain, mut lean, mut portable) = (lent.clone(), lent.clone(), lent.clone());
    let number = play_on::<Library>(trace, lent);
    let others = [
        ("plain Rust", play_on::<Plain>(trace, &mut plain), plain),
        ("lean Rust", play_on::<Lean>(trace, &mut lean), lean),
        ("portable Rust", play_on::<Portable>(trace, &mut portable), portable),
    ];
    match others.iter().find(|other| other.1 != number || other.2 != *lent) {
        Some((name, handed, _)) => Err(format!("{what}: a play on hands back {number}, that of {name} {handed}, or leaves other bytes")),
        None => Ok(number),
    }
}

/// The calls of what was played, made one by one on each side, must leave the same bytes but in the answer area, which told the reset last.
fn same_calls(what: &str, calls: &[Call], before: &Lent, left: &Lent) -> Result<(), String> {
    let sides = [one_by_one::<Library>, one_by_one::<Plain>, one_by_one::<Lean>, one_by_one::<Portable>];
    for (name, side) in ["the library", "plain Rust", "lean Rust", "portable Rust"].into_iter().zip(sides) {
        let mut lent = before.clone();
        side(calls, &mut lent);
        lent.answer.clone_from(&left.answer);
        if lent != *left {
            return Err(format!("{what}: the calls of {name} one by one leave other bytes than the play"));
        }
    }
    Ok(())
}

/// The sides salvage the trace, and must hand back the same number and leave the same bytes.
fn same_salvage(what: &str, trace: &[u8], lent: &mut Lent) -> Result<u8, String> {
    let (mut plain, mut lean, mut portable) = (lent.clone(), lent.clone(), lent.clone());
    let number = salvage::<Library>(trace, lent);
    let others = [
        ("plain Rust", salvage::<Plain>(trace, &mut plain), plain),
        ("lean Rust", salvage::<Lean>(trace, &mut lean), lean),
        ("portable Rust", salvage::<Portable>(trace, &mut portable), portable),
    ];
    match others.iter().find(|other| other.1 != number || other.2 != *lent) {
        Some((name, handed, _)) => Err(format!("{what}: a salvage hands back {number}, that of {name} {handed}, or leaves other bytes")),
        None => Ok(number),
    }
}

/// The new trace of a salvage that was done.
fn new_trace(lent: &Lent) -> &[u8] {
    &lent.kept[..u64::from_le_bytes(lent.answer[8..16].try_into().unwrap()) as usize]
}

/// What a salvage left, salvaged again, must come out unchanged with an empty list.
fn same_again(what: &str, left: &Lent) -> Result<(), String> {
    let trace = new_trace(left);
    let mut lent = Lent::for_salvage(trace.len(), 0);
    match same_salvage(what, trace, &mut lent)? {
        0 if lent.kept == trace => Ok(()),
        number => Err(format!("{what}: salvaged again the number is {number}, or other bytes are left")),
    }
}

/// A salvage that is measured: it is done, by the sides alike.
fn salvaged(of: &Play) -> Result<(), String> {
    let mut lent = Lent::of(of);
    match same_salvage(&of.name, &of.trace, &mut lent)? {
        0 => same_again(&of.name, &lent),
        number => Err(format!("{}: the salvage is refused with {number}", of.name)),
    }
}

/// The sides make the sheet of the trace, and must hand back the same number and leave the same bytes.
fn same_sheet(what: &str, trace: &[u8], lent: &mut Lent) -> Result<u8, String> {
    let (mut plain, mut lean, mut portable) = (lent.clone(), lent.clone(), lent.clone());
    let number = sheet::<Library>(trace, lent);
    let others = [
        ("plain Rust", sheet::<Plain>(trace, &mut plain), plain),
        ("lean Rust", sheet::<Lean>(trace, &mut lean), lean),
        ("portable Rust", sheet::<Portable>(trace, &mut portable), portable),
    ];
    match others.iter().find(|other| other.1 != number || other.2 != *lent) {
        Some((name, handed, other)) => {
            let first = lent.sheet.iter().zip(&other.sheet).position(|(a, b)| a != b);
            Err(format!("{what}: a sheet hands back {number}, that of {name} {handed}; the first different byte is {first:?}"))
        }
        None => Ok(number),
    }
}

/// A sheet that is measured: it is done, by the sides alike.
fn summed(of: &Play) -> Result<(), String> {
    match same_sheet(&of.name, &of.trace, &mut Lent::of(of))? {
        0 => Ok(()),
        number => Err(format!("{}: the sheet is refused with {number}", of.name)),
    }
}

/// The sides add the trace to the tally and write its sheet, and must hand back the same numbers and leave the same bytes.
fn same_tally(what: &str, trace: &[u8], lent: &mut Lent) -> Result<[u8; 2], String> {
    fn both<S: Side>(trace: &[u8], lent: &mut Lent) -> [u8; 2] {
        let added = tally_add::<S>(trace, lent);
        [added, tally_sheet::<S>(lent)]
    }
    let (mut plain, mut lean, mut portable) = (lent.clone(), lent.clone(), lent.clone());
    let numbers = both::<Library>(trace, lent);
    let others = [
        ("plain Rust", both::<Plain>(trace, &mut plain), plain),
        ("lean Rust", both::<Lean>(trace, &mut lean), lean),
        ("portable Rust", both::<Portable>(trace, &mut portable), portable),
    ];
    match others.iter().find(|other| other.1 != numbers || other.2 != *lent) {
        Some((name, handed, other)) => {
            let first = lent.tally.iter().zip(&other.tally).position(|(a, b)| a != b);
            Err(format!("{what}: a tally hands back {numbers:?}, that of {name} {handed:?}; the first different byte is {first:?}"))
        }
        None => Ok(numbers),
    }
}

/// A tally that is measured: it is done, by the sides alike.
fn added(of: &Play) -> Result<(), String> {
    match same_tally(&of.name, &of.trace, &mut Lent::of(of))? {
        [0, 0] => Ok(()),
        numbers => Err(format!("{}: the tally is refused with {numbers:?}", of.name)),
    }
}

/// A play that is measured: it is done, by the sides alike, and as one by one.
pub fn played(of: &Play) -> Result<(), String> {
    match of.way {
        Way::Salvaged => return salvaged(of),
        Way::Summed => return summed(of),
        Way::Added | Way::Totalled => return added(of),
        Way::Played | Way::PlayedOn | Way::OneByOne => {}
    }
    let (before, mut lent) = (Lent::of(of), Lent::of(of));
    let played = if of.way == Way::PlayedOn { same_play_on } else { same_play };
    match played(&of.name, &of.trace, &mut lent)? {
        0 => same_calls(&of.name, &of.calls, &before, &lent),
        number => Err(format!("{}: the play is refused with {number}", of.name)),
    }
}

/// How many random traces are played.
pub const TRACES: u64 = 20_000;

/// Random traces, some of them spoilt; gives how often each number came.
pub fn traces() -> Result<[u64; 14], String> {
    let mut chance = Chance::new(11);
    let mut numbers = [0; 14];
    for _ in 0..TRACES {
        let (mut trace, calls, mut lent) = plays::random(&mut chance);
        let spoilt = chance.percent(50);
        match chance.below(8) {
            _ if !spoilt => {}
            0 => lent.answers.truncate(lent.answers.len() - 1),
            1 => lent.events.truncate(lent.events.len().saturating_sub(1)),
            2 => lent.image.push(0),
            3 => lent.answer.truncate(15),
            4 => trace.truncate(chance.below(trace.len() as u64) as usize),
            // mostly in a record, and then often one that is used
            _ => {
                let at = chance.below(trace.len() as u64) as usize;
                trace[at] ^= 1 << chance.below(8);
            }
        }
        let before = lent.clone();
        let number = same_play("random", &trace, &mut lent)?;
        numbers[usize::from(number)] += 1;
        if number == 0 && !spoilt {
            same_calls("random", &calls, &before, &lent)?;
        }
        // and once more, on what was left, or on an image that is none
        same_play_on("random", &trace, &mut lent)?;
    }
    match [0, 4, 7, 12, 13].into_iter().find(|&number| numbers[number] == 0) {
        Some(number) => Err(format!("the random traces never met number {number}")),
        None => Ok(numbers),
    }
}

/// Random damaged traces, to buffers that have just the room, more, or too little; gives how often each number came.
pub fn damaged() -> Result<[u64; 17], String> {
    let mut chance = Chance::new(17);
    let mut numbers = [0; 17];
    for _ in 0..TRACES {
        let trace = plays::random_damaged(&mut chance);
        let mut lent = Lent::for_salvage(trace.len(), 256);
        if same_salvage("random", &trace, &mut lent)? == 0 {
            same_again("random", &lent)?;
            let (kept, list) = (new_trace(&lent).len(), 4 * (blocks(&trace).len() - blocks(new_trace(&lent)).len()));
            lent = Lent::for_salvage(chance.one_of(&[kept - 1, kept, kept + 3]), chance.one_of(&[list.saturating_sub(1), list, list + 3]));
        }
        lent.answer.truncate(chance.one_of(&[16, 16, 16, 16, 16, 15]));
        numbers[usize::from(same_salvage("random", &trace, &mut lent)?)] += 1;
    }
    match [0, 7, 12, 16].into_iter().find(|&number| numbers[number] == 0) {
        Some(number) => Err(format!("the random salvages never met number {number}")),
        None => Ok(numbers),
    }
}

/// Sheets of random traces, some of them damaged; gives how often each number came.
pub fn sheets() -> Result<[u64; 14], String> {
    let mut chance = Chance::new(19);
    let mut numbers = [0; 14];
    for _ in 0..TRACES {
        let trace = if chance.percent(80) { plays::random(&mut chance).0 } else { plays::random_damaged(&mut chance) };
        let mut lent = Lent::for_sheet(chance.one_of(&[plays::SHEET, plays::SHEET, plays::SHEET + 3]));
        match chance.below(100) {
            0 => lent.sheet.truncate(plays::SHEET - 1),
            1 => lent.answer.truncate(15),
            _ => {}
        }
        numbers[usize::from(same_sheet("random", &trace, &mut lent)?)] += 1;
    }
    match [0, 7, 12, 13].into_iter().find(|&number| numbers[number] == 0) {
        Some(number) => Err(format!("the random sheets never met number {number}")),
        None => Ok(numbers),
    }
}

/// Random traces added to tallies, on random images, some of them damaged; gives how often each number came.
pub fn tallies() -> Result<[u64; 18], String> {
    let mut chance = Chance::new(23);
    let mut numbers = [0; 18];
    for _ in 0..TRACES {
        let trace = if chance.percent(80) { plays::random(&mut chance).0 } else { plays::random_damaged(&mut chance) };
        let length = chance.one_of(&LENGTHS);
        let image = random_image(&mut chance, length);
        let counted = chance.number() >> chance.between(1, 60);
        let mut words: Vec<u64> = (0..640).map(|k| if k % 10 == 9 { chance.below(counted + 1) } else { chance.number() >> 2 }).collect();
        words.extend([counted, 0, 1, 2, 3, 4, 5, 6, 7, 8]);
        if chance.percent(20) {
            words[chance.below(650) as usize] = chance.one_of(&[1 << 63, counted + 1, counted]);
        }
        let tally = words.into_iter().flat_map(u64::to_le_bytes).collect();
        let mut lent = Lent::for_tally(tally, plays::TALLY + chance.below(2) as usize, &image[..length]);
        match chance.below(100) {
            0 => lent.sheet.truncate(plays::TALLY - 1),
            1 => lent.answer.truncate(15),
            2 => lent.tally.truncate(plays::TALLY - 1),
            _ => {}
        }
        for number in same_tally("random", &trace, &mut lent)? {
            numbers[usize::from(number)] += 1;
        }
    }
    match [0, 7, 12, 13, 17].into_iter().find(|&number| numbers[number] == 0) {
        Some(number) => Err(format!("the random tallies never met number {number}")),
        None => Ok(numbers),
    }
}

pub fn random_image(chance: &mut Chance, length: usize) -> [u8; NUMBERED] {
    let few = |chance: &mut Chance| chance.number() & chance.number() & chance.one_of(&[0, !0, chance_mask(3), chance_mask(20)]);
    let (latched, in_service) = (few(chance), few(chance));
    let mut image = Prepared::new().latched(latched).in_service(in_service).waiting(chance.below(17) as usize);
    for place in [0, 1, 2, 6, 7, 8] {
        let value = few(chance);
        image = image.register(place, value);
    }
    for byte in &mut image.0[94..222] {
        *byte = chance.number() as u8;
    }
    if chance.percent(10) {
        let near = u32::MAX - chance.below(3) as u32;
        image.0[223..227].copy_from_slice(&near.to_le_bytes());
    }
    let mut image = moved(&image.0, length);
    if length == NUMBERED && chance.percent(50) {
        // numbers that go round within some events, and any of those that wait
        let waiting = 2 * usize::from(image[count_at(NUMBERED)]);
        image[256..258].copy_from_slice(&(u16::MAX - chance.below(20) as u16).to_le_bytes());
        image[258..258 + waiting].fill_with(|| chance.number() as u8);
    }
    image
}

fn chance_mask(bits: u32) -> u64 {
    (1 << bits) - 1
}

pub fn random_call(chance: &mut Chance) -> Call {
    let input = if chance.percent(3) { chance.number() } else { chance.below(65) };
    let width = if chance.percent(3) { chance.below(10) } else { chance.one_of(&[1, 2, 4, 8]) };
    let near = chance.one_of(&[0, 0x20, 0x40, 0x60, 0x80, 0xc0, 0xe0, 0x100, 0x138, 0x200, 0x238, 0x380, 0x39c, 0x3a0, 0x3e0, 0x3fc]);
    let offset = if chance.percent(20) { chance.below(0x402) } else { near + chance.one_of(&[0, 0, 4, 4, 1, 2, 3, 5, 6, 7]) };
    let (base, size) = match chance.below(20) {
        0 => (0, u64::MAX),
        1 => (u64::MAX - 0x300, 0x400),
        _ => (BASE, SIZE),
    };
    let address = if base == 0 && chance.percent(30) { u64::MAX - chance.below(8) } else { base.wrapping_add(offset) };
    let value = if chance.percent(30) { chance.one_of(&[0, !0]) } else { chance.number() };
    match chance.below(20) {
        0 => Call::Reset,
        1..6 => Call::Read { base, size, address, width },
        6..12 => Call::Write { base, size, address, width, value },
        12..16 => Call::Level { input, level: chance.one_of(&[0, 1, 1, 256, !0]) },
        16..18 => Call::Poll { input },
        _ => Call::Drain { place: chance.below(66) },
    }
}
