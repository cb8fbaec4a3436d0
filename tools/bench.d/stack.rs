//! The stack that each exported call uses: it runs on a painted stack of its own, and one looks how deep the paint is gone.

use crate::beside::{self, Asked};
use crate::call::Call;
use crate::chance::Chance;
use crate::kinds::{self, LENGTHS, NUMBERED, Slot};
use crate::plays::{self, Lent, Way};
use crate::sides;
use crate::verify;
use std::arch::asm;

/// Some times more than any call needs: what is used is told, and a call that came near the end would be seen.
const DEPTH: usize = 1 << 14;

#[repr(align(64))]
struct Painted([u8; DEPTH]);

/// A C function and its numbers, in the order of the C prototype; those past its own are not looked at.
type Numbers = (usize, [u64; 12]);

/// The numbers of a function that has fewer.
fn all<const N: usize>(function: usize, numbers: [u64; N]) -> Numbers {
    let mut all = [0; 12];
    all[..N].copy_from_slice(&numbers);
    (function, all)
}

fn numbers(call: &Call, slot: &mut Slot, target: &mut [u8; NUMBERED], il: usize, al: usize) -> Numbers {
    let (i, il) = (slot.image.as_mut_ptr() as u64, il as u64);
    let (a, al) = (slot.answer.as_mut_ptr() as u64, al as u64);
    match *call {
        Call::Reset => all(sides::pch_pic_reset as *const () as usize, [i, il, a, al]),
        Call::Read { base, size, address, width } => {
            all(sides::pch_pic_read as *const () as usize, [i, il, base, size, address, width, a, al])
        }
        Call::Write { base, size, address, width, value } => {
            all(sides::pch_pic_write as *const () as usize, [i, il, base, size, address, width, value, a, al])
        }
        Call::Level { input, level } => all(sides::pch_pic_level as *const () as usize, [i, il, input, level, a, al]),
        Call::Poll { input } => all(sides::pch_pic_poll as *const () as usize, [i, il, input, a, al]),
        Call::Drain { place } => {
            let (e, el) = (slot.events.as_mut_ptr() as u64, slot.events.len() as u64);
            all(sides::pch_pic_drain as *const () as usize, [i, il, e, el, place, a, al])
        }
        Call::Convert { target: length } => {
            let (t, tl) = (target.as_mut_ptr() as u64, length.min(NUMBERED) as u64);
            all(sides::pch_pic_convert as *const () as usize, [i, il, t, tl, a, al])
        }
    }
}

fn beside_numbers(asked: &Asked, lent: &mut beside::Lent, il: usize) -> Numbers {
    use beside::sides;
    let (i, il) = (lent.slot.image.as_mut_ptr() as u64, il as u64);
    let ((b, bl), (p, pl)) = ((lent.board.as_mut_ptr() as u64, 256), (lent.phase.as_mut_ptr() as u64, 1));
    let ((e, el), (a, al)) = ((lent.slot.events.as_mut_ptr() as u64, 64), (lent.slot.answer.as_mut_ptr() as u64, 16));
    match *asked {
        Asked::Board(Call::Read { base, size, address, width }) => {
            all(sides::pch_pic_board_read as *const () as usize, [i, il, b, bl, base, size, address, width, a, al])
        }
        Asked::Board(Call::Write { base, size, address, width, value }) => {
            all(sides::pch_pic_board_write as *const () as usize, [i, il, b, bl, base, size, address, width, value, a, al])
        }
        Asked::Board(Call::Level { input, level }) => {
            all(sides::pch_pic_board_level as *const () as usize, [i, il, b, bl, input, level, a, al])
        }
        Asked::Board(Call::Poll { input }) => all(sides::pch_pic_board_poll as *const () as usize, [i, il, b, bl, input, a, al]),
        Asked::Board(Call::Drain { place }) => all(sides::pch_pic_board_drain as *const () as usize, [i, il, b, bl, e, el, place, a, al]),
        Asked::Board(_) => all(sides::pch_pic_board_reset as *const () as usize, [i, il, b, bl, a, al]),
        Asked::Event { vector, flag } => {
            all(sides::pch_pic_board_event as *const () as usize, [b, bl, u64::from(vector), u64::from(flag), a, al])
        }
        Asked::Hoist(Call::Read { base, size, address, width }) => {
            all(sides::pch_pic_hoist_read as *const () as usize, [i, il, base, size, address, width, a, al])
        }
        Asked::Hoist(Call::Write { base, size, address, width, value }) => {
            all(sides::pch_pic_hoist_write as *const () as usize, [i, il, p, pl, base, size, address, width, value, a, al])
        }
        Asked::Hoist(_) => all(sides::pch_pic_hoist_reset as *const () as usize, [i, il, p, pl, a, al]),
        Asked::EndStartup => all(sides::pch_pic_hoist_end_startup as *const () as usize, [i, il, p, pl, a, al]),
        // a settle is calls that stand here already, and who waits
        Asked::Waiting | Asked::Settle { .. } | Asked::HostSettle | Asked::Sample => {
            all(sides::pch_pic_waiting as *const () as usize, [i, il, a, al])
        }
    }
}

fn area(bytes: &mut Vec<u8>) -> (u64, u64) {
    (bytes.as_mut_ptr() as u64, bytes.len() as u64)
}

fn play_numbers(call: usize, trace: &[u8], lent: &mut Lent) -> Numbers {
    let ((t, tl), (i, il)) = ((trace.as_ptr() as u64, trace.len() as u64), area(&mut lent.image));
    let ((b, bl), (e, el), (a, al)) = (area(&mut lent.answers), area(&mut lent.events), area(&mut lent.answer));
    all(call, [t, tl, i, il, b, bl, e, el, a, al])
}

fn salvage_numbers(trace: &[u8], lent: &mut Lent) -> Numbers {
    let (t, tl) = (trace.as_ptr() as u64, trace.len() as u64);
    let ((k, kl), (l, ll), (a, al)) = (area(&mut lent.kept), area(&mut lent.list), area(&mut lent.answer));
    all(sides::pch_pic_salvage as *const () as usize, [t, tl, k, kl, l, ll, a, al])
}

fn sheet_numbers(trace: &[u8], lent: &mut Lent) -> Numbers {
    let ((s, sl), (a, al)) = (area(&mut lent.sheet), area(&mut lent.answer));
    all(sides::pch_pic_sheet as *const () as usize, [trace.as_ptr() as u64, trace.len() as u64, s, sl, a, al])
}

fn tally_numbers(of: Way, trace: &[u8], lent: &mut Lent) -> Numbers {
    let ((r, rl), (i, il)) = ((trace.as_ptr() as u64, trace.len() as u64), area(&mut lent.image));
    let ((t, tl), (s, sl), (a, al)) = (area(&mut lent.tally), area(&mut lent.sheet), area(&mut lent.answer));
    match of {
        Way::Added => all(sides::pch_pic_tally_add as *const () as usize, [r, rl, i, il, t, tl, a, al]),
        Way::Totalled => all(sides::pch_pic_tally_sheet as *const () as usize, [t, tl, s, sl, a, al]),
        _ => all(sides::pch_pic_tally_begin as *const () as usize, [t, tl, a, al]),
    }
}

/// Bytes below the caller's stack that a call wrote, its return address among them. A byte that is written with the paint's own value
/// is not seen, so two paints are tried, with what is lent made anew for each.
fn used<T>(stack: &mut Painted, lent: impl Fn() -> T, numbers: impl Fn(&mut T) -> Numbers) -> usize {
    let mut deepest = 0;
    for paint in [0xa5, 0x5a] {
        stack.0.fill(paint);
        let mut lent = lent();
        let (function, n) = numbers(&mut lent);
        let top = stack.0.as_mut_ptr().wrapping_add(DEPTH) as u64;
        // SAFETY: the stack is 16-aligned at the call, has room, and is left before the block ends. Numbers past the sixth go by the stack.
        unsafe {
            asm!(
                "mov r12, rsp",
                "mov rsp, {top}",
                "push qword ptr [{n} + 88]",
                "push qword ptr [{n} + 80]",
                "push qword ptr [{n} + 72]",
                "push qword ptr [{n} + 64]",
                "push qword ptr [{n} + 56]",
                "push qword ptr [{n} + 48]",
                "call {function}",
                "mov rsp, r12",
                top = in(reg) top, n = in(reg) n.as_ptr(), function = in(reg) function,
                in("rdi") n[0], in("rsi") n[1], in("rdx") n[2], in("rcx") n[3], in("r8") n[4], in("r9") n[5],
                out("r12") _, clobber_abi("C"),
            );
        }
        let below = DEPTH - 48;
        let deepest_here = stack.0[..below].iter().position(|&byte| byte != paint).map_or(0, |first| below - first);
        deepest = deepest.max(deepest_here);
    }
    deepest
}

fn name(call: &Call) -> &'static str {
    match call {
        Call::Reset => "pch_pic_reset",
        Call::Read { .. } => "pch_pic_read",
        Call::Write { .. } => "pch_pic_write",
        Call::Level { .. } => "pch_pic_level",
        Call::Poll { .. } => "pch_pic_poll",
        Call::Drain { .. } => "pch_pic_drain",
        Call::Convert { .. } => "pch_pic_convert",
    }
}

/// How many random calls are made beside the kinds and the registers, and how many random traces are played.
const RANDOM: usize = 20_000;
const TRACES: usize = 1_000;

/// The most that a play uses, from a reset or on: over those that are measured, every offset and width read and written, random traces, and what is refused. Each is made
/// on an image that is reset, and on bytes that are none.
fn plays(stack: &mut Painted, call: usize) -> usize {
    let mut deepest = 0;
    let mut note = |trace: &[u8], lent: &Lent| {
        let mut reset = lent.clone();
        plain::reset(&mut reset.image, &mut [0; 16]);
        for lent in [&reset, lent] {
            deepest = deepest.max(used(stack, || lent.clone(), |lent| play_numbers(call, trace, lent)));
        }
    };
    for play in plays::all().iter().filter(|play| play.way == Way::Played) {
        note(&play.trace, &Lent::of(play));
    }
    for width in [1, 2, 4, 8] {
        let reads = (0..0x400).map(|address| Call::Read { base: 0, size: 0, address, width });
        let writes = |value| (0..0x400).map(move |address| Call::Write { base: 0, size: 0, address, width, value });
        let calls: Vec<Call> = reads.chain(writes(0)).chain(writes(!0)).collect();
        for length in LENGTHS {
            note(&plays::trace(&calls, calls.len()), &Lent::new(length, calls.len(), 0));
        }
    }
    let mut chance = Chance::new(5);
    for _ in 0..TRACES {
        let (trace, _, mut lent) = plays::random(&mut chance);
        note(&trace, &lent);
        note(&trace[1..], &lent);
        lent.answers.clear();
        note(&trace, &lent);
    }
    deepest
}

/// The most that a salvage uses: over those that are measured, and random damaged traces.
fn salvages(stack: &mut Painted) -> usize {
    let mut deepest = 0;
    let mut note = |trace: &[u8], lent: &Lent| deepest = deepest.max(used(stack, || lent.clone(), |lent| salvage_numbers(trace, lent)));
    for play in plays::all().iter().filter(|play| play.way == Way::Salvaged) {
        note(&play.trace, &Lent::of(play));
    }
    let mut chance = Chance::new(6);
    for _ in 0..TRACES {
        let trace = plays::random_damaged(&mut chance);
        note(&trace, &Lent::for_salvage(trace.len(), 256));
        note(&trace, &Lent::for_salvage(0, 0));
    }
    deepest
}

/// The most that a sheet uses: over those that are measured, and random traces, good and damaged.
fn sheets(stack: &mut Painted) -> usize {
    let mut deepest = 0;
    let mut note = |trace: &[u8]| {
        deepest = deepest.max(used(stack, || Lent::for_sheet(plays::SHEET), |lent| sheet_numbers(trace, lent)));
    };
    plays::all().iter().filter(|play| play.way == Way::Summed).for_each(|play| note(&play.trace));
    let mut chance = Chance::new(8);
    for _ in 0..TRACES {
        note(&plays::random(&mut chance).0);
        note(&plays::random_damaged(&mut chance));
    }
    deepest
}

/// The most that a call on a tally uses: over those that are measured, and random traces, good and damaged, on random images.
fn tallies(stack: &mut Painted, of: Way) -> usize {
    let mut deepest = 0;
    let mut note = |trace: &[u8], lent: &Lent| deepest = deepest.max(used(stack, || lent.clone(), |lent| tally_numbers(of, trace, lent)));
    for play in plays::all().iter().filter(|play| play.way == Way::Added) {
        note(&play.trace, &Lent::of(play));
    }
    let mut chance = Chance::new(9);
    for _ in 0..TRACES {
        let length = chance.one_of(&LENGTHS);
        let image = verify::random_image(&mut chance, length);
        let lent = Lent::for_tally(vec![0; plays::TALLY], plays::TALLY, &image[..length]);
        note(&plays::random(&mut chance).0, &lent);
        note(&plays::random_damaged(&mut chance), &lent);
    }
    deepest
}

fn beside_name(asked: &Asked) -> &'static str {
    match asked {
        Asked::Board(Call::Read { .. }) => "pch_pic_board_read",
        Asked::Board(Call::Write { .. }) => "pch_pic_board_write",
        Asked::Board(Call::Level { .. }) => "pch_pic_board_level",
        Asked::Board(Call::Poll { .. }) => "pch_pic_board_poll",
        Asked::Board(Call::Drain { .. }) => "pch_pic_board_drain",
        Asked::Board(_) => "pch_pic_board_reset",
        Asked::Event { .. } => "pch_pic_board_event",
        Asked::Hoist(Call::Read { .. }) => "pch_pic_hoist_read",
        Asked::Hoist(Call::Write { .. }) => "pch_pic_hoist_write",
        Asked::Hoist(_) => "pch_pic_hoist_reset",
        Asked::EndStartup => "pch_pic_hoist_end_startup",
        Asked::Waiting | Asked::Settle { .. } | Asked::HostSettle | Asked::Sample => "pch_pic_waiting",
    }
}

/// The most that each call beside the plain ones uses: over all their kinds, every offset and width, and random calls on random images.
fn besides(stack: &mut Painted) -> Vec<(&'static str, usize)> {
    let mut most = Vec::new();
    let mut note = |asked: &Asked, lent: &beside::Lent, il| {
        let bytes = used(stack, || lent.clone(), |lent| beside_numbers(asked, lent, il));
        keep(&mut most, beside_name(asked), bytes);
    };
    let all = beside::all();
    all.iter().for_each(|kind| note(&kind.asked, &kind.lent, NUMBERED));
    for (address, length) in (0..0x400).flat_map(|address| LENGTHS.map(|length| (address, length))) {
        let lent = beside::Lent::new(&kinds::busy(), length, 0);
        for width in [1, 2, 4, 8] {
            let read = Call::Read { base: 0, size: 0x400, address, width };
            let writes = [0, !0].map(|value| Call::Write { base: 0, size: 0x400, address, width, value });
            for call in [read].into_iter().chain(writes) {
                note(&Asked::Board(call), &lent, length);
                note(&Asked::Hoist(call), &lent, length);
            }
        }
    }
    let mut chance = Chance::new(4);
    for _ in 0..RANDOM {
        let length = chance.one_of(&LENGTHS);
        let mut lent = beside::Lent::new(&kinds::busy(), length, chance.one_of(&[0, 1]));
        lent.slot.image = verify::random_image(&mut chance, length);
        note(&beside::verify::random_asked(&mut chance), &lent, length);
    }
    most
}

/// Keeps the most of each name.
fn keep(most: &mut Vec<(&'static str, usize)>, name: &'static str, bytes: usize) {
    match most.iter_mut().find(|one| one.0 == name) {
        Some(one) => one.1 = one.1.max(bytes),
        None => most.push((name, bytes)),
    }
}

/// The most that each of the calls uses: over all the kinds, every offset and width read and written, and random calls on random images.
pub fn print(markdown: bool) -> Result<(), String> {
    let mut stack = Box::new(Painted([0; DEPTH]));
    let mut most = Vec::new();
    let mut note = |call: &Call, slot: &Slot, il, al| {
        let bytes = used(&mut stack, || (slot.clone(), [0; NUMBERED]), |(slot, target)| numbers(call, slot, target, il, al));
        keep(&mut most, name(call), bytes);
    };
    let all = kinds::all();
    for kind in &all {
        note(&kind.call, &kind.slot, kind.image_len, kind.answer_len);
    }
    let resets = || all.iter().filter(|kind| kind.call == Call::Reset);
    for address in 0..0x400 {
        for (width, kind) in [1, 2, 4, 8].into_iter().flat_map(|width| resets().map(move |kind| (width, kind))) {
            note(&Call::Read { base: 0, size: 0x400, address, width }, &kind.slot, kind.image_len, 16);
            for value in [0, !0] {
                note(&Call::Write { base: 0, size: 0x400, address, width, value }, &kind.slot, kind.image_len, 16);
            }
        }
    }
    let mut chance = Chance::new(3);
    for _ in 0..RANDOM {
        let length = chance.one_of(&LENGTHS);
        let mut slot = all[0].slot.clone();
        slot.image = verify::random_image(&mut chance, length);
        note(&verify::random_call(&mut chance), &slot, length, 16);
        note(&Call::Convert { target: chance.one_of(&LENGTHS) }, &slot, length, 16);
    }
    most.push(("pch_pic_play", plays(&mut stack, sides::pch_pic_play as *const () as usize)));
    most.push(("pch_pic_play_on", plays(&mut stack, sides::pch_pic_play_on as *const () as usize)));
    most.push(("pch_pic_salvage", salvages(&mut stack)));
    most.push(("pch_pic_sheet", sheets(&mut stack)));
    most.push(("pch_pic_tally_begin", tallies(&mut stack, Way::Played)));
    most.push(("pch_pic_tally_add", tallies(&mut stack, Way::Added)));
    most.push(("pch_pic_tally_sheet", tallies(&mut stack, Way::Totalled)));
    most.extend(besides(&mut stack));
    if most.iter().any(|one| one.1 > DEPTH / 2) {
        return Err("the painted stack is too small".into());
    }
    if markdown {
        println!("| Call | Stack, bytes |\n|---|---:|");
    }
    for (name, bytes) in most {
        if markdown { println!("| `{name}` | {bytes} |") } else { println!("{name:27}{bytes:>7} bytes of stack") }
    }
    Ok(())
}
