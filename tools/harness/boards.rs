//! The calls with a board: random histories with loads, each call made beside the plain one; and histories from reset after which a second board, driven by events alone, has to be
//! equal to the first.

use crate::bench::Bench;
use crate::board::{LINES, recount};
use crate::call::Call;
use crate::case::{Case, Front};
use crate::cases::{Cases, tell_failed};
use crate::chance::Chance;
use crate::generate;
use crate::image::{self, FORMS, Form, NUMBERED};
use std::mem::take;

/// What is small enough is tried whole: every length of the board, every answer length, each count that an event finds.
pub fn sweep(bench: &mut Bench, chance: &mut Chance) {
    let mut cases = Cases::new();
    let calls = [
        Call::Reset,
        Call::Read { base: 0, size: 0x400, address: 0x3a0, width: 8 },
        Call::Write { base: 0, size: 0x400, address: 0x3a0, width: 8, value: u64::MAX },
        Call::Level { input: 9, level: 1 },
        Call::Poll { input: 9 },
        Call::Drain { place: 0 },
    ];
    for (k, call) in calls.into_iter().enumerate() {
        let image = generate::accepted(chance, FORMS[k % 3]);
        for null in [false, true] {
            for length in (0..4).chain(250..=260) {
                make(bench, &mut cases, call, &image, [64, 16, length], null);
            }
            for length in 0..=20 {
                make(bench, &mut cases, call, &image, [64, length, 256], null);
            }
        }
    }
    // an event that finds each count, for flags that a careless comparison takes for another; boards too short
    for count in 0..=255 {
        for flag in [0, 1, 2, 0x80, 0xff] {
            let mut board: Vec<u8> = (0..LINES).map(|_| chance.number() as u8).collect();
            let vector = chance.number() as u8;
            board[usize::from(vector)] = count;
            hear(bench, &mut cases, vector, flag, board, 16 + usize::from(count % 3));
        }
    }
    for length in (0..20).chain(250..=260) {
        hear(bench, &mut cases, length as u8, 1, vec![7; length], 16);
        hear(bench, &mut cases, length as u8, 0, vec![7; LINES], length.min(40));
    }
    most_events(bench, &mut cases, 300);
}

pub fn make(bench: &mut Bench, cases: &mut Cases, call: Call, image: &[u8], [events, answer, board]: [usize; 3], null: bool) {
    let areas = vec![image.to_vec(), vec![0xd4; events], vec![0xc3; answer], vec![0xe5; board]];
    cases.make(bench, &Case { front: Front::Board(call), areas, null });
}

/// A board hears an event; what it holds then.
pub fn hear(bench: &mut Bench, cases: &mut Cases, vector: u8, flag: u8, board: Vec<u8>, answer: usize) -> Vec<u8> {
    let case = Case { front: Front::Event { vector, flag }, areas: vec![board, vec![0xc3; answer]], null: false };
    cases.make(bench, &case);
    cases.left(0).to_vec()
}

/// So many random calls with a board.
pub fn random(bench: &mut Bench, chance: &mut Chance, calls: u64) {
    let mut cases = Cases::new();
    let goal = bench.passed + bench.failed + calls;
    while bench.passed + bench.failed < goal && !bench.over() {
        let length = chance.between(1, 200).min(goal - bench.passed - bench.failed);
        if chance.percent(50) { history(bench, chance, &mut cases, length) } else { second(bench, chance, &mut cases, length) }
    }
    if calls >= 1_000_000 {
        most_events(bench, &mut cases, 65_536);
    }
}

/// The image and the board between calls.
struct Held {
    image: Vec<u8>,
    board: Vec<u8>,
}

/// Random calls, from reset and from accepted images of each form, with loads and with boards that hold anything.
pub fn history(bench: &mut Bench, chance: &mut Chance, cases: &mut Cases, length: u64) {
    let mut mood = generate::mood(chance);
    cases.expected.head = chance.below(16) as usize;
    let form = chance.one_of(&FORMS);
    let mut held = Held { image: generate::accepted(chance, form), board: any_board(chance) };
    for _ in 0..length {
        if chance.percent(3) {
            mood = generate::mood(chance);
        }
        if chance.percent(3) {
            // a load of another image, of any form
            let form = chance.one_of(&FORMS);
            held.image = generate::accepted(chance, form);
            bench.met.fronts.loads += 1;
        }
        if chance.percent(5) {
            held.board = any_board(chance);
        }
        if chance.percent(4) {
            // a plain call that the board hears nothing of
            let (call, events) = any_call(chance, &mood);
            let case = Case { front: Front::Plain(call), areas: vec![held.image.clone(), vec![0xd4; events], vec![0xc3; 16]], null: false };
            if cases.make(bench, &case) == Some(0) {
                held.image = cases.left(0).to_vec();
            }
        }
        if chance.percent(4) {
            // another board hears anything
            let (flag, board) = (chance.one_of(&[0, 0, 1, 1, 2, 0xff]), any_board(chance));
            hear(bench, cases, chance.number() as u8, flag, board, 16);
        }
        let (call, events) = any_call(chance, &mood);
        let mut image = held.image.clone();
        if chance.percent(4) {
            let form = Form::of(image.len()).expect("a good image has a form");
            generate::damage(chance, &mut image, form);
        }
        let mut board = held.board.clone();
        if chance.percent(10) {
            let length = chance.one_of(&[0, 1, 255, 255, 257, 257, 300]);
            board.resize(length, chance.number() as u8);
        }
        let answer = if chance.percent(97) { chance.between(16, 40) } else { chance.below(21) } as usize;
        if step(bench, chance, cases, call, image, board, [events, answer], &mut held).is_none() {
            return;
        }
    }
}

fn any_board(chance: &mut Chance) -> Vec<u8> {
    match chance.below(3) {
        0 => vec![0; LINES],
        1 => vec![chance.number() as u8; LINES],
        _ => (0..LINES).map(|_| chance.number() as u8).collect(),
    }
}

/// A call, and how long the event buffer is.
fn any_call(chance: &mut Chance, mood: &generate::Mood) -> (Call, usize) {
    let mut call = if chance.percent(2) { Call::Reset } else { generate::call(chance, mood) };
    let mut events = 0;
    if let Call::Drain { place } = &mut call {
        events = if chance.percent(40) { chance.between(64, 96) } else { chance.below(72) } as usize;
        *place = generate::place(chance, events);
    }
    (call, events)
}

/// One call with a board, and the plain one beside it on the same bytes. Where it is done, what it left is held; gives its number.
#[allow(clippy::too_many_arguments)]
fn step(
    bench: &mut Bench,
    chance: &mut Chance,
    cases: &mut Cases,
    call: Call,
    image: Vec<u8>,
    board: Vec<u8>,
    [events, answer]: [usize; 2],
    held: &mut Held,
) -> Option<u8> {
    let fill = |chance: &mut Chance, length: usize| vec![chance.number() as u8; length];
    let (events, answer) = (fill(chance, events), fill(chance, answer));
    let case = Case { front: Front::Board(call), areas: vec![image, events, answer, board], null: chance.percent(10) };
    let number = cases.make(bench, &case)?;
    if case.areas[3].len() >= LINES {
        let areas = case.areas[..3].to_vec();
        if !cases.beside(bench, &Case { front: Front::Plain(call), areas, null: case.null }, number, &[(0, 0), (1, 1), (2, 2)]) {
            return None;
        }
    }
    if number == 0 {
        held.image = cases.left(0).to_vec();
        held.board = cases.left(3)[..LINES].to_vec();
        bench.met.fronts.greatest = bench.met.fronts.greatest.max(held.board.iter().copied().max().unwrap_or(0));
        // a reset after the first is a load
        match service(&case.areas[0]) {
            Some(before) if !matches!(call, Call::Reset) && case.areas[3][..LINES] == recount(before.0, &before.1) => {
                let after = service(&held.image).expect("what a done call leaves is accepted");
                if let Some(vector) = (0..LINES).find(|&n| case.areas[3][n] != held.board[n] && !may_change(n, before, after)) {
                    tell_failed(bench, &case, format!("the count of vector {vector} changed, and no input that carries it did"));
                    return None;
                }
                bench.met.fronts.frames += 1;
            }
            _ => bench.met.fronts.garbage += 1,
        }
    }
    Some(number)
}

/// Whether some input with a changed ISR bit or vector byte carried this vector before or carries it after.
fn may_change(vector: usize, before: (u64, [u8; 64]), after: (u64, [u8; 64])) -> bool {
    (0..64).any(|n| {
        let changed = (before.0 ^ after.0) & (1 << n) != 0 || before.1[n] != after.1[n];
        changed && (usize::from(before.1[n]) == vector || usize::from(after.1[n]) == vector)
    })
}

/// ISR and the vectors of an image, where it is accepted.
fn service(image: &[u8]) -> Option<(u64, [u8; 64])> {
    (image::test(image).0 == 0).then(|| {
        let plain = image::decode(image, 0).0;
        (plain.intisr, plain.htmsi_vector)
    })
}

/// An event as a host sees it: its vector, whether it asserts, and its number.
pub type Event = (u8, bool, u16);

/// What a done call showed of events: a vector returned, by a lowering a deassert, or the events drained.
pub fn shown(call: &Call, answer: &[u8], events: &[u8]) -> Vec<Event> {
    let value = u64::from_le_bytes(answer[8..16].try_into().expect("a value has 8 bytes"));
    match *call {
        Call::Level { .. } | Call::Poll { .. } if answer[1] == 1 => {
            vec![(value as u8, !matches!(call, Call::Level { level: 0, .. }), (value >> 16) as u16)]
        }
        Call::Drain { place } => {
            let event = |bytes: &[u8]| (bytes[0], bytes[1] == 1, u16::from_le_bytes([bytes[2], bytes[3]]));
            events[place as usize..].chunks_exact(4).take(value as usize).map(event).collect()
        }
        _ => Vec::new(),
    }
}

/// Whether a write may break a premise of demand 3: a byte of it is at ISR, or would change the vector of an input in service. Some that break none are among them.
fn may_break(image: &[u8], call: &Call) -> bool {
    let Call::Write { base, address, width, value, .. } = *call else { return false };
    let (isr, vectors) = service(image).expect("an image of a history is accepted");
    let offset = address.wrapping_sub(base);
    (0..width.min(8)).any(|k| match offset.wrapping_add(k) {
        0x3a0..0x3a8 => true,
        at @ 0x200..0x240 => {
            let input = (at - 0x200) as usize;
            isr & (1 << input) != 0 && vectors[input] != (value >> (8 * k)) as u8
        }
        _ => false,
    })
}

/// A history from reset that meets demand 3's premises and drops nothing: refused calls anywhere, no load. All is drained at the end, and the events, put in the order of their
/// numbers, drive a second board.
pub fn second(bench: &mut Bench, chance: &mut Chance, cases: &mut Cases, length: u64) {
    let mut mood = generate::mood_in(chance, 0, 0x400);
    let mut held = Held { image: vec![0x5c; NUMBERED.length], board: any_board(chance) };
    let mut seen: Vec<Event> = Vec::new();
    let mut calls = vec![(Call::Reset, 0)];
    // so that not all stays masked
    for (address, value) in [(0x020, chance.number()), (0x200 + 8 * chance.below(8), chance.number())] {
        calls.push((Call::Write { base: 0, size: 0x400, address, width: 8, value: value & chance.number() }, 0));
    }
    calls.reverse();
    for _ in 0..length {
        if chance.percent(3) {
            mood = generate::mood_in(chance, 0, 0x400);
        }
        let (call, events) = calls.pop().unwrap_or_else(|| {
            loop {
                let (call, events) = any_call(chance, &mood);
                if !matches!(call, Call::Reset) && !may_break(&held.image, &call) {
                    break (call, events);
                }
            }
        });
        // a write may take all out of service, and put one of each half into it: these have to find room
        if let (Call::Write { .. }, Some((isr, _))) = (call, service(&held.image)) {
            if isr.count_ones() > 14 {
                let input = u64::from(isr.trailing_zeros());
                calls.push((Call::Level { input, level: 0 }, 0));
                continue;
            }
            let waiting = u32::from(held.image[NUMBERED.count]);
            if waiting + isr.count_ones() > 14 {
                calls.extend([(call, events), (Call::Drain { place: 0 }, 64)]);
                continue;
            }
        }
        if hearing(bench, chance, cases, call, events, &mut held, &mut seen).is_none() {
            return;
        }
    }
    if service(&held.image).is_some() && hearing(bench, chance, cases, Call::Drain { place: 3 }, 80, &mut held, &mut seen).is_some() {
        drive(bench, cases, &held, seen);
    }
}

/// A call of such a history; the events that it shows are put beside the others.
fn hearing(
    bench: &mut Bench,
    chance: &mut Chance,
    cases: &mut Cases,
    call: Call,
    events: usize,
    held: &mut Held,
    seen: &mut Vec<Event>,
) -> Option<()> {
    let (image, board) = (held.image.clone(), held.board.clone());
    if step(bench, chance, cases, call, image, board, [events, 16], held)? == 0 {
        seen.extend(shown(&call, cases.left(2), cases.left(1)));
    }
    Some(())
}

/// Events alone, in the order of making, drive a second board, which begins as zeros and ends equal to the first.
fn drive(bench: &mut Bench, cases: &mut Cases, held: &Held, mut seen: Vec<Event>) {
    let drops = &held.image[NUMBERED.drops..NUMBERED.drops + 4];
    assert!(drops == [0; 4] && seen.len() <= 65_536, "a history that drops nothing, with numbers that do not come back");
    let met = &mut bench.met.fronts;
    met.reordered += u64::from(!seen.is_sorted_by_key(|event| event.2));
    met.most_events = met.most_events.max(seen.len() as u64);
    met.events += seen.len() as u64;
    seen.sort_by_key(|event| event.2);
    let mut board = vec![0; LINES];
    for (number, &(vector, asserts, of_event)) in (0..).zip(&seen) {
        if number != usize::from(of_event) {
            let case = Case { front: Front::Event { vector, flag: asserts as u8 }, areas: vec![board, vec![0; 16]], null: false };
            return tell_failed(bench, &case, format!("event {number} in the order of making has number {of_event}"));
        }
        board = hear(bench, cases, vector, asserts as u8, take(&mut board), 16);
        if bench.over() {
            return;
        }
    }
    if board != held.board {
        let at = (0..LINES).find(|&vector| board[vector] != held.board[vector]).unwrap_or(0);
        let case = Case { front: Front::Event { vector: at as u8, flag: 0 }, areas: vec![board, vec![0; 16]], null: false };
        return tell_failed(bench, &case, format!("a second board, driven by events alone, ends unequal to the first at vector {at}"));
    }
    bench.met.fronts.seconds += 1;
}

/// A history with so many events, a multiple of four, returned and drained in turn, so that they are not seen in the order of making.
fn most_events(bench: &mut Bench, cases: &mut Cases, events: usize) {
    let mut chance = Chance::new(events as u64);
    let mut held = Held { image: vec![0; NUMBERED.length], board: vec![0; LINES] };
    let mut seen = Vec::new();
    let write = |address: u64, value: u64| (Call::Write { base: 0, size: 0x400, address, width: 8, value }, 0);
    let level = |input: u64, level: u64| (Call::Level { input, level }, 0);
    // four inputs stay in service, two of them with one vector
    let start =
        [(Call::Reset, 0), write(0x020, 0), write(0x208, 0x0707), level(8, 1), level(9, 1), level(60, 1), level(70, 1), level(63, 1)];
    // in each round input 3 is raised, cleared, which waits, raised and lowered; then all is drained: four events
    let round = [level(3, 1), write(0x080, 8), level(3, 1), level(3, 0), (Call::Drain { place: 0 }, 64)];
    for (call, room) in start.into_iter().chain(round.into_iter().cycle()) {
        if hearing(bench, &mut chance, cases, call, room, &mut held, &mut seen).is_none() {
            return;
        }
        if seen.len() >= events {
            break;
        }
    }
    drive(bench, cases, &held, seen);
}
