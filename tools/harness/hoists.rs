//! The calls under the hoist profile: those that are tried whole, and random histories in both phases with plain levels, polls and drains between.

use crate::bench::Bench;
use crate::board::{LINES, recount};
use crate::boards::shown;
use crate::call::Call;
use crate::case::{Case, Front};
use crate::cases::{Cases, tell_failed};
use crate::chance::Chance;
use crate::generate::{self, REGISTERS};
use crate::image::{self, FORMS, Form};

const VECTORS: u64 = 0x200;
const PHASES: [u8; 3] = [0, 1, 255];

/// What is small enough is tried whole.
pub fn sweep(bench: &mut Bench, chance: &mut Chance) {
    let mut cases = Cases::new();
    let mut access = |chance: &mut Chance, address: u64, width: u64, phase: u8| {
        let image = generate::accepted(chance, FORMS[(address % 3) as usize]);
        let call = Call::Write { base: 0, size: 0x800, address, width, value: chance.number() };
        make(bench, &mut cases, call, image.clone(), vec![phase], 16);
        make(bench, &mut cases, Call::Read { base: 0, size: 0x800, address, width }, image, vec![phase], 16);
    };
    for address in 0..0x404 {
        access(chance, address, [1, 2, 4, 4, 4, 8, 3][(address % 7) as usize], PHASES[(address % 3) as usize]);
        access(chance, address & !3, 4, PHASES[(address % 4) as usize % 3]);
    }
    vectors(bench, chance, &mut cases);
    areas(bench, chance, &mut cases);
}

/// For each input in service: a write of its vectors that changes its own byte, those beside it, none, or all.
fn vectors(bench: &mut Bench, chance: &mut Chance, cases: &mut Cases) {
    for input in 0..64_usize {
        for (kind, phase) in (0..4).flat_map(|kind| PHASES.map(|phase| (kind, phase))) {
            let form = FORMS[(input + kind) % 3];
            let mut image = generate::accepted(chance, form);
            let others = chance.number() & chance.number() & !(0xf << (input / 4 * 4));
            image[form.isr..form.isr + 8].copy_from_slice(&(1 << input | others).to_le_bytes());
            let first = form.vectors + input / 4 * 4;
            let mut value: [u8; 4] = image[first..first + 4].try_into().expect("four bytes");
            for (k, byte) in value.iter_mut().enumerate() {
                let own = k == input % 4;
                if (kind == 0 && own) || (kind == 1 && !own) || kind == 3 {
                    *byte ^= chance.between(1, 255) as u8;
                }
            }
            // what stands above the width is no part of it
            let value = u64::from(u32::from_le_bytes(value)) | chance.number() << 32;
            let address = VECTORS + input as u64 / 4 * 4;
            make(bench, cases, Call::Write { base: 0, size: 0x400, address, width: 4, value }, image, vec![phase], 16);
        }
    }
}

/// Lengths of each area; and several faults at once, of which the first in the order 7, image, 2, 1, 14, 15 is told.
fn areas(bench: &mut Bench, chance: &mut Chance, cases: &mut Cases) {
    let window = |address: u64, width: u64| (0x1000_u64, 0x400_u64, 0x1000 + address, width);
    let calls = |address: u64, width: u64| {
        let (base, size, address, width) = window(address, width);
        let read = Front::Hoist(Call::Read { base, size, address, width });
        [Front::Hoist(Call::Reset), read, Front::Hoist(Call::Write { base, size, address, width, value: 5 }), Front::EndStartup]
    };
    let mut quiet = generate::accepted(chance, FORMS[2]);
    quiet[FORMS[2].isr..FORMS[2].isr + 8].fill(0);
    for front in calls(0x20, 4) {
        for (answer, phase) in (0..=20).flat_map(|answer| (0..=3).map(move |phase| (answer, phase))) {
            let areas = vec![quiet.clone(), vec![0; phase], vec![0xc3; answer]];
            cases.make(bench, &Case { front, areas, null: answer % 2 == 0 });
        }
        for length in 0..=300 {
            let mut image = quiet.clone();
            image.resize(length, 0);
            cases.make(bench, &Case { front, areas: vec![image, vec![0], vec![0xc3; 16]], null: length % 2 == 0 });
        }
        for first in 0..=255 {
            for service in [0, 1 << (first % 64)] {
                let mut image = quiet.clone();
                image[FORMS[2].isr..FORMS[2].isr + 8].copy_from_slice(&u64::to_le_bytes(service));
                cases.make(bench, &Case { front, areas: vec![image, vec![first, 9], vec![0xc3; 17]], null: false });
            }
        }
    }
    for faults in 0..64 {
        let (address, width, areas) = faulty(faults, generate::accepted(chance, FORMS[faults % 3]));
        for front in calls(address, width) {
            cases.make(bench, &Case { front, areas: areas.clone(), null: false });
        }
    }
}

/// An access, its width, and the areas of its call, with the faults that the bits of a number say: a short answer area, no phase, an image that is not accepted, an unknown
/// width, an access over the window's end, of another width; without them it is of ISR.
pub fn faulty(faults: usize, mut image: Vec<u8>) -> (u64, u64, Vec<Vec<u8>>) {
    let faulty = |bit: usize| faults & (1 << bit) != 0;
    if faulty(2) {
        image[0] ^= 4;
    }
    let width = if faulty(3) {
        3
    } else if faulty(5) {
        8
    } else {
        4
    };
    let address = if faulty(4) { 0x3ff } else { 0x3a0 };
    (address, width, vec![image, vec![PHASES[faults % 3]; 1 - usize::from(faulty(1))], vec![0xc3; 16 - usize::from(faulty(0))]])
}

pub fn make(bench: &mut Bench, cases: &mut Cases, call: Call, image: Vec<u8>, phase: Vec<u8>, answer: usize) {
    cases.make(bench, &Case { front: Front::Hoist(call), areas: vec![image, phase, vec![0xc3; answer]], null: false });
}

/// So many random calls under the profile and beside it.
pub fn random(bench: &mut Bench, chance: &mut Chance, calls: u64) {
    let mut cases = Cases::new();
    let goal = bench.passed + bench.failed + calls;
    while bench.passed + bench.failed < goal && !bench.over() {
        let length = chance.between(1, 200).min(goal - bench.passed - bench.failed);
        history(bench, chance, &mut cases, length);
    }
}

/// Image and phase between calls; and from a reset on, until a load or a dropped event, what demand 3 counts of the events seen: asserts less deasserts for each vector.
struct Held {
    image: Vec<u8>,
    phase: Vec<u8>,
    account: Option<[i64; LINES]>,
}

pub fn history(bench: &mut Bench, chance: &mut Chance, cases: &mut Cases, length: u64) {
    let mut mood = if chance.percent(80) { generate::mood_in(chance, 0, 0x400) } else { generate::mood(chance) };
    cases.expected.head = chance.below(16) as usize;
    let form = chance.one_of(&FORMS);
    let mut held = Held { image: generate::accepted(chance, form), phase: vec![chance.one_of(&PHASES)], account: None };
    let mut next = chance.percent(70).then_some(Front::Hoist(Call::Reset));
    for _ in 0..length {
        if chance.percent(3) {
            mood = if chance.percent(80) { generate::mood_in(chance, 0, 0x400) } else { generate::mood(chance) };
        }
        if chance.percent(1) {
            held.image = generate::accepted(chance, form);
            held.account = None;
        }
        if held.phase[0] == 1 && chance.percent(10) {
            held.phase[0] = 255;
        }
        let front = next.take().unwrap_or_else(|| any_front(chance, &mood, &held));
        if step(bench, chance, cases, front, &mut held).is_none() {
            return;
        }
    }
}

fn any_front(chance: &mut Chance, mood: &generate::Mood, held: &Held) -> Front {
    match chance.below(100) {
        0 => Front::Hoist(Call::Reset),
        1..=4 => Front::EndStartup,
        // all of the lines down, so that start-up can end
        5..=14 => {
            let form = Form::of(held.image.len()).expect("a good image has a form");
            let isr = u64::from_le_bytes(held.image[form.isr..form.isr + 8].try_into().expect("8 bytes"));
            Front::Plain(Call::Level { input: u64::from(isr.trailing_zeros()) % 64, level: 0 })
        }
        15..=60 => Front::Hoist(write(chance, mood, held)),
        _ => match generate::call(chance, mood) {
            call @ (Call::Read { .. } | Call::Write { .. }) => Front::Hoist(call),
            call => Front::Plain(call),
        },
    }
}

/// A write as a hoist guest makes them, and a few that it does not: aligned Dwords of registers and vectors, the latter with and without change.
fn write(chance: &mut Chance, mood: &generate::Mood, held: &Held) -> Call {
    let offset = match chance.below(10) {
        0..=4 => chance.one_of(&[0x020, 0x020, 0x080, 0x060, 0x040]) + 4 * chance.below(2),
        5..=7 => VECTORS + 4 * chance.below(16),
        8 => chance.one_of(&[0x3a0, 0x3a4, 0x1fc, 0x240, 0x39c, 0x3a8]),
        _ => chance.one_of(&REGISTERS) + chance.below(8),
    };
    let mut value = chance.number() & chance.number();
    if (VECTORS..VECTORS + 64).contains(&offset) && chance.percent(80) {
        let form = Form::of(held.image.len()).expect("a good image has a form");
        let isr = u64::from_le_bytes(held.image[form.isr..form.isr + 8].try_into().expect("8 bytes"));
        let keep_all = chance.percent(20);
        for k in 0..4 {
            let input = (offset - VECTORS) + k;
            if keep_all || isr & (1 << input) != 0 {
                let now = u64::from(held.image[form.vectors + input as usize]);
                value = value & !(0xff << (8 * k)) | now << (8 * k);
            }
        }
    }
    let width = if chance.percent(97) { 4 } else { chance.one_of(&[1, 2, 8, 3]) };
    Call::Write { base: mood.base, size: mood.size, address: mood.base.wrapping_add(offset), width, value }
}

/// One call; where it is done, the plain call beside it leaves the same, what it left is held, and demand 3's account is held against a recount.
fn step(bench: &mut Bench, chance: &mut Chance, cases: &mut Cases, front: Front, held: &mut Held) -> Option<()> {
    let mut image = held.image.clone();
    if chance.percent(2) {
        let form = Form::of(image.len()).expect("a good image has a form");
        generate::damage(chance, &mut image, form);
    }
    let loaded = image != held.image;
    let mut phase = held.phase.clone();
    if chance.percent(4) {
        phase.resize(chance.below(4) as usize, chance.number() as u8);
    }
    let answer = vec![chance.number() as u8; if chance.percent(98) { chance.between(16, 24) } else { chance.below(16) } as usize];
    let (plain, areas) = match front {
        Front::Plain(call) => (Some(call), vec![image, vec![0xd4; 64], answer]),
        Front::Hoist(call) => (Some(call), vec![image, phase, answer]),
        _ => (None, vec![image, phase, answer]),
    };
    let case = Case { front, areas, null: chance.percent(10) };
    let number = cases.make(bench, &case)?;
    if number != 0 {
        return Some(());
    }
    if let (Front::Hoist(call), [image, _, answer]) = (front, &case.areas[..]) {
        let areas = vec![image.clone(), Vec::new(), answer.clone()];
        if !cases.beside(bench, &Case { front: Front::Plain(call), areas, null: case.null }, 0, &[(0, 0), (2, 2)]) {
            return None;
        }
        bench.met.fronts.beside_service += u64::from(held.changes_beside_service(cases.left(0)));
    }
    held.image = cases.left(0).to_vec();
    if !matches!(front, Front::Plain(_)) && !cases.left(1).is_empty() {
        held.phase = cases.left(1)[..1].to_vec();
    }
    held.account = match (front, held.account) {
        (Front::Hoist(Call::Reset), _) => Some([0; LINES]),
        (_, Some(account)) if !loaded => Some(account),
        _ => None,
    };
    let seen =
        plain.map_or(Vec::new(), |call| shown(&call, cases.left(2), if matches!(front, Front::Plain(_)) { cases.left(1) } else { &[] }));
    for (vector, asserts, _) in seen {
        if let Some(account) = &mut held.account {
            account[usize::from(vector)] += if asserts { 1 } else { -1 };
        }
    }
    if !held.account_holds(bench) {
        tell_failed(bench, &case, "under the profile asserts less deasserts are not the inputs in service".into());
        return None;
    }
    Some(())
}

impl Held {
    /// Whether a vector was changed in a Dword one of whose inputs is in service.
    fn changes_beside_service(&self, after: &[u8]) -> bool {
        let Some(form) = Form::of(after.len()).filter(|_| after.len() == self.image.len()) else { return false };
        let isr = u64::from_le_bytes(after[form.isr..form.isr + 8].try_into().expect("8 bytes"));
        let four = |bytes: &[u8], k: usize| bytes[form.vectors + 4 * k..form.vectors + 4 * k + 4].to_vec();
        (0..16).any(|k| isr >> (4 * k) & 0xf != 0 && four(after, k) != four(&self.image, k))
    }

    /// Demand 3: the events seen, and those that wait, account for the inputs in service; held while none was dropped.
    fn account_holds(&mut self, bench: &mut Bench) -> bool {
        let form = Form::of(self.image.len()).expect("a good image has a form");
        if self.image[form.drops..form.drops + 4] != [0; 4] {
            self.account = None;
        }
        let Some(mut account) = self.account else { return true };
        let plain = image::decode(&self.image, 0).0;
        for event in plain.events.into_iter().flatten() {
            account[event.vector] += if event.asserted { 1 } else { -1 };
        }
        bench.met.fronts.accounts += 1;
        recount(plain.intisr, &plain.htmsi_vector).iter().zip(account).all(|(&count, made)| i64::from(count) == made)
    }
}
