//! Random windows and calls: mostly those of a busy guest, and among them every hostile value.

use crate::call::{Call, Step};
use crate::chance::Chance;
use pch_pic::axdevice::AccessWidth;

const MAX: usize = usize::MAX;

/// Base and size: as a board has them, and as none should.
const USUAL: [(usize, usize); 4] = [(0, 0x400), (0x1000_0000, 0x400), (0x1000_0000, 0x1000), (0x1000_0001, 0x400)];
const HOSTILE: [(usize, usize); 16] = [
    (0, 0),
    (0, 1),
    (0x1000, 0x21),
    (0x1000, 0x3a2),
    (0x1000, 0x3fd),
    (0x1000, MAX),
    (0, MAX),
    (0, MAX - 3),
    (1, MAX - 1),
    (MAX, 1),
    (MAX, MAX),
    (MAX - 1, 2),
    (MAX - 0x3ff, 0x400),
    (MAX - 0x3fe, 0x400),
    (MAX - 0x3ff, MAX),
    (1 << 63, 1 << 63),
];

const REGISTERS: [usize; 11] = [0x000, 0x020, 0x040, 0x060, 0x080, 0x0c0, 0x0e0, 0x380, 0x3a0, 0x3e0, 0x300];
const INPUTS: [usize; 9] = [64, 65, 127, 256, 1 << 32, (1 << 32) + 5, 1 << 63, MAX - 63, MAX];
const WIDTHS: [AccessWidth; 4] = [AccessWidth::Byte, AccessWidth::Word, AccessWidth::Dword, AccessWidth::Qword];

pub fn window(chance: &mut Chance) -> (usize, usize) {
    if chance.percent(70) { chance.one_of(&USUAL) } else { chance.one_of(&HOSTILE) }
}

/// How a history goes: few drains fill the ring, and few inputs meet again.
pub struct Habit {
    pub base: usize,
    pub size: usize,
    pub inputs: u64,
    pub drains: u64,
}

impl Habit {
    pub fn new(chance: &mut Chance) -> Self {
        let (base, size) = window(chance);
        Habit { base, size, inputs: chance.one_of(&[3, 8, 20, 64]), drains: chance.one_of(&[0, 1, 5, 15]) }
    }

    pub fn call(&self, chance: &mut Chance) -> Call {
        if !chance.percent(self.drains) {
            return Call::Step(self.step(chance));
        }
        let within = if chance.percent(50) { 0 } else { chance.between(1, 12) };
        Call::Drain { within: (0..within).map(|_| self.step(chance)).collect() }
    }

    fn step(&self, chance: &mut Chance) -> Step {
        match chance.below(100) {
            0..35 => Step::Level { irq: self.irq(chance), level: chance.percent(65) },
            35..45 => Step::Pending { irq: self.irq(chance) },
            45..60 => Step::Read { addr: self.addr(chance), width: chance.one_of(&WIDTHS) },
            60..98 => Step::Write { addr: self.addr(chance), width: chance.one_of(&WIDTHS), val: value(chance) },
            _ => Step::Take,
        }
    }

    fn irq(&self, chance: &mut Chance) -> usize {
        if chance.percent(92) { (chance.below(self.inputs) * 64 / self.inputs) as usize } else { chance.one_of(&INPUTS) }
    }

    fn addr(&self, chance: &mut Chance) -> usize {
        let near = chance.below(16) as usize;
        let offset = match chance.below(100) {
            0..45 => chance.one_of(&[0x020, 0x024, 0x080, 0x084, 0x3a0, 0x3a4, 0x200]),
            45..70 => chance.one_of(&REGISTERS) + near % 8,
            70..80 => chance.one_of(&[0x0f8, 0x130, 0x1f8, 0x230, 0x398, 0x3f8]) + near,
            80..90 => chance.below(0x500) as usize,
            90..94 => self.size.wrapping_add(near).wrapping_sub(8),
            94..96 => near.wrapping_sub(8),
            // An address and no offset: the far end, and anything.
            96..98 => return MAX - near,
            _ => return chance.number() as usize,
        };
        self.base.wrapping_add(offset)
    }
}

fn value(chance: &mut Chance) -> usize {
    match chance.below(6) {
        0 => 0,
        1 => MAX,
        2 => 1 << chance.below(64),
        3 => !(1 << chance.below(64)),
        4 => (chance.number() & chance.number()) as usize,
        _ => chance.number() as usize,
    }
}

/// What ends a history: calls that show all that a device keeps, the masked inputs in service too.
pub fn closing(base: usize) -> impl Iterator<Item = Call> {
    let at = move |offset: usize| base.wrapping_add(offset);
    let read = move |offset| Step::Read { addr: at(offset), width: AccessWidth::Dword };
    let unmask = [0x020, 0x024].map(|offset| Step::Write { addr: at(offset), width: AccessWidth::Dword, val: 0 });
    let registers = (0..0x400).step_by(4).map(read);
    let service = [0x3a0, 0x3a4].map(read);
    let polls = (0..64).map(|irq| Step::Pending { irq });
    let lowers = (0..64).map(|irq| Step::Level { irq, level: false });
    let steps = registers.chain(unmask).chain(service).chain(polls).chain(lowers);
    [Call::Drain { within: vec![] }].into_iter().chain(steps.map(Call::Step)).chain([Call::Drain { within: vec![] }])
}
