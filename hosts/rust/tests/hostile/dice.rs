//! Numbers, lengths and bytes that are meant unkindly.

use pch_pic::{reg, IMAGE2_LEN, IMAGE2_NUMBERED_LEN, IMAGE_LEN};

/// The lengths of the three forms.
pub const FORMS: [usize; 3] = [IMAGE_LEN, IMAGE2_LEN, IMAGE2_NUMBERED_LEN];

/// Numbers at which something begins or ends.
const EDGES: [u64; 24] = [
    0,
    1,
    2,
    3,
    4,
    8,
    15,
    16,
    31,
    63,
    64,
    255,
    256,
    0x3fc,
    0x3ff,
    reg::WINDOW_LEN,
    0xffff,
    0x1_0000,
    u32::MAX as u64,
    1 << 32,
    i64::MAX as u64,
    1 << 63,
    u64::MAX - 8,
    u64::MAX,
];

/// Where registers and tables begin.
const REGISTERS: [u64; 12] = [
    reg::ID,
    reg::MASK,
    reg::HTMSI_EN,
    reg::EDGE,
    reg::CLEAR,
    reg::AUTO0,
    reg::AUTO1,
    reg::ROUTES,
    reg::VECTORS,
    reg::IRR,
    reg::ISR,
    reg::POL,
];

/// A row of numbers that a seed gives: splitmix64.
pub struct Dice(pub u64);

impl Dice {
    pub fn any(&mut self) -> u64 {
        self.0 = self.0.wrapping_add(0x9e37_79b9_7f4a_7c15);
        let mixed = (self.0 ^ self.0 >> 30).wrapping_mul(0xbf58_476d_1ce4_e5b9);
        let mixed = (mixed ^ mixed >> 27).wrapping_mul(0x94d0_49bb_1331_11eb);
        mixed ^ mixed >> 31
    }

    pub fn below(&mut self, end: usize) -> usize {
        (self.any() % end as u64) as usize
    }

    /// True once in so many.
    pub fn once_in(&mut self, many: usize) -> bool {
        self.below(many) == 0
    }

    pub fn of<T: Copy>(&mut self, few: &[T]) -> T {
        few[self.below(few.len())]
    }

    /// An edge, a little beside one, or anything.
    pub fn number(&mut self) -> u64 {
        match self.below(8) {
            0 => self.any(),
            1 => self.of(&EDGES).wrapping_sub(1),
            2 => self.of(&EDGES).wrapping_add(1),
            _ => self.of(&EDGES),
        }
    }

    /// An input, mostly one that is there.
    pub fn input(&mut self) -> u64 {
        if self.once_in(4) {
            self.number()
        } else {
            self.any() % 64
        }
    }

    pub fn width(&mut self) -> u64 {
        if self.once_in(4) {
            self.number()
        } else {
            self.of(&[1, 2, 4, 8])
        }
    }

    pub fn offset(&mut self) -> u64 {
        self.of(&REGISTERS) + self.any() % 8
    }

    /// Base, size and address: mostly a window in which the address hits something.
    pub fn access(&mut self) -> [u64; 3] {
        let base = self.number();
        if self.once_in(3) {
            [base, self.number(), self.number()]
        } else {
            [base, 0x400, base.wrapping_add(self.offset())]
        }
    }

    /// A length beside what matters: that of an answer, of a board, of a form, of a sheet, of a tally.
    pub fn len(&mut self) -> usize {
        match self.below(4) {
            0 => self.of(&[0, 1, 4, 15, 16, 17, 63, 64, 65]),
            1 => 250 + self.below(43),
            2 => self.of(&[2_599, 2_600, 2_601, 5_199, 5_200, 5_201]),
            _ => self.below(300),
        }
    }

    pub fn bytes(&mut self, len: usize) -> Vec<u8> {
        (0..len).map(|_| self.any() as u8).collect()
    }

    /// An area to be written: as long as is wanted, or not.
    pub fn area(&mut self, wanted: usize) -> Vec<u8> {
        let len = if self.once_in(4) { self.len() } else { wanted };
        self.bytes(len)
    }

    /// What was good, with a few bytes changed, cut or lengthened. At the end of an image are its events.
    pub fn damaged(&mut self, good: &[u8]) -> Vec<u8> {
        let mut bytes = good.to_vec();
        for _ in 0..self.below(4) {
            let from = if self.once_in(2) { bytes.len().saturating_sub(72) } else { 0 };
            let at = from + self.below(bytes.len() - from);
            bytes[at] = self.number() as u8;
        }
        if self.once_in(8) {
            bytes.truncate(self.below(good.len() + 1));
        }
        if self.once_in(8) {
            let more = self.below(20);
            bytes.extend(self.bytes(more));
        }
        bytes
    }

    /// A good trace but for its records, each of which is good in seven of eight cases, with a few bytes damaged in one of four.
    pub fn trace(&mut self) -> Vec<u8> {
        let blocks: Vec<u16> = (0..1 + self.below(5)).map(|_| 1 + self.below(12) as u16).collect();
        let mut bytes = (blocks.len() as u16).to_le_bytes().to_vec();
        let mut at = 2 + 4 * blocks.len() as u16;
        for records in &blocks {
            bytes.extend(at.to_le_bytes());
            bytes.extend(records.to_le_bytes());
            at += 16 * records;
        }
        let bad = self.once_in(2);
        for _ in 0..blocks.iter().sum() {
            let record = if bad && self.once_in(8) { self.bytes(16) } else { self.record() };
            bytes.extend(record);
        }
        if self.once_in(4) {
            bytes = self.damaged(&bytes);
        }
        bytes
    }

    /// A good record; the call that it is may well be refused.
    fn record(&mut self) -> Vec<u8> {
        let kind = 1 + self.below(6) as u8;
        let mut bytes = vec![kind; 1];
        bytes.push(match kind {
            1..=3 => self.input() as u8,
            4 | 5 => self.width() as u8,
            _ => 0,
        });
        let offset = if self.once_in(8) { self.number() } else { self.offset() };
        bytes.extend(if kind == 4 || kind == 5 { (offset as u16).to_le_bytes() } else { [0; 2] });
        bytes.extend([0; 4]);
        bytes.extend(if kind == 5 { self.any().to_le_bytes() } else { [0; 8] });
        bytes
    }
}
