//! The areas that calls are lent, with edges around them that no call may touch, and what has to stand in them afterwards.

/// No area is longer: the events of 4,000 drains take 256,000 bytes.
pub const LONGEST: usize = 1 << 18;
const EDGE: usize = 32;

/// The edges hold no byte that the device writes often, and no two neighbours alike.
fn edge(at: usize) -> u8 {
    0xa7 ^ (at as u8).wrapping_mul(37)
}

/// A lent area. What is wanted of it after a case is also what a later case may tell its bytes from.
pub struct Area {
    all: [u8; EDGE + LONGEST + EDGE],
    pub length: usize,
    pub wanted: [u8; LONGEST],
    pub wanted_length: usize,
    /// An empty one is lent as a null pointer.
    pub null: bool,
}

impl Area {
    const EMPTY: Area = Area { all: [0; EDGE + LONGEST + EDGE], length: 0, wanted: [0; LONGEST], wanted_length: 0, null: false };

    pub fn bytes(&mut self) -> &mut [u8] {
        &mut self.all[EDGE..EDGE + self.length]
    }

    /// All that an area could hold, and what is wanted of it.
    pub fn both(&mut self) -> (&mut [u8], &mut [u8]) {
        (&mut self.all[EDGE..EDGE + LONGEST], &mut self.wanted)
    }

    /// Puts its edges around the bytes that it has now.
    pub fn put_edges(&mut self) {
        let length = self.length;
        for at in 0..EDGE {
            self.all[at] = edge(at);
            self.all[EDGE + length + at] = edge(at);
        }
    }

    pub fn edges_stand(&self) -> bool {
        (0..EDGE).all(|at| self.all[at] == edge(at) && self.all[EDGE + self.length + at] == edge(at))
    }

    /// It holds what is wanted, and its edges stand.
    pub fn is_as_wanted(&mut self) -> bool {
        let edges = self.edges_stand();
        edges && self.length == self.wanted_length && self.all[EDGE..EDGE + self.length] == self.wanted[..self.wanted_length]
    }

    pub fn lent(&mut self) -> (*mut u8, usize) {
        self.lent_first(self.length)
    }

    /// Its first bytes alone.
    pub fn lent_first(&mut self, count: usize) -> (*mut u8, usize) {
        let pointer = if self.null && count == 0 { core::ptr::null_mut() } else { self.all[EDGE..].as_mut_ptr() };
        (pointer, count)
    }
}

pub const IMAGE: usize = 0;
pub const EVENTS: usize = 1;
pub const ANSWER: usize = 2;
pub const TARGET: usize = 3;
pub const DIFFERENCE: usize = 4;
pub const TRACE: usize = 5;
pub const ANSWERS: usize = 6;
pub const BOARD: usize = 7;
pub const PHASE: usize = 8;
pub const KEPT: usize = 9;
pub const LIST: usize = 10;
pub const SHEET: usize = 11;
pub const TALLY: usize = 12;

/// One of each name.
pub struct Areas(pub [Area; 13]);

impl Areas {
    pub const EMPTY: Areas = Areas([Area::EMPTY; 13]);

    pub fn lent<const N: usize>(&mut self, names: [usize; N]) -> [(*mut u8, usize); N] {
        names.map(|name| self.0[name].lent())
    }
}
