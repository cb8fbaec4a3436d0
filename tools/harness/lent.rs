//! The areas that are lent to a call, with edges around them that no call may touch.

/// Bytes on both sides of a lent area that no call may touch.
const EDGE: usize = 32;

/// The edges hold no byte that the device writes often (0, 1, 0xff), and no two neighbours alike.
fn edge() -> [u8; EDGE] {
    std::array::from_fn(|i| 0xa7 ^ (i as u8).wrapping_mul(37))
}

/// A lent area of up to N bytes with an edge before and behind it. What stands past its present length belongs to the edge behind.
#[derive(Clone)]
pub struct Area<const N: usize> {
    before: [u8; EDGE],
    bytes: [u8; N],
    behind: [u8; EDGE],
    pub len: usize,
    /// Lend an empty area as a null pointer, as a C host would.
    pub null: bool,
}

impl<const N: usize> Area<N> {
    pub fn new() -> Self {
        Area { before: edge(), bytes: [0; N], behind: edge(), len: 0, null: false }
    }

    pub fn slice(&mut self) -> &mut [u8] {
        &mut self.bytes[..self.len]
    }

    pub fn bytes(&self) -> &[u8] {
        &self.bytes[..self.len]
    }

    pub fn pointer(&mut self) -> *mut u8 {
        if self.null && self.len == 0 { std::ptr::null_mut() } else { self.bytes.as_mut_ptr() }
    }

    pub fn fill(&mut self, pattern: u64) {
        let pattern = pattern.to_le_bytes();
        for chunk in self.bytes.chunks_mut(8) {
            chunk.copy_from_slice(&pattern[..chunk.len()]);
        }
    }

    /// The same bytes, in the area and in its edges.
    pub fn same(&self, other: &Self) -> bool {
        self.bytes == other.bytes && self.before == other.before && self.behind == other.behind
    }

    /// The first place where two areas differ, counted from the area's start, and the two bytes there.
    pub fn difference(&self, other: &Self) -> Option<(isize, u8, u8)> {
        let all = |area: &Self| [&area.before[..], &area.bytes[..], &area.behind[..]].concat();
        let (mine, others) = (all(self), all(other));
        let at = (0..mine.len()).find(|&i| mine[i] != others[i])?;
        Some((at as isize - EDGE as isize, mine[at], others[at]))
    }
}

/// What is lent to a call. A call that is no drain is lent no event buffer, and one that is no conversion no target.
#[derive(Clone)]
pub struct Areas {
    pub image: Area<320>,
    pub answer: Area<48>,
    pub events: Area<96>,
    pub target: Area<320>,
}

impl Areas {
    pub fn new() -> Self {
        Areas { image: Area::new(), answer: Area::new(), events: Area::new(), target: Area::new() }
    }
}

/// A lent area of any length with an edge before and behind it.
#[derive(Clone, PartialEq, Eq)]
pub struct Block {
    all: Vec<u8>,
    null: bool,
}

impl Block {
    /// It holds these bytes. An empty one is lent as a null pointer where `null` says so.
    pub fn of(bytes: &[u8], null: bool) -> Self {
        let edge = edge();
        Block { all: [&edge, bytes, &edge].concat(), null }
    }

    #[allow(dead_code)]
    pub fn edges_stand(&self) -> bool {
        self.all.starts_with(&edge()) && self.all.ends_with(&edge())
    }

    /// It holds so many bytes of a pattern.
    pub fn filled(len: usize, pattern: u64, null: bool) -> Self {
        Block::of(&pattern.to_le_bytes().repeat(len / 8 + 1)[..len], null)
    }

    pub fn bytes(&self) -> &[u8] {
        &self.all[EDGE..self.all.len() - EDGE]
    }

    pub fn slice(&mut self) -> &mut [u8] {
        let end = self.all.len() - EDGE;
        &mut self.all[EDGE..end]
    }

    pub fn lent(&mut self) -> (*mut u8, usize) {
        let len = self.bytes().len();
        if self.null && len == 0 { (std::ptr::null_mut(), 0) } else { (self.slice().as_mut_ptr(), len) }
    }

    /// The first place where two differ, counted from the area's start, and the two bytes there.
    pub fn difference(&self, other: &Self) -> Option<(isize, u8, u8)> {
        let at = self.all.iter().zip(&other.all).position(|(mine, other)| mine != other)?;
        Some((at as isize - EDGE as isize, self.all[at], other.all[at]))
    }
}

/// What is lent to a play.
#[derive(Clone, PartialEq, Eq)]
pub struct Five {
    pub trace: Block,
    pub image: Block,
    pub answers: Block,
    pub events: Block,
    pub answer: Block,
}

impl Five {
    /// The first difference of each that differs.
    #[allow(dead_code)]
    pub fn differences(&self, other: &Self) -> Vec<String> {
        let pairs = [
            ("trace", &self.trace, &other.trace),
            ("image", &self.image, &other.image),
            ("answers", &self.answers, &other.answers),
            ("events", &self.events, &other.events),
            ("answer area", &self.answer, &other.answer),
        ];
        let tell = |(name, mine, other): (&str, &Block, &Block)| {
            mine.difference(other).map(|(at, mine, other)| format!("{name} byte {at}: {mine:02x}, expected {other:02x}"))
        };
        pairs.into_iter().filter_map(tell).collect()
    }
}
