// Made from crates/pch_pic_salvage/src/torn.rt by tools/portable: do not change it here.
//! Which blocks of a trace are torn: the first bad record in each block, and what is left without those that have one.

use super::super::trace::blocks::two_at;
use super::super::trace::first_bad;

/// A block by its entry in the contents: the place of its first byte in the trace, and how many records it has.
#[derive(Clone, Copy)]
struct Block {
    pub place: usize,
    pub records: usize,
}

/// ```text
/// requires { listed_at b + 4 ≤ length trace.now }
/// ensures { block_view result ≡ block_at b trace.now }
/// ```
fn block_at(trace: &[u8], b: usize) -> Block {
    let at = 2 + 4 * b;
    Block {
        place: two_at(trace, at),
        records: two_at(trace, at + 2),
    }
}

/// The first bad record in each block, counted within it; the number of its records where all are good. A trace has at most 64 blocks.
///
/// ```text
/// requires { Lists trace.now blocks }
/// ensures { BadIn result trace.now blocks }
/// ```
pub fn survey(trace: &[u8], blocks: usize) -> [u16; 64] {
    let mut bads = [0u16; 64];
    for b in 0..blocks {
        let block = block_at(trace, b);
        bads[b] = first_bad(trace, block.place, block.records) as u16;
    }
    bads
}

/// What is known of a block: where it stands, how many records it has, and the first bad one in it, if there is one.
#[derive(Clone, Copy)]
pub struct Looked {
    pub place: usize,
    pub records: usize,
    pub bad: Option<usize>,
}

/// ```text
/// requires { Seen bads.now trace.now b }
/// ensures { Looks result trace.now b }
/// ```
pub fn look(trace: &[u8], bads: &[u16; 64], b: usize) -> Looked {
    let block = block_at(trace, b);
    let bad = bads[b] as usize;
    Looked {
        place: block.place,
        records: block.records,
        bad: (bad != block.records).then_some(bad),
    }
}

/// How many blocks are left, and how many records they have together.
#[derive(Clone, Copy)]
pub struct Left {
    pub blocks: usize,
    pub records: usize,
}

/// ```text
/// requires { Surveyed bads.now trace.now blocks }
/// ensures { Counts result trace.now blocks }
/// ```
pub fn count(trace: &[u8], blocks: usize, bads: &[u16; 64]) -> Left {
    let mut left = 0;
    let mut all = 0;
    for b in 0..blocks {
        let block = look(trace, bads, b);
        if block.bad.is_none() {
            left += 1;
            all += block.records;
        }
    }
    Left {
        blocks: left,
        records: all,
    }
}
