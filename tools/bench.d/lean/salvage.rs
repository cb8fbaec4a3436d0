//! A damaged trace salvaged (02, C-23): its blocks are looked at, and what is left is written where there is room for all of it.

use super::{Outcome, contents_of, is_good, number, told};

#[inline(always)]
fn put(to: &mut [u8; 4], first: usize, second: usize) {
    *to = ((first | second << 16) as u32).to_le_bytes();
}

/// Refusals 12, 16, and 7 where the new trace or the list has no room.
#[inline(always)]
fn salvaged(trace: &[u8], kept: &mut [u8], list: &mut [u8]) -> Outcome {
    let (listed, all) = match contents_of(trace) {
        Ok(contents) => contents,
        Err(refused) => return refused,
    };
    // the first bad record of each block, and the number of its records where there is none
    let (mut bads, mut blocks, mut records, mut rest) = ([0u16; 64], 0, 0, all);
    for (block, bad) in listed.iter().zip(&mut bads) {
        let body;
        (body, rest) = rest.split_at(usize::from(number(block, 2)));
        let first = body.iter().position(|record| !is_good(record)).unwrap_or(body.len());
        *bad = first as u16;
        if first == body.len() {
            blocks += 1;
            records += body.len();
        }
    }
    if blocks == 0 {
        return (16, None);
    }
    let length = 2 + 4 * blocks + 16 * records;
    let (Some(kept), Some(list)) = (kept.get_mut(..length), list.get_mut(..4 * (listed.len() - blocks))) else { return (7, None) };
    let (count, rest) = kept.split_at_mut(2);
    count.copy_from_slice(&(blocks as u16).to_le_bytes());
    let (entries, mut bodies) = rest.split_at_mut(4 * blocks);
    let (mut entries, mut list) = (entries.as_chunks_mut().0.iter_mut(), list.as_chunks_mut().0.iter_mut());
    let (mut at, mut from) = (2 + 4 * blocks, 2 + 4 * listed.len());
    for (block, (listed, bad)) in listed.iter().zip(bads).enumerate() {
        let records = usize::from(number(listed, 2));
        let end = from + 16 * records;
        if usize::from(bad) == records {
            put(entries.next().unwrap(), at, records);
            let body;
            (body, bodies) = bodies.split_at_mut(end - from);
            body.copy_from_slice(&trace[from..end]);
            at += end - from;
        } else {
            put(list.next().unwrap(), block, usize::from(bad));
        }
        from = end;
    }
    (0, Some(length as u64))
}

#[inline(never)]
pub fn salvage(trace: &[u8], kept: &mut [u8], list: &mut [u8], answer: &mut [u8]) -> u8 {
    let Some(answer) = answer.first_chunk_mut() else { return 7 };
    match salvaged(trace, kept, list) {
        (7, _) => 7,
        outcome => told(answer, outcome),
    }
}
