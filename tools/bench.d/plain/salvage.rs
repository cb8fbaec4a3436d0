//! A damaged trace salvaged (02, C-23): its blocks are looked at, and what is left is written where there is room for all of it.

use super::{Outcome, Refusal, contents_of, entry, is_good, refusal, told};

fn put(to: &mut [u8], first: u16, second: u16) {
    to[..2].copy_from_slice(&first.to_le_bytes());
    to[2..4].copy_from_slice(&second.to_le_bytes());
}

/// Refusals 12, 16, and 7 where the new trace or the list has no room.
fn salvaged(trace: &[u8], kept: &mut [u8], list: &mut [u8]) -> Outcome {
    let (listed, mut rest) = contents_of(trace)?;
    let (mut torn, mut blocks, mut records) = ([None; 64], 0, 0);
    for (block, torn) in listed.iter().zip(&mut torn) {
        let body;
        (body, rest) = rest.split_at(entry(block).1);
        *torn = body.iter().position(|record| !is_good(record)).map(|bad| bad as u16);
        if torn.is_none() {
            blocks += 1;
            records += body.len();
        }
    }
    if blocks == 0 {
        return Err(refusal(16));
    }
    let length = 2 + 4 * blocks + 16 * records;
    let (Some(kept), Some(list)) = (kept.get_mut(..length), list.get_mut(..4 * (listed.len() - blocks))) else {
        return Err(refusal(7));
    };
    kept[..2].copy_from_slice(&(blocks as u16).to_le_bytes());
    let (mut entry_at, mut body_at, mut list_at) = (2, 2 + 4 * blocks, 0);
    for (number, (block, torn)) in listed.iter().zip(torn).enumerate() {
        let (from, records) = entry(block);
        if let Some(bad) = torn {
            put(&mut list[list_at..], number as u16, bad);
            list_at += 4;
        } else {
            let bytes = 16 * records;
            put(&mut kept[entry_at..], body_at as u16, records as u16);
            kept[body_at..body_at + bytes].copy_from_slice(&trace[from..from + bytes]);
            entry_at += 4;
            body_at += bytes;
        }
    }
    Ok(Some(length as u64))
}

#[inline(never)]
pub fn salvage(trace: &[u8], kept: &mut [u8], list: &mut [u8], answer: &mut [u8]) -> u8 {
    let Some(answer) = answer.first_chunk_mut() else { return 7 };
    match salvaged(trace, kept, list) {
        Err(Refusal { number: 7, .. }) => 7,
        outcome => told(answer, outcome),
    }
}
