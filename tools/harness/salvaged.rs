//! What 02, C-23, expects of salvaging a trace. Written from that text, apart from the code under test.

use crate::told::tell;
use crate::trace;

pub fn salvage(trace: &[u8], kept: &mut [u8], list: &mut [u8], answer: &mut [u8]) -> u8 {
    if answer.len() < 16 {
        return 7;
    }
    let Some(blocks) = trace::blocks(trace) else { return tell(answer, 12, None) };
    let (mut records, mut counts, mut dropped) = (Vec::new(), Vec::new(), Vec::new());
    for (number, block) in blocks.iter().enumerate() {
        match block.iter().position(trace::is_bad) {
            // both counted from 0, the record within its block
            Some(first) => dropped.extend([number as u16, first as u16].into_iter().flat_map(u16::to_le_bytes)),
            None => {
                records.extend_from_slice(block);
                counts.push(block.len());
            }
        }
    }
    if counts.is_empty() {
        return tell(answer, 16, None);
    }
    let new = trace::bytes(&records, &counts);
    if kept.len() < new.len() || list.len() < dropped.len() {
        return 7;
    }
    kept[..new.len()].copy_from_slice(&new);
    list[..dropped.len()].copy_from_slice(&dropped);
    tell(answer, 0, Some(new.len() as u64))
}
