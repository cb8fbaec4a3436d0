// Made from crates/pch_pic_salvage/src/salvage.rt by tools/portable: do not change it here.
//! A damaged trace salvaged: its contents are tested, its blocks looked at, and what is left is written where there is room for all of it.
//! What is refused changes nothing.

use super::super::answer::refusals::Refusal;
use super::super::answer::Told;
use super::super::trace::blocks::two_at;
use super::super::trace::contents::contents_of;
use super::super::trace::record_bytes::LENGTH;
use super::rebuilt::put_blocks;
use super::rebuilt::put_contents;
use super::rebuilt::put_list;
use super::torn::count;
use super::torn::survey;

/// ```text
/// ensures { ends result second.new list.new
///     ≡ salvage_ending trace.now second.old list.old }
/// ```
#[inline]
pub fn salvage(trace: &[u8], second: &mut [u8], list: &mut [u8]) -> Told {
    contents_of(trace).ok_or(Refusal::TraceContents)?;
    let blocks = two_at(trace, 0);
    let bads = survey(trace, blocks);
    let left = count(trace, blocks, &bads);
    let kept = left.blocks;
    if kept == 0 {
        return Err(Refusal::NothingLeft);
    }
    let start = 2 + 4 * kept;
    let length = start + LENGTH * left.records;
    if second.len() < length {
        return Err(Refusal::NoRoom);
    }
    if list.len() < 4 * (blocks - kept) {
        return Err(Refusal::NoRoom);
    }
    put_contents(trace, blocks, &bads, kept, second);
    put_blocks(trace, blocks, &bads, &mut second[start..]);
    put_list(trace, blocks, &bads, list);
    Ok(Some(length as u64))
}
