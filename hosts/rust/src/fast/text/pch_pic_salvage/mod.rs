// Made from crates/pch_pic_salvage/src/lib.rt by tools/portable: do not change it here.
//! The call that salvages a lent trace. It requires nothing: every input has its outcome. Here is what lacks room, refusal 7, which writes no byte; the
//! crates below test and write.

pub mod rebuilt;
pub mod salvage;
pub mod torn;

use super::answer;
use super::answer::refusals::NO_ROOM;

/// The blocks whose records are all good, as a new trace; and of each dropped block the number and the first bad record in it.
///
/// ```text
/// ensures { salvage_leaves result kept.new list.new answer.new
///     ≡ salvaging trace.now kept.old list.old answer.old }
/// ```
pub fn pch_pic_salvage(trace: &[u8], kept: &mut [u8], list: &mut [u8], answer: &mut [u8]) -> u8 {
    if answer.len() < 16 {
        return NO_ROOM;
    }
    let told = salvage::salvage(trace, kept, list);
    answer::tell_late(answer, told)
}
