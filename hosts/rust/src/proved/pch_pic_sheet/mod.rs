// Made from crates/pch_pic_sheet/src/lib.rt by tools/portable: do not change it here.
//! The call that writes the sheet of a lent trace. It requires nothing: every input has its outcome. Here is what lacks room, refusal 7, which writes no byte;
//! the crates below test the trace and make the sheet.

pub mod sheet;

use self::sheet::make;
use super::answer;
use super::answer::refusals::NO_ROOM;

/// How many bytes a sheet has: 65 rows of ten numbers of four bytes.
const LENGTH: usize = 2600;

/// The sheet of a trace: a row for each input, and the total.
///
/// ```text
/// ensures { sheet_leaves result sheet.new answer.new ≡ sheeting trace.now sheet.old answer.old }
/// ```
pub fn pch_pic_sheet(trace: &[u8], sheet: &mut [u8], answer: &mut [u8]) -> u8 {
    if answer.len() < 16 {
        return NO_ROOM;
    }
    if sheet.len() < LENGTH {
        return NO_ROOM;
    }
    let told = make(trace, sheet);
    answer::tell(answer, told)
}
