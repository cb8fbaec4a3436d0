// Made from crates/pch_pic_tally/src/summing.rt by tools/portable: do not change it here.
//! The sheet of a tally: its rows with the waits that are not over as open ones, and the total.

use super::super::answer::Told;
use super::super::ledger::follow::copy_rows;
use super::super::ledger::follow::zero_row;
use super::super::ledger::totals::join_all;
use super::super::ledger::totals::TOTAL;
use super::soundness;

/// A tally that is refused leaves the sheet as it was.
///
/// ```text
/// requires { (tally_length ≤ length tally.now) × (tally_length ≤ length sheet.old) }
/// ensures { ends_as result sheet.new ≡ summed tally.now sheet.old }
/// ```
pub fn sum(tally: &[u8], sheet: &mut [u8]) -> Told {
    soundness::test(tally)?;
    copy_rows(tally, sheet);
    zero_row(sheet, true, TOTAL);
    join_all(sheet, true);
    Ok(None)
}
