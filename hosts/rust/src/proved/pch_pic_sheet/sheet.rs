// Made from crates/pch_pic_sheet/src/sheet.rt by tools/portable: do not change it here.
//! The sheet of a trace, made in one pass from reset: zeros, then record by record, then the end of the day. It stands in the bytes lent for it.

use super::super::answer::Told;
use super::super::ledger::follow::follow;
use super::super::ledger::follow::zero;
use super::super::ledger::follow::zero_row;
use super::super::ledger::totals::join_all;
use super::super::ledger::totals::TOTAL;
use super::super::ledger::watch::Watched;
use super::super::trace;

/// A trace that is refused leaves the sheet as it was.
///
/// ```text
/// requires { sheet_length ≤ length sheet.old }
/// ensures { told result sheet.new ≡ made_of trace.now sheet.old }
/// ```
pub fn make(trace: &[u8], sheet: &mut [u8]) -> Told {
    let records = trace::test(trace)?;
    zero(sheet, false);
    let begun = Watched {
        mask: u64::MAX,
        irr: 0,
        isr: 0,
        waiting: 0,
    };
    follow(trace, records.first, records.count, sheet, false, begun, 0);
    zero_row(sheet, false, TOTAL);
    join_all(sheet, false);
    Ok(Some(records.count as u64))
}
