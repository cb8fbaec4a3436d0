// Made from crates/trace/src/lib.rt by tools/portable: do not change it here.
//! A trace tested: its contents, and then its records, of which the first bad one is told.

pub mod blocks;
pub mod contents;
pub mod good_record;
pub mod record_bytes;
pub mod record_view;

use self::contents::contents_of;
use self::contents::Records;
use self::good_record::is_good;
use self::record_bytes::LENGTH;
use self::record_view::record_at;
use super::answer::refusals::Refusal;

/// The first bad one of so many records from a place on, counted from 0; their number where all are good, as `first_bad` of the rules has it.
///
/// ```text
/// requires { (records ≤ most_records) × (first + record_length * records ≤ length trace.now) }
/// ensures { result ≡ first_bad (bad_from first trace.now) records 0 }
/// ```
pub fn first_bad(trace: &[u8], first: usize, records: usize) -> usize {
    for k in 0..records {
        let place = first + LENGTH * k;
        if !is_good(record_at(trace, place)) {
            return k;
        }
    }
    records
}

/// Why a trace is refused: its contents, or the first bad record, counted from 0.
#[derive(Clone, Copy)]
pub enum TraceFault {
    WrongContents,
    BadRecord(usize),
}

impl From<TraceFault> for Refusal {
    fn from(fault: TraceFault) -> Refusal {
        match fault {
            TraceFault::WrongContents => Refusal::TraceContents,
            TraceFault::BadRecord(k) => Refusal::BadRecord(k),
        }
    }
}

/// The records of a good trace.
///
/// ```text
/// ensures { tested_view result ≡ trace_test trace.now }
/// ```
pub fn test(trace: &[u8]) -> Result<Records, TraceFault> {
    let records = contents_of(trace).ok_or(TraceFault::WrongContents)?;
    let bad = first_bad(trace, records.first, records.count);
    if bad < records.count {
        return Err(TraceFault::BadRecord(bad));
    }
    Ok(records)
}
