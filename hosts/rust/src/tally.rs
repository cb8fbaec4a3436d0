//! A day of several traces counted: a tally carries the sheet from one to the next.
//!
//! A trace has at most [`RECORDS_MAX`](crate::RECORDS_MAX) records, and a longer day is several. [`Tally::add`] counts the records of one as the day goes on from
//! the device as it was before the first of them. So it comes before the records are played on that device. Waits may begin in one trace and end in another.
//!
//! ```
//! use pch_pic::{reg, PchPic, Record, Recorder, Tally};
//!
//! let trace = |records: &[Record]| {
//!     let mut recorder = Recorder::new();
//!     records.iter().try_for_each(|record| recorder.take(*record))?;
//!     recorder.finish()
//! };
//! // Input 5 is raised while it is masked; the second trace unmasks it.
//! let first = trace(&[Record::Raise(5), Record::Drain, Record::Drain])?;
//! let second = trace(&[Record::Write { offset: reg::MASK as u16, width: 8, value: 0 }])?;
//!
//! let mut tally = Tally::new();
//! tally.add(&first, &PchPic::new())?;
//! assert_eq!(tally.sheet()?.inputs()[5].open, 1);
//! tally.add(&second, &first.play().pic())?;
//! let sheet = tally.sheet()?;
//! let five = sheet.inputs()[5];
//! assert_eq!((tally.records(), five.raises, five.asserts, five.greatest_wait, five.open), (4, 1, 1, 3, 0));
//! println!("{sheet}");
//! # Ok::<(), Box<dyn std::error::Error>>(())
//! ```

use crate::sheet::LongSheet;
use crate::{contents, outcome, Error, Form, PchPic, Trace, INPUTS, LONG_SHEET_LEN, TALLY_LEN};
use core::fmt;

/// Where the number of records stands: behind the rows of the inputs.
const RECORDS: usize = TALLY_LEN / (INPUTS + 1) * INPUTS;

/// The numbers of a day so far, as bytes that can be kept and [read back](Tally::from_bytes). `include/pch_pic.h` tells them, "A day of several traces".
#[derive(Clone, PartialEq, Eq, Hash)]
pub struct Tally {
    bytes: [u8; TALLY_LEN],
}

impl Default for Tally {
    fn default() -> Self {
        Tally::new()
    }
}

impl fmt::Debug for Tally {
    fn fmt(&self, f: &mut fmt::Formatter<'_>) -> fmt::Result {
        f.debug_struct("Tally").field("records", &self.records()).finish_non_exhaustive()
    }
}

impl Tally {
    /// A tally that has counted nothing.
    pub fn new() -> Self {
        let mut bytes = [0; TALLY_LEN];
        outcome::tally_begin(&mut bytes).expect("a tally has room");
        Tally { bytes }
    }

    /// A tally that was kept; its bytes are tested. [`Error::Room`] where they are not [`TALLY_LEN`], and [`Error::Tally`] where they are none.
    pub fn from_bytes(bytes: &[u8]) -> Result<Self, Error> {
        let bytes: [u8; TALLY_LEN] = bytes.try_into().map_err(|_| Error::Room)?;
        outcome::tally_sheet(&bytes, &mut [0; LONG_SHEET_LEN])?;
        Ok(Tally { bytes })
    }

    /// The bytes, to be kept.
    pub fn as_bytes(&self) -> &[u8; TALLY_LEN] {
        &self.bytes
    }

    /// How many records were counted.
    pub fn records(&self) -> u64 {
        contents::number(&self.bytes[RECORDS..RECORDS + 8])
    }

    /// Counts the records of a trace, as the day goes on from this device, which is as it was before the first of them. Only a tally that has reached 2^63 in a
    /// number is refused, with [`Error::Tally`], and then it stays as it was.
    pub fn add(&mut self, trace: &Trace, before: &PchPic) -> Result<(), Error> {
        outcome::tally_add(trace.as_bytes(), &before.save(Form::Numbered), &mut self.bytes).map(|_| ())
    }

    /// The sheet of all records so far: what waits still is open. It is refused as [`add`](Tally::add) is.
    pub fn sheet(&self) -> Result<LongSheet, Error> {
        let mut bytes = [0; LONG_SHEET_LEN];
        outcome::tally_sheet(&self.bytes, &mut bytes)?;
        Ok(LongSheet::from_bytes(self.records() as usize, &bytes, |number| number))
    }
}
