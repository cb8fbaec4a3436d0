//! A day counted: a row of ten numbers for each input, and the total.
//!
//! ```
//! use pch_pic::{reg, Recorded, Width, Window};
//!
//! let mut day = Recorded::new();
//! let _ = day.set_level(5, true)?; // record 0: masked, so it waits
//! day.write(Window::at(0), reg::MASK, Width::Dword, 0)?; // record 1: its assert is offered
//! let sheet = day.recorder().finish()?.sheet();
//! let five = sheet.inputs()[5];
//! assert_eq!((five.raises, five.offered, five.greatest_wait), (1, 1, 1));
//! println!("{sheet}");
//! # Ok::<(), Box<dyn std::error::Error>>(())
//! ```

use crate::history::History;
use crate::{contents, outcome, Trace, INPUTS, SHEET_LEN};
use core::fmt;

/// The columns of a sheet, in its order, as its table names them.
pub const COLUMNS: [&str; 10] =
    ["raises", "lowers", "asserts", "deasserts", "returned", "offered", "dropped", "greatest wait", "withdrawn", "open"];

/// A row of a trace's sheet.
pub type Row = RowOf<u32>;

/// A row of a tally's, in numbers of 64 bits.
pub type LongRow = RowOf<u64>;

/// The sheet of a trace. [`Trace::sheet`] makes it.
pub type Sheet = SheetOf<u32>;

/// The sheet of several traces, in numbers of 64 bits. [`Tally::sheet`](crate::Tally::sheet) makes it.
pub type LongSheet = SheetOf<u64>;

/// The numbers of one input, or the total: sums, and of the waits the greatest. Refused records count as none, and keep their number.
#[derive(Clone, Copy, Debug, Default, PartialEq, Eq, Hash)]
pub struct RowOf<N> {
    /// Raises done.
    pub raises: N,
    /// Lowers done.
    pub lowers: N,
    /// Asserts made.
    pub asserts: N,
    /// Deasserts made.
    pub deasserts: N,
    /// How many of both were returned by a raise, a lower or a poll.
    pub returned: N,
    /// How many of both a write offered, the dropped among them.
    pub offered: N,
    /// How many of the offered were dropped, since 16 waited.
    pub dropped: N,
    /// The greatest difference of record numbers between a raise that found the input neither latched nor in service and the assert that followed.
    pub greatest_wait: N,
    /// Waits that a lowering or a CLEAR ended.
    pub withdrawn: N,
    /// Waits that the end of the trace found, 0 or 1 of an input.
    pub open: N,
}

impl<N: Copy> RowOf<N> {
    /// Ten numbers one after another, each made of so many of the bytes.
    fn from_bytes(bytes: &[u8], of: fn(u64) -> N) -> Self {
        let mut numbers = bytes.chunks_exact(bytes.len() / COLUMNS.len()).map(|bytes| of(contents::number(bytes)));
        let mut next = || numbers.next().expect("a row has ten numbers");
        RowOf {
            raises: next(),
            lowers: next(),
            asserts: next(),
            deasserts: next(),
            returned: next(),
            offered: next(),
            dropped: next(),
            greatest_wait: next(),
            withdrawn: next(),
            open: next(),
        }
    }

    /// The ten numbers, in the order of [`COLUMNS`].
    pub const fn numbers(&self) -> [N; COLUMNS.len()] {
        [
            self.raises,
            self.lowers,
            self.asserts,
            self.deasserts,
            self.returned,
            self.offered,
            self.dropped,
            self.greatest_wait,
            self.withdrawn,
            self.open,
        ]
    }
}

impl<N: Default + PartialEq> RowOf<N> {
    /// Whether all of them are 0: the input did nothing.
    pub fn is_idle(&self) -> bool {
        *self == RowOf::default()
    }
}

/// The sheet of a day: [`Sheet`] or [`LongSheet`].
#[derive(Clone, Debug, PartialEq, Eq, Hash)]
pub struct SheetOf<N> {
    records: usize,
    inputs: [RowOf<N>; INPUTS],
    total: RowOf<N>,
}

impl Trace {
    /// Counts the day: the library goes through the trace from a reset on and fills in the sheet.
    pub fn sheet(&self) -> Sheet {
        let mut bytes = [0; SHEET_LEN];
        let records = outcome::sheet(self.as_bytes(), &mut bytes).expect("a good trace has a sheet");
        Sheet::from_bytes(records.expect("a done sheet has a value") as usize, &bytes, |number| number as u32)
    }
}

impl<N: Copy> SheetOf<N> {
    /// The rows of inputs 0 to 63, and the total.
    pub(crate) fn from_bytes(records: usize, bytes: &[u8], of: fn(u64) -> N) -> Self {
        let len = bytes.len() / (INPUTS + 1);
        let row = |number: usize| RowOf::from_bytes(&bytes[len * number..][..len], of);
        SheetOf { records, inputs: core::array::from_fn(row), total: row(INPUTS) }
    }

    /// How many records the day has.
    pub fn records(&self) -> usize {
        self.records
    }

    /// The row of an input; none where it is 64 or more.
    pub fn input(&self, input: usize) -> Option<&RowOf<N>> {
        self.inputs.get(input)
    }

    /// The rows of inputs 0 to 63.
    pub fn inputs(&self) -> &[RowOf<N>; INPUTS] {
        &self.inputs
    }

    /// The last row.
    pub fn total(&self) -> &RowOf<N> {
        &self.total
    }
}

impl<N: Copy + fmt::Display> SheetOf<N> {
    /// The sheet for a program: a line of names, and a line for each input and the total, with commas between.
    pub fn csv(&self) -> String {
        let names = COLUMNS.map(|name| name.replace(' ', "_"));
        let mut text = format!("input,{}\n", names.join(","));
        let labels = (0..INPUTS).map(|input| input.to_string()).chain(["total".to_string()]);
        for (label, row) in labels.zip(self.inputs.iter().chain([&self.total])) {
            let numbers = row.numbers().map(|number| number.to_string());
            text += &format!("{label},{}\n", numbers.join(","));
        }
        text
    }
}

/// Each column is as wide as its name, and at least so wide.
const LEAST: usize = 6;

/// A line of the table, and what stands in it behind the greatest wait, if the table has that column.
fn line(f: &mut impl fmt::Write, label: &str, cells: impl Iterator<Item = String>, began: Option<String>) -> fmt::Result {
    write!(f, "{label:>5}")?;
    for (name, cell) in COLUMNS.iter().zip(cells) {
        write!(f, "  {cell:>0$}", name.len().max(LEAST))?;
        if let Some(began) = began.as_ref().filter(|_| *name == "greatest wait") {
            write!(f, "  {began:>0$}", BEGAN.len())?;
        }
    }
    writeln!(f)
}

const BEGAN: &str = "began at";

impl Sheet {
    /// The table with a column more: the record where the greatest wait of each row began, by the [history](Trace::history) of the same day.
    ///
    /// ```
    /// use pch_pic::{reg, Recorded, Width, Window};
    ///
    /// let mut day = Recorded::new();
    /// let _ = day.set_level(5, true)?; // record 0: masked, so it waits
    /// day.write(Window::at(0), reg::MASK, Width::Dword, 0)?; // record 1: its assert is offered
    /// let trace = day.recorder().finish()?;
    /// assert!(trace.sheet().table(&trace.history()).contains("greatest wait  began at  withdrawn"));
    /// # Ok::<(), Box<dyn std::error::Error>>(())
    /// ```
    pub fn table(&self, history: &History) -> String {
        let began: Vec<Option<usize>> = (0..INPUTS).map(|input| history.greatest(input).map(|wait| wait.raised)).collect();
        let longest = self.inputs.iter().position(|row| row.greatest_wait == self.total.greatest_wait);
        let total = longest.and_then(|input| began[input]);
        let mut text = String::new();
        let _ = self.print(&mut text, |row| Some(began.get(row).copied().unwrap_or(total).map_or("-".into(), |record| record.to_string())));
        text
    }
}

impl<N: Copy + Default + PartialEq + fmt::Display> SheetOf<N> {
    /// Inputs that did nothing are left out, and the total comes last. `began` says what stands behind the greatest wait of a row.
    fn print(&self, f: &mut impl fmt::Write, began: impl Fn(usize) -> Option<String>) -> fmt::Result {
        line(f, "input", COLUMNS.iter().map(|name| name.to_string()), began(INPUTS).map(|_| BEGAN.into()))?;
        for (input, row) in self.inputs.iter().enumerate().filter(|(_, row)| !row.is_idle()) {
            line(f, &input.to_string(), row.numbers().iter().map(N::to_string), began(input))?;
        }
        line(f, "total", self.total.numbers().iter().map(N::to_string), began(INPUTS))?;
        let idle = self.inputs.iter().filter(|row| row.is_idle()).count();
        write!(f, "records: {}; inputs that did nothing and are left out: {idle}", self.records)
    }
}

impl<N: Copy + Default + PartialEq + fmt::Display> fmt::Display for SheetOf<N> {
    /// A table for people: inputs that did nothing are left out, and the total comes last.
    fn fmt(&self, f: &mut fmt::Formatter<'_>) -> fmt::Result {
        self.print(f, |_| None)
    }
}

#[cfg(test)]
mod tests {
    use super::*;

    const ROW_LEN: usize = 4 * COLUMNS.len();

    /// One block of one record, a raise of input 5, which is masked.
    const RAISED: [u8; 22] = [1, 0, 6, 0, 1, 0, 1, 5, 0, 0, 0, 0, 0, 0, 0, 0, 0, 0, 0, 0, 0, 0];

    #[test]
    fn a_sheet_is_refused_in_order() {
        let (mut trace, mut sheet) = (RAISED, [0xa5; SHEET_LEN + 1]);
        trace[0] = 2;
        trace[7 + 1] = 1;
        assert_eq!(outcome::sheet(&trace, &mut sheet[..SHEET_LEN - 1]), Err(crate::Error::Room));
        assert_eq!(outcome::sheet(&trace, &mut sheet), Err(crate::Error::Trace));
        trace[0] = 1;
        assert_eq!(outcome::sheet(&trace, &mut sheet), Err(crate::Error::Record(0)));
        assert_eq!(sheet, [0xa5; SHEET_LEN + 1]);
        assert_eq!(outcome::sheet(&RAISED, &mut sheet), Ok(Some(1)));
        let wanted = |at: usize| match at {
            SHEET_LEN => 0xa5,
            // A raise, and an open wait, of input 5 and of the total.
            _ => u8::from([ROW_LEN * 5, ROW_LEN * 5 + 36, ROW_LEN * 64, ROW_LEN * 64 + 36].contains(&at)),
        };
        assert!(sheet.iter().enumerate().all(|(at, byte)| *byte == wanted(at)));
    }

    #[test]
    fn numbers_have_their_names() {
        let bytes: Vec<u8> = (1..=10_u32).flat_map(|number| (number << 8).to_le_bytes()).collect();
        let row = Row::from_bytes(&bytes, |number| number as u32);
        assert_eq!(row.numbers(), core::array::from_fn(|at| (at as u32 + 1) << 8));
        assert_eq!((row.raises, row.greatest_wait, row.open), (0x100, 0x800, 0xa00));
        assert!(Row::default().is_idle() && !row.is_idle());
    }

    #[test]
    fn a_table_and_lines_with_commas() {
        let sheet = Trace::try_from(RAISED.to_vec()).unwrap().sheet();
        let table = "\
input  raises  lowers  asserts  deasserts  returned  offered  dropped  greatest wait  withdrawn    open
    5       1       0        0          0         0        0        0              0          0       1
total       1       0        0          0         0        0        0              0          0       1
records: 1; inputs that did nothing and are left out: 63";
        assert_eq!(sheet.to_string(), table);
        let csv = sheet.csv();
        let lines: Vec<_> = csv.lines().collect();
        assert_eq!((lines.len(), lines[6], lines[65]), (66, "5,1,0,0,0,0,0,0,0,0,1", "total,1,0,0,0,0,0,0,0,0,1"));
        assert_eq!(lines[0], "input,raises,lowers,asserts,deasserts,returned,offered,dropped,greatest_wait,withdrawn,open");
    }
}
