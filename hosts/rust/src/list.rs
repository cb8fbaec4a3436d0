//! The list of a day of several traces, and what is checked by it. Nothing here opens a file: names and bytes are handed in, so a browser has the same rules.
//!
//! A day is a folder of traces, `00001.trace`, `00002.trace` and on, and `day.list`: a first line, a line for each trace that has ended, with its number, its records and the
//! SHA-256 of its bytes, and a last line when the day was ended. A last line without its end was being written as the power went, and counts as not there.
//!
//! ```
//! use pch_pic::holes::digest;
//! use pch_pic::list::{Fault, List};
//! use pch_pic::Record;
//!
//! let trace = |record: Record| [&[1, 0, 6, 0, 1, 0][..], &record.to_bytes()].concat();
//! let (first, second) = (trace(Record::Raise(5)), trace(Record::Lower(5)));
//! let text = format!("pch-pic day 1\n00001 1 {}\n00002 1 {}\nend 2 2\n", digest(&first), digest(&second));
//! let list = List::parse(text.as_bytes())?;
//! assert_eq!(list.traces(["day.list", "00002.trace", "00001.trace"])?, 2);
//! assert!(list.trace(1, first)?.records().eq([Record::Raise(5)]));
//! let told = list.trace(1, second).unwrap_err().to_string();
//! assert_eq!(told, "00001.trace is trace 2 of this day: its files are out of order, or one is there twice");
//! assert_eq!(list.traces(["00001.trace"]), Err(Fault::Missing(2)));
//! # Ok::<(), Fault>(())
//! ```

use crate::{contents, holes, Trace, RECORDS_MAX};
use core::fmt;

/// The name of the list in its folder.
pub const NAME: &str = "day.list";

/// Its first line.
pub const HEAD: &str = "pch-pic day 1";

/// The name of a trace of a day.
pub fn name(number: usize) -> String {
    format!("{number:05}.trace")
}

/// The number of a trace of a day by its name; none where it is no such name.
pub fn number(name: &str) -> Option<usize> {
    let digits = name.strip_suffix(".trace").filter(|digits| digits.len() == 5)?;
    digits.bytes().all(|digit| digit.is_ascii_digit()).then(|| digits.parse().ok())?
}

/// A trace that the list names.
#[derive(Clone, Debug, PartialEq, Eq, Hash)]
pub struct Listed {
    /// How many records it has.
    pub records: usize,
    /// The SHA-256 of its bytes, in hex digits.
    pub digest: String,
}

/// Why a folder is no day, in one line.
#[derive(Clone, Debug, PartialEq, Eq, Hash)]
#[non_exhaustive]
pub enum Fault {
    /// There is no list.
    NoList,
    /// The first line is another.
    Head,
    /// A line, counted from 1, is not that of the next trace, nor the right end of the list.
    Line(usize),
    /// A line, which says so many records, and its trace, which has so many.
    Records(usize, usize, usize),
    /// It has no trace.
    Empty,
    /// A listed trace is not there.
    Missing(usize),
    /// A trace is there that is not of the day.
    Foreign {
        /// Its number.
        number: usize,
        /// How many the day has.
        of: usize,
    },
    /// A file is not the trace that the list names there.
    Changed(usize),
    /// It is another trace of the same day.
    Misplaced {
        /// Where it stands.
        number: usize,
        /// Which one it is.
        is: usize,
    },
    /// The day was not ended, and its last trace is not good as it stands.
    Open {
        /// That trace.
        number: usize,
        /// How many whole records lead it.
        records: usize,
    },
    /// What the list names is no good trace.
    Refused(usize),
}

impl fmt::Display for Fault {
    fn fmt(&self, f: &mut fmt::Formatter<'_>) -> fmt::Result {
        match self {
            Fault::NoList => write!(f, "there is no {NAME} in it, so it is no day"),
            Fault::Head => write!(f, "{NAME}, line 1: it is not '{HEAD}'"),
            Fault::Line(line) => write!(f, "{NAME}, line {line}: it is not the line of trace {}, nor the right end of the list", line - 1),
            Fault::Records(line, says, has) => write!(f, "{NAME}, line {line}: it says {says} records, and {} has {has}", name(line - 1)),
            Fault::Empty => write!(f, "there is no trace in it yet"),
            Fault::Missing(number) => write!(f, "{} is missing", name(*number)),
            Fault::Foreign { number, of } => write!(f, "{} is not of this day: {NAME} ends with trace {of}", name(*number)),
            Fault::Changed(number) => {
                write!(f, "{} is not the trace that {NAME} names: it has changed, or it is of another day", name(*number))
            }
            Fault::Misplaced { number, is } => {
                write!(f, "{} is trace {is} of this day: its files are out of order, or one is there twice", name(*number))
            }
            Fault::Open { number, records } => {
                write!(f, "the day was not ended: {} has {records} whole records; ./run --salvage DAY TO keeps them", name(*number))
            }
            Fault::Refused(number) => write!(f, "{} is as it was listed, and no good trace", name(*number)),
        }
    }
}

impl core::error::Error for Fault {}

/// A number as the list writes it: no sign, and no zero before it.
fn plain(text: &str) -> Option<usize> {
    text.parse().ok().filter(|number: &usize| number.to_string() == text)
}

/// A line of a trace: its number and what it says.
fn listed(line: &str) -> Option<(usize, Listed)> {
    let mut words = line.split(' ');
    let (digits, records, digest) = (words.next()?, plain(words.next()?)?, words.next()?);
    let number = number(&format!("{digits}.trace"))?;
    let hex = digest.len() == 64 && digest.bytes().all(|digit| matches!(digit, b'0'..=b'9' | b'a'..=b'f'));
    let good = words.next().is_none() && hex && (1..=RECORDS_MAX).contains(&records);
    good.then(|| (number, Listed { records, digest: digest.into() }))
}

/// The list of a day.
#[derive(Clone, Debug, Default, PartialEq, Eq, Hash)]
pub struct List {
    listed: Vec<Listed>,
    /// How many records they have.
    records: usize,
    ended: bool,
}

impl List {
    /// The list that a file has. What stands behind the last line's end is no line.
    ///
    /// # Errors
    ///
    /// [`Fault::Head`] or [`Fault::Line`].
    pub fn parse(bytes: &[u8]) -> Result<Self, Fault> {
        let whole = bytes.iter().rposition(|byte| *byte == b'\n').unwrap_or(0);
        let mut lines = bytes[..whole].split(|byte| *byte == b'\n').map(|line| core::str::from_utf8(line).unwrap_or("\u{fffd}"));
        if lines.next() != Some(HEAD) {
            return Err(Fault::Head);
        }
        let mut list = List::default();
        for line in lines {
            // Where lines come behind the end, the end is none.
            list.take(line).ok_or(Fault::Line(list.listed.len() + 2))?;
        }
        Ok(list)
    }

    /// The next line: that of the next trace, or the end of the day, behind which no line comes.
    fn take(&mut self, line: &str) -> Option<()> {
        if self.ended {
            return None;
        }
        if line == format!("end {} {}", self.listed.len(), self.records) {
            self.ended = true;
            return Some(());
        }
        let (_, listed) = listed(line).filter(|(number, _)| *number == self.listed.len() + 1)?;
        self.records += listed.records;
        self.listed.push(listed);
        Some(())
    }

    /// The traces that it names, in their order.
    pub fn listed(&self) -> &[Listed] {
        &self.listed
    }

    /// Whether the day was ended.
    pub fn ended(&self) -> bool {
        self.ended
    }

    /// How many records those traces have.
    pub fn records(&self) -> usize {
        self.records
    }

    /// How many traces the day has, by the names in its folder, whatever their order: those that are listed, and one more where it was not ended. Names that are no trace's
    /// are passed over.
    ///
    /// # Errors
    ///
    /// [`Fault::Missing`], [`Fault::Foreign`], [`Fault::Empty`].
    pub fn traces<'a>(&self, names: impl IntoIterator<Item = &'a str>) -> Result<usize, Fault> {
        let mut found: Vec<usize> = names.into_iter().filter_map(number).collect();
        found.sort_unstable();
        let of = self.listed.len();
        if let Some(missing) = (1..=of).find(|number| found.binary_search(number).is_err()) {
            return Err(Fault::Missing(missing));
        }
        let open = usize::from(!self.ended && found.binary_search(&(of + 1)).is_ok());
        if let Some(number) = found.into_iter().find(|number| !(1..=of + open).contains(number)) {
            return Err(Fault::Foreign { number, of });
        }
        if of + open == 0 {
            return Err(Fault::Empty);
        }
        Ok(of + open)
    }

    /// The trace of this number, from 1 on, by the bytes of its file. One behind the listed ones is the open one, and is taken where it is good.
    ///
    /// # Errors
    ///
    /// [`Fault::Changed`], [`Fault::Misplaced`], [`Fault::Refused`], [`Fault::Open`]; [`Fault::Records`] where the list says others.
    pub fn trace(&self, number: usize, bytes: Vec<u8>) -> Result<Trace, Fault> {
        let Some(listed) = number.checked_sub(1).and_then(|at| self.listed.get(at)) else { return open(number, bytes) };
        let digest = holes::digest(&bytes);
        if digest != listed.digest {
            let other = self.listed.iter().position(|other| other.digest == digest);
            return Err(other.map_or(Fault::Changed(number), |at| Fault::Misplaced { number, is: at + 1 }));
        }
        let trace = Trace::try_from(bytes).map_err(|_| Fault::Refused(number))?;
        let records = trace.records().len();
        if records != listed.records {
            return Err(Fault::Records(number + 1, listed.records, records));
        }
        Ok(trace)
    }
}

/// When each record of a trace was, in nanoseconds, by the bytes of the file beside it: eight for each record, little end first. Times do not go back.
///
/// # Errors
///
/// What is wrong with them, in words.
pub fn times(bytes: &[u8], records: usize) -> Result<Vec<u64>, String> {
    if bytes.len() != 8 * records {
        return Err(format!("it has {} bytes, and the times of {records} records are {}", bytes.len(), 8 * records));
    }
    let times: Vec<u64> = bytes.chunks_exact(8).map(contents::number).collect();
    match times.windows(2).position(|pair| pair[1] < pair[0]) {
        Some(record) => Err(format!("its clock goes back at record {}", record + 1)),
        None => Ok(times),
    }
}

/// The trace that was being recorded: taken where it is whole.
fn open(number: usize, bytes: Vec<u8>) -> Result<Trace, Fault> {
    let filled = holes::filled(bytes.clone());
    Trace::try_from(bytes).map_err(|_| {
        let records = holes::lead(&filled, &[]).map_or(0, |kept| kept.trace.records().len());
        Fault::Open { number, records }
    })
}

#[cfg(test)]
mod tests {
    use super::*;
    use crate::Record;

    fn trace(record: Record) -> Vec<u8> {
        [&[1, 0, 6, 0, 1, 0][..], &record.to_bytes()].concat()
    }

    fn text(end: &str) -> String {
        let lines = [3, 4, 5].map(|input| holes::digest(&trace(Record::Raise(input))));
        format!("{HEAD}\n00001 1 {}\n00002 1 {}\n00003 1 {}\n{end}", lines[0], lines[1], lines[2])
    }

    #[test]
    fn names_have_five_digits() {
        assert_eq!((name(1), name(99_999)), ("00001.trace".into(), "99999.trace".into()));
        assert_eq!((number("00012.trace"), number("00000.trace")), (Some(12), Some(0)));
        for other in ["1.trace", "000001.trace", "+0001.trace", "0000a.trace", "00001.trace.times", "00001", "day.list"] {
            assert_eq!(number(other), None, "{other}");
        }
    }

    /// Cut at any byte the list is one of fewer lines; only a cut in the first line leaves none.
    #[test]
    fn a_torn_list_has_fewer_lines() {
        let whole = text("end 3 3\n");
        for cut in 0..=whole.len() {
            let lines = whole[..cut].matches('\n').count();
            match List::parse(&whole.as_bytes()[..cut]) {
                Ok(list) => assert!(lines > 0 && list.listed().len() == lines.min(4) - 1 && list.ended() == (lines == 5)),
                Err(why) => assert!(lines == 0 && why == Fault::Head),
            }
        }
    }

    /// Any byte that changes makes it no list, or one that names another trace; the two bytes of an end are its own.
    #[test]
    fn a_changed_byte_is_seen() {
        let whole = text("end 3 3\n");
        let good = List::parse(whole.as_bytes()).unwrap();
        for place in 0..whole.len() {
            for bit in 0..8 {
                let mut bytes = whole.clone().into_bytes();
                bytes[place] ^= 1 << bit;
                let seen = List::parse(&bytes).map_or(true, |list| list != good);
                assert!(seen, "{place} {bit}");
            }
        }
    }

    #[test]
    fn lines_are_told() {
        let told = |text: &str| List::parse(text.as_bytes()).unwrap_err().to_string();
        let line = text("").lines().nth(1).unwrap().to_string();
        assert_eq!(told("pch-pic day 2\n"), "day.list, line 1: it is not 'pch-pic day 1'");
        let wrong = |line, trace| format!("day.list, line {line}: it is not the line of trace {trace}, nor the right end of the list");
        for other in ["", " ", "00001", "00001 1", "end 0 1", "end 00 0", "end 0 0 ", &line.to_uppercase(), &format!("{line} ")] {
            assert_eq!(told(&format!("{HEAD}\n{other}\n")), wrong(2, 1), "{other}");
        }
        for records in [" 0 ", " 4001 ", " 01 ", " +1 ", "  1 "] {
            assert_eq!(told(&format!("{HEAD}\n{}\n", line.replace(" 1 ", records))), wrong(2, 1), "{records}");
        }
        assert_eq!(told(&format!("{HEAD}\n{line}\n{line}\n")), wrong(3, 2));
        assert_eq!(told(&text("end 3 3\nend 3 3\n")), wrong(5, 4));
        assert_eq!(told(&text("end 3 4\n")), wrong(5, 4));
        let many = List::parse(text("").replace("00002 1 ", "00002 2 ").as_bytes()).unwrap();
        let told = many.trace(2, trace(Record::Raise(4))).unwrap_err().to_string();
        assert_eq!(told, "day.list, line 3: it says 2 records, and 00002.trace has 1");
    }

    #[test]
    fn folders_are_checked() {
        let (open, ended) = (List::parse(text("").as_bytes()).unwrap(), List::parse(text("end 3 3\n").as_bytes()).unwrap());
        let three = ["00001.trace", "00002.trace", "00003.trace"];
        let four = ["00004.trace", "00002.trace", "00003.trace", "00001.trace"];
        assert_eq!((open.traces(three), ended.traces(three), open.traces(four)), (Ok(3), Ok(3), Ok(4)));
        assert_eq!(ended.traces(four), Err(Fault::Foreign { number: 4, of: 3 }));
        assert_eq!(open.traces(["00001.trace", "00003.trace"]), Err(Fault::Missing(2)));
        assert_eq!(open.traces([&three[..], &["00000.trace"]].concat()), Err(Fault::Foreign { number: 0, of: 3 }));
        let told = open.traces([&four[..], &["00007.trace"]].concat()).unwrap_err().to_string();
        assert_eq!(told, "00007.trace is not of this day: day.list ends with trace 3");
        assert_eq!(List::parse(format!("{HEAD}\n").as_bytes()).unwrap().traces([]), Err(Fault::Empty));
    }

    #[test]
    fn traces_are_checked() {
        let list = List::parse(text("").as_bytes()).unwrap();
        assert!(list.trace(2, trace(Record::Raise(4))).is_ok());
        assert_eq!(list.trace(2, trace(Record::Raise(5))).unwrap_err(), Fault::Misplaced { number: 2, is: 3 });
        assert_eq!(list.trace(2, trace(Record::Lower(4))).unwrap_err(), Fault::Changed(2));
        assert_eq!(list.trace(2, vec![]).unwrap_err(), Fault::Changed(2));
        // The open one: whole, cut, with records that were never written, and nothing at all.
        let planned = [&[1, 0, 6, 0, 3, 0][..], &Record::Raise(4).to_bytes(), &Record::Drain.to_bytes(), &[0; 16]].concat();
        assert!(list.trace(4, trace(Record::Raise(4))).is_ok());
        assert_eq!(list.trace(4, planned.clone()).unwrap_err(), Fault::Open { number: 4, records: 2 });
        assert_eq!(list.trace(4, planned[..30].to_vec()).unwrap_err(), Fault::Open { number: 4, records: 1 });
        let told = list.trace(4, vec![]).unwrap_err().to_string();
        assert_eq!(told, "the day was not ended: 00004.trace has 0 whole records; ./run --salvage DAY TO keeps them");
        // A list may name what is no trace.
        let bad = vec![0, 0];
        let list = List::parse(format!("{HEAD}\n00001 1 {}\n", holes::digest(&bad)).as_bytes()).unwrap();
        let told = list.trace(1, bad).unwrap_err().to_string();
        assert_eq!(told, "00001.trace is as it was listed, and no good trace");
    }
}
