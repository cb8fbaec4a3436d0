//! A day of calls as bytes, tested, played, and salvaged where it is damaged.
//!
//! A trace has what was asked of a device from a reset on, and not what was answered: [`Trace::play`] has the library work that out again, byte for byte. A longer day
//! is several traces, each [played on](Trace::play_on) from the image that the one before left.
//! `include/pch_pic.h` tells its bytes, "Traces". A [`Recorder`](crate::Recorder) makes one, and `./run --play` prints one.
//!
//! ```
//! use pch_pic::{reg, Recorded, Width, Window};
//!
//! let window = Window::at(0x1000_0000);
//! let mut day = Recorded::new();
//! day.write(window, window.base + reg::MASK, Width::Dword, 0)?;
//! let _ = day.set_level(5, true)?;
//! let trace = day.recorder().finish()?;
//! let played = trace.play();
//! assert_eq!(played.pic(), *day.pic());
//! for step in played.steps() {
//!     println!("{} gave {:?}", step.record, step.outcome());
//! }
//! # Ok::<(), Box<dyn std::error::Error>>(())
//! ```

use crate::{
    contents, event, outcome, replace, Error, Event, Form, Image, PchPic, DRAIN_ROOM, DROPPED_LEN, DROPPED_MAX, EVENT_LEN, RECORD_LEN,
    TRACE_MAX,
};
use core::fmt;
use std::fs::File;
use std::io::{self, Read};
use std::path::Path;

/// A call that plays: trace, image, answers, events.
type Play = fn(&[u8], &mut [u8], &mut [u8], &mut [u8]) -> outcome::Outcome;

/// Before the blocks stand their number, and an entry for each.
const ENTRIES: usize = 2;
const ENTRY_LEN: usize = 4;

/// How many bytes the contents of so many blocks have.
pub(crate) fn contents_len(blocks: usize) -> usize {
    ENTRIES + ENTRY_LEN * blocks
}

/// The contents of blocks with so many records each.
pub(crate) fn contents_of(blocks: &[u16]) -> Vec<u8> {
    let mut bytes = (blocks.len() as u16).to_le_bytes().to_vec();
    let mut at = contents_len(blocks.len());
    for records in blocks {
        bytes.extend((at as u16).to_le_bytes());
        bytes.extend(records.to_le_bytes());
        at += RECORD_LEN * usize::from(*records);
    }
    bytes
}

/// One call of a trace. It is made with base 0 and size 65,536.
///
/// An input of 64 or a width of 3 is a record like any other: that call is refused, and its answer says so.
///
/// ```
/// use pch_pic::Record;
///
/// let write = Record::Write { offset: 0x20, width: 4, value: 0xffff_ffdf };
/// assert_eq!(write.to_string(), "w 4 0020 00000000ffffffdf");
/// assert_eq!(Record::from_bytes(&write.to_bytes()), Some(write));
/// assert_eq!(Record::from_bytes(&[0; 16]), None);
/// ```
#[derive(Clone, Copy, Debug, PartialEq, Eq, Hash)]
pub enum Record {
    /// 1: the line of this input goes up.
    Raise(u8),
    /// 2: it goes down.
    Lower(u8),
    /// 3: it is asked for.
    Poll(u8),
    /// 4: the guest reads.
    Read {
        /// Where.
        offset: u16,
        /// How many bytes.
        width: u8,
    },
    /// 5: the guest writes.
    Write {
        /// Where.
        offset: u16,
        /// How many bytes.
        width: u8,
        /// Of this the low ones.
        value: u64,
    },
    /// 6: all that waits is drained.
    Drain,
}

impl Record {
    /// Kind, input or width, offset and value, each 0 where it is not used.
    const fn fields(self) -> (u8, u8, u16, u64) {
        match self {
            Record::Raise(input) => (1, input, 0, 0),
            Record::Lower(input) => (2, input, 0, 0),
            Record::Poll(input) => (3, input, 0, 0),
            Record::Read { offset, width } => (4, width, offset, 0),
            Record::Write { offset, width, value } => (5, width, offset, value),
            Record::Drain => (6, 0, 0, 0),
        }
    }

    /// The record as it stands in a trace.
    pub fn to_bytes(self) -> [u8; RECORD_LEN] {
        let (kind, byte, offset, value) = self.fields();
        let mut bytes = [0; RECORD_LEN];
        bytes[0] = kind;
        bytes[1] = byte;
        bytes[2..4].copy_from_slice(&offset.to_le_bytes());
        bytes[8..].copy_from_slice(&value.to_le_bytes());
        bytes
    }

    /// The record of these bytes; none where it is a bad one.
    pub fn from_bytes(bytes: &[u8; RECORD_LEN]) -> Option<Self> {
        let (byte, offset, value) = (bytes[1], u16::from_le_bytes([bytes[2], bytes[3]]), contents::number(&bytes[8..]));
        let record = match bytes[0] {
            1 => Record::Raise(byte),
            2 => Record::Lower(byte),
            3 => Record::Poll(byte),
            4 => Record::Read { offset, width: byte },
            5 => Record::Write { offset, width: byte, value },
            6 => Record::Drain,
            _ => return None,
        };
        // What a kind does not use has to be 0.
        (record.to_bytes() == *bytes).then_some(record)
    }
}

impl fmt::Display for Record {
    /// The line of a session that asks for it.
    fn fmt(&self, f: &mut fmt::Formatter<'_>) -> fmt::Result {
        match self {
            Record::Raise(input) => f.pad(&format!("l {input:02x} 1")),
            Record::Lower(input) => f.pad(&format!("l {input:02x} 0")),
            Record::Poll(input) => f.pad(&format!("p {input:02x}")),
            Record::Read { offset, width } => f.pad(&format!("r {width:x} {offset:04x}")),
            Record::Write { offset, width, value } => f.pad(&format!("w {width:x} {offset:04x} {value:016x}")),
            Record::Drain => f.pad("d"),
        }
    }
}

/// Why a trace could not be loaded from a file, or salvaged.
#[derive(Debug)]
#[non_exhaustive]
pub enum LoadError {
    /// The file cannot be read.
    Io(io::Error),
    /// It is no good trace: [`Error::Trace`] or [`Error::Record`]. Of one that is salvaged: [`Error::Trace`] or [`Error::Empty`].
    Trace(Error),
}

impl fmt::Display for LoadError {
    fn fmt(&self, f: &mut fmt::Formatter<'_>) -> fmt::Result {
        match self {
            LoadError::Io(why) => why.fmt(f),
            LoadError::Trace(why) => why.fmt(f),
        }
    }
}

impl std::error::Error for LoadError {
    fn source(&self) -> Option<&(dyn std::error::Error + 'static)> {
        match self {
            LoadError::Io(why) => Some(why),
            LoadError::Trace(why) => Some(why),
        }
    }
}

impl From<io::Error> for LoadError {
    fn from(why: io::Error) -> Self {
        LoadError::Io(why)
    }
}

impl From<Error> for LoadError {
    fn from(why: Error) -> Self {
        LoadError::Trace(why)
    }
}

/// A good trace: the library has tested its contents and every record.
///
/// ```
/// use pch_pic::{Error, Trace};
///
/// assert_eq!(Trace::try_from(vec![]), Err(Error::Trace));
/// assert_eq!(Trace::try_from([&[1, 0, 6, 0, 1, 0][..], &[0; 16]].concat()), Err(Error::Record(0)));
/// ```
#[derive(Clone, PartialEq, Eq, Hash)]
pub struct Trace {
    bytes: Vec<u8>,
}

impl TryFrom<Vec<u8>> for Trace {
    type Error = Error;

    /// [`Error::Trace`] where contents or length are wrong, else [`Error::Record`] where a record is bad.
    fn try_from(bytes: Vec<u8>) -> Result<Self, Error> {
        // With no room for answers a good trace, which has a record, is refused with 7, and that last.
        match outcome::play(&bytes, &mut [0; crate::IMAGE2_NUMBERED_LEN], &mut [], &mut []) {
            Err(Error::Room) => Ok(Trace { bytes }),
            Err(why) => Err(why),
            Ok(_) => unreachable!("a play without room is refused"),
        }
    }
}

impl AsRef<[u8]> for Trace {
    /// The bytes.
    fn as_ref(&self) -> &[u8] {
        &self.bytes
    }
}

impl fmt::Debug for Trace {
    fn fmt(&self, f: &mut fmt::Formatter<'_>) -> fmt::Result {
        let blocks: Vec<_> = self.blocks().collect();
        f.debug_struct("Trace").field("blocks", &blocks).field("records", &self.records().collect::<Vec<_>>()).finish()
    }
}

impl Trace {
    /// Loads a trace from a file, and tests it.
    ///
    /// # Errors
    ///
    /// A [`LoadError`], where the file cannot be read or is no good trace.
    pub fn load(path: impl AsRef<Path>) -> Result<Self, LoadError> {
        Ok(Trace::try_from(bytes_of(path.as_ref())?)?)
    }

    /// Of a damaged trace, whose contents are right, the blocks that have no bad record, byte for byte and in their order, and which others there were. A
    /// good trace comes out as it is, with nothing dropped.
    ///
    /// A block that is missing is a hole. Behind it the calls are played on another state than the day had, so no number there is the day's: a day with no
    /// assert and three waits withdrawn may come out with three asserts and none withdrawn. [`holes::lead`](crate::holes::lead) keeps what comes before it.
    ///
    /// ```
    /// use pch_pic::{Dropped, Record, Trace};
    ///
    /// // Two blocks of one record; the second was never written.
    /// let torn = [&[2, 0, 10, 0, 1, 0, 26, 0, 1, 0][..], &Record::Drain.to_bytes(), &[0; 16]].concat();
    /// let salvaged = Trace::salvage(&torn)?;
    /// assert!(salvaged.trace.records().eq([Record::Drain]));
    /// assert_eq!(salvaged.dropped, [Dropped { block: 1, record: 0 }]);
    /// # Ok::<(), pch_pic::Error>(())
    /// ```
    ///
    /// # Errors
    ///
    /// [`Error::Trace`] where contents or length are wrong, [`Error::Empty`] where no block is left.
    pub fn salvage(bytes: &[u8]) -> Result<Salvaged, Error> {
        let (mut kept, mut list) = (vec![0; bytes.len()], [0; DROPPED_MAX]);
        let len = outcome::salvage(bytes, &mut kept, &mut list)?.expect("a done salvage has a value");
        kept.truncate(len as usize);
        let blocks = |bytes: &[u8]| contents::number(&bytes[..ENTRIES]) as usize;
        let dropped = list[..DROPPED_LEN * (blocks(bytes) - blocks(&kept))]
            .chunks_exact(DROPPED_LEN)
            .map(|entry| Dropped { block: contents::number(&entry[..2]) as usize, record: contents::number(&entry[2..]) as usize });
        Ok(Salvaged { dropped: dropped.collect(), trace: Trace { bytes: kept } })
    }

    /// The same of a file.
    ///
    /// # Errors
    ///
    /// A [`LoadError`], where the file cannot be read, its contents are wrong, or no block is left.
    pub fn salvage_file(path: impl AsRef<Path>) -> Result<Salvaged, LoadError> {
        Ok(Trace::salvage(&bytes_of(path.as_ref())?)?)
    }

    /// Saves it to a file, which is replaced whole or not at all.
    ///
    /// # Errors
    ///
    /// Those of the file system; and what is there and no plain file is not replaced.
    pub fn save(&self, path: impl AsRef<Path>) -> io::Result<()> {
        replace::replace(path.as_ref(), &self.bytes).map(drop)
    }

    /// The bytes.
    pub fn as_bytes(&self) -> &[u8] {
        &self.bytes
    }

    /// How many records each block has.
    pub fn blocks(&self) -> impl ExactSizeIterator<Item = usize> + '_ {
        let entries = &self.bytes[ENTRIES..contents_len(contents::number(&self.bytes[..ENTRIES]) as usize)];
        entries.chunks_exact(ENTRY_LEN).map(|entry| contents::number(&entry[2..]) as usize)
    }

    /// The records of all blocks, in their order.
    pub fn records(&self) -> impl ExactSizeIterator<Item = Record> + '_ {
        let records = &self.bytes[contents_len(self.blocks().len())..];
        records.chunks_exact(RECORD_LEN).map(|bytes| {
            let bytes = bytes.try_into().expect("a chunk of 16 bytes");
            Record::from_bytes(bytes).expect("a good trace has good records")
        })
    }

    /// Plays it from a reset, by the library's own call. The device has the numbers of its events, and they run through the day.
    pub fn play(&self) -> Played<'_> {
        self.play_in(Form::Numbered)
    }

    /// Plays it from a reset on an image of this form. In the forms without numbers those of events hold within one record.
    pub fn play_in(&self, form: Form) -> Played<'_> {
        self.played(outcome::play, vec![0; form.image_len()], form)
    }

    /// Plays it on from this image, in its form, with no reset: every byte is what the calls of its records leave, made one after another on that image. So a day that is longer than one
    /// trace is several, each played on what the one before left.
    ///
    /// ```
    /// use pch_pic::{Record, Trace};
    ///
    /// let trace = |record: Record| Trace::try_from([&[1, 0, 6, 0, 1, 0][..], &record.to_bytes()].concat());
    /// let (morning, evening) = (trace(Record::Write { offset: 0x20, width: 4, value: 0 })?, trace(Record::Raise(5))?);
    /// let played = morning.play(); // the guest unmasks 0 to 31
    /// let played = evening.play_on(played.image()); // and a device raises line 5
    /// assert_eq!(played.steps().next().unwrap().outcome(), Ok(Some(5)));
    /// assert_eq!(evening.play().steps().next().unwrap().outcome(), Ok(None)); // from a reset all are masked
    /// # Ok::<(), pch_pic::Error>(())
    /// ```
    pub fn play_on(&self, image: &Image) -> Played<'_> {
        self.played(outcome::play_on, image.to_vec(), image.form())
    }

    /// Plays it by one of the two calls, on bytes of this form.
    fn played(&self, play: Play, mut image: Vec<u8>, form: Form) -> Played<'_> {
        let drains = self.records().filter(|record| *record == Record::Drain).count();
        let mut answers = vec![0; outcome::ANSWER_LEN * self.records().len()];
        let mut events = vec![0; DRAIN_ROOM * drains];
        play(&self.bytes, &mut image, &mut answers, &mut events).expect("a good trace plays where there is room");
        let image = Image::converted(&image, form).expect("what a play leaves is accepted");
        let mut played = Played { trace: self, image, answers, events };
        let drained = played.steps().map(|step| step.events.len()).sum();
        played.events.truncate(drained);
        played
    }
}

/// The bytes of a file. More is asked for than a trace has, so that a longer file is seen.
pub(crate) fn bytes_of(path: &Path) -> io::Result<Vec<u8>> {
    let mut bytes = Vec::new();
    File::open(path)?.take(TRACE_MAX as u64 + 1).read_to_end(&mut bytes)?;
    Ok(bytes)
}

/// What is left of a damaged trace.
#[derive(Clone, Debug, PartialEq, Eq)]
pub struct Salvaged {
    /// The blocks that have no bad record, as a good trace.
    pub trace: Trace,
    /// The blocks that have one, in rising order.
    pub dropped: Vec<Dropped>,
}

/// A block that was dropped, and why.
#[derive(Clone, Copy, Debug, PartialEq, Eq, Hash)]
pub struct Dropped {
    /// Its number, counted from 0.
    pub block: usize,
    /// The first bad record in it, counted from 0 within it.
    pub record: usize,
}

impl fmt::Display for Dropped {
    fn fmt(&self, f: &mut fmt::Formatter<'_>) -> fmt::Result {
        write!(f, "block {}: record {} is bad", self.block, self.record)
    }
}

/// What playing a trace gave.
#[derive(Clone, Debug, PartialEq, Eq)]
pub struct Played<'a> {
    trace: &'a Trace,
    image: Image,
    answers: Vec<u8>,
    events: Vec<u8>,
}

impl<'a> Played<'a> {
    /// The trace.
    pub fn trace(&self) -> &'a Trace {
        self.trace
    }

    /// The image of the device after the last record.
    pub fn image(&self) -> &Image {
        &self.image
    }

    /// The device after the last record.
    pub fn pic(&self) -> PchPic {
        PchPic::from(self.image.clone())
    }

    /// The 16 answer bytes of each record, back to back.
    pub fn answers(&self) -> &[u8] {
        &self.answers
    }

    /// The drained events of the whole trace, [`EVENT_LEN`] bytes each.
    pub fn events(&self) -> &[u8] {
        &self.events
    }

    /// Each record with what it gave, in order.
    pub fn steps(&self) -> impl Iterator<Item = Step<'_>> {
        let mut events = &self.events[..];
        let records = self.trace.records().zip(self.answers.chunks_exact(outcome::ANSWER_LEN)).enumerate();
        records.map(move |(number, (record, answer))| {
            let answer = answer.try_into().expect("a chunk of 16 bytes");
            let mut step = Step { number, record, answer, events: &[] };
            if let (Record::Drain, Ok(Some(count))) = (record, step.outcome()) {
                (step.events, events) = events.split_at(EVENT_LEN * count as usize);
            }
            step
        })
    }
}

/// One record of a played trace, and what it gave.
#[derive(Clone, Copy, Debug, PartialEq, Eq)]
pub struct Step<'a> {
    /// Counted from 0 over the trace.
    pub number: usize,
    /// What was asked.
    pub record: Record,
    answer: &'a [u8; outcome::ANSWER_LEN],
    /// What it drained, [`EVENT_LEN`] bytes each.
    events: &'a [u8],
}

impl<'a> Step<'a> {
    /// Its 16 answer bytes.
    pub fn answer(&self) -> &'a [u8; outcome::ANSWER_LEN] {
        self.answer
    }

    /// The value, if there is one, or why the call was refused.
    ///
    /// # Errors
    ///
    /// That of the call: [`Error::Input`], [`Error::Width`] or [`Error::Outside`], with the offset.
    pub fn outcome(&self) -> Result<Option<u64>, Error> {
        outcome::of(self.answer[0], self.answer)
    }

    /// The events that it told: what a raise, lower or poll returned, or what was drained.
    pub fn events(&self) -> impl Iterator<Item = Event> + 'a {
        let value = match (self.record, self.outcome()) {
            (Record::Raise(_) | Record::Lower(_) | Record::Poll(_), Ok(value)) => value,
            _ => None,
        };
        let asserted = !matches!(self.record, Record::Lower(_));
        let drained = self.events.chunks_exact(EVENT_LEN).map(event::drained);
        value.map(|value| event::returned(value, asserted)).into_iter().chain(drained)
    }

    /// The bytes of what it drained, [`EVENT_LEN`] each.
    pub fn drained(&self) -> &'a [u8] {
        self.events
    }
}

impl fmt::Display for Step<'_> {
    /// What the record gave, as a session answers.
    fn fmt(&self, f: &mut fmt::Formatter<'_>) -> fmt::Result {
        match (self.record, self.outcome()) {
            (_, Err(why)) => write!(f, "e{}", why.number()),
            (Record::Read { .. }, Ok(value)) => write!(f, "= {:016x}", value.unwrap_or(0)),
            (Record::Write { .. }, Ok(_)) => f.write_str("ok"),
            (Record::Drain, Ok(_)) => {
                f.write_str("d")?;
                self.events().try_for_each(|event| write!(f, " {}{:02x}", if event.asserted { '+' } else { '-' }, event.vector))
            }
            (_, Ok(Some(value))) => write!(f, "v {:02x}", value as u8),
            (_, Ok(None)) => f.write_str("-"),
        }
    }
}

#[cfg(test)]
mod tests {
    use super::*;

    const ALL: [Record; 6] = [
        Record::Raise(0xab),
        Record::Lower(0xab),
        Record::Poll(0xab),
        Record::Read { offset: 0x1234, width: 0xab },
        Record::Write { offset: 0x1234, width: 0xab, value: 0x0123_4567_89ab_cdef },
        Record::Drain,
    ];

    /// Each byte of a record is a field of it or has to be 0, and the library says the same.
    #[test]
    fn a_record_is_bad_where_the_library_says_so() {
        for record in ALL {
            assert_eq!(Record::from_bytes(&record.to_bytes()), Some(record));
            for place in 0..RECORD_LEN {
                let mut bytes = record.to_bytes();
                bytes[place] ^= 0x80;
                let tested = Trace::try_from([contents_of(&[1]), bytes.to_vec()].concat());
                assert_eq!(Record::from_bytes(&bytes).is_none(), tested.is_err(), "{record} {place}");
                assert!(tested.is_ok() || tested == Err(Error::Record(0)));
            }
        }
        for kind in 0..=u8::MAX {
            let mut bytes = [0; RECORD_LEN];
            bytes[0] = kind;
            assert_eq!(Record::from_bytes(&bytes).is_some(), (1..=6).contains(&kind));
        }
    }

    #[test]
    fn contents_stand_in_front() {
        assert_eq!(contents_of(&[3, 1]), [2, 0, 10, 0, 3, 0, 58, 0, 1, 0]);
        let bytes = [contents_of(&[3, 1]), [Record::Drain.to_bytes(); 4].concat()].concat();
        let trace = Trace::try_from(bytes.clone()).unwrap();
        assert_eq!(trace.as_bytes(), bytes);
        assert!(trace.blocks().eq([3, 1]));
        assert!(trace.records().eq([Record::Drain; 4]));
        for place in 0..10 {
            let mut bytes = bytes.clone();
            bytes[place] ^= 1;
            assert_eq!(Trace::try_from(bytes), Err(Error::Trace), "{place}");
        }
        assert_eq!(Trace::try_from(bytes[..bytes.len() - 1].to_vec()), Err(Error::Trace));
        assert_eq!(Trace::try_from([&bytes[..], &[0]].concat()), Err(Error::Trace));
    }
}
