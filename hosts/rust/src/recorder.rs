//! A day recorded as a trace, call by call.

use crate::day::times_beside;
use crate::trace::{contents_len, contents_of};
use crate::{cut, replace, Record, Trace, Width, Window, BLOCKS_MAX, EVENTS, PLAYED, RECORDS_MAX, RECORD_LEN, TRACE_MAX};
use core::fmt;
use std::fs::File;
use std::io::{self, Seek, SeekFrom, Write};
use std::path::Path;
use std::sync::OnceLock;
use std::time::Instant;

/// Why a recorder takes no more, or not this. It is left as it was.
///
/// From [`RecordError::Byte`] to [`RecordError::Loaded`] it is a call that no record can say, or none that would play to the same bytes.
#[derive(Debug)]
#[non_exhaustive]
pub enum RecordError {
    /// There are 4,000 records, or as many as are planned. Of a day in a folder: there are 99,999 traces.
    Full,
    /// There are 64 blocks, and the last is closed.
    Blocks,
    /// A block, or the whole trace, would have no record.
    Empty,
    /// A plan has no block or more than 64, a block of none, or more than 4,000 records.
    Plan,
    /// The blocks are planned, and end where the plan says.
    Planned,
    /// The file in which the day is kept cannot be written.
    Io(io::Error),
    /// The input or the width is over 255.
    Byte,
    /// The address is below the window's base, or more than 65,535 above it.
    Offset,
    /// The window refuses the access, and the one that a trace is played in would answer otherwise.
    Refused,
    /// A drain with room for some events only.
    Some,
    /// A reset: a trace has one, at its start.
    Again,
    /// A load.
    Loaded,
    /// There are records already, and a trace begins with a reset.
    Started,
    /// There is something in the folder that a day is to be recorded in, and a day is never overwritten.
    NotEmpty,
    /// The day was ended.
    Ended,
}

impl fmt::Display for RecordError {
    fn fmt(&self, f: &mut fmt::Formatter<'_>) -> fmt::Result {
        f.write_str(match self {
            RecordError::Io(why) => return why.fmt(f),
            RecordError::Full => "the trace has all the records that it can have",
            RecordError::Blocks => "the trace has 64 blocks, and takes no more",
            RecordError::Empty => "a block or a trace without a record is none",
            RecordError::Plan => "there is no plan of 1 to 64 blocks with at most 4000 records, none empty",
            RecordError::Planned => "the blocks are planned, and end where the plan says",
            RecordError::Byte => "no record can say it: the input or the width is over 255",
            RecordError::Offset => "no record can say it: the address is not 0 to 65535 above the window's base",
            RecordError::Refused => "no record can say it: the window refuses the access, and a trace plays it otherwise",
            RecordError::Some => "no record can say it: the drain has room for some events only",
            RecordError::Again => "no record can say it: a reset",
            RecordError::Loaded => "no record can say it: a load",
            RecordError::Started => "the device or the recorder is not at its start, and a trace begins with a reset",
            RecordError::NotEmpty => "there is something in the folder already, and a day is never written over",
            RecordError::Ended => "the day was ended, and takes no more",
        })
    }
}

impl std::error::Error for RecordError {
    fn source(&self) -> Option<&(dyn std::error::Error + 'static)> {
        match self {
            RecordError::Io(why) => Some(why),
            _ => None,
        }
    }
}

impl From<io::Error> for RecordError {
    fn from(why: io::Error) -> Self {
        RecordError::Io(why)
    }
}

/// Closed to other crates: later versions may ask more of who is behind it.
pub(crate) mod sealed {
    pub trait Sealed {}
}

/// What takes the calls of a day: a [`Recorder`], in one trace, or a [`DayRecorder`](crate::DayRecorder), in a folder of them. A [`Recorded`](crate::Recorded)
/// device takes either. It takes what a record can say, and refuses all else.
pub trait Recording: sealed::Sealed {
    /// Takes a record as it is.
    ///
    /// # Errors
    ///
    /// A [`RecordError`], and so for all that take a call.
    fn take(&mut self, record: Record) -> Result<(), RecordError>;

    /// How many records were taken.
    fn records(&self) -> u64;

    /// Whether none was.
    fn is_empty(&self) -> bool {
        self.records() == 0
    }

    /// Ends the block that is open; the next record begins another. Where the blocks are planned this is not asked for.
    ///
    /// # Errors
    ///
    /// [`RecordError::Planned`], or [`RecordError::Empty`] where no record is in it.
    fn close_block(&mut self) -> Result<(), RecordError>;

    /// An input's line goes up.
    ///
    /// # Errors
    ///
    /// A [`RecordError`].
    fn raise(&mut self, input: u64) -> Result<(), RecordError> {
        self.take(Record::Raise(byte(input)?))
    }

    /// An input's line goes down.
    ///
    /// # Errors
    ///
    /// A [`RecordError`].
    fn lower(&mut self, input: u64) -> Result<(), RecordError> {
        self.take(Record::Lower(byte(input)?))
    }

    /// An input is asked for.
    ///
    /// # Errors
    ///
    /// A [`RecordError`].
    fn poll(&mut self, input: u64) -> Result<(), RecordError> {
        self.take(Record::Poll(byte(input)?))
    }

    /// The guest reads `width` bytes. What is recorded is the offset in the window; a call that this window refuses is taken only where playing gives the
    /// same refusal.
    ///
    /// # Errors
    ///
    /// A [`RecordError`].
    fn read(&mut self, window: Window, address: u64, width: u64) -> Result<(), RecordError> {
        let (offset, width) = access(window, address, width)?;
        self.take(Record::Read { offset, width })
    }

    /// The guest writes.
    ///
    /// # Errors
    ///
    /// A [`RecordError`].
    fn write(&mut self, window: Window, address: u64, width: u64, value: u64) -> Result<(), RecordError> {
        let (offset, width) = access(window, address, width)?;
        self.take(Record::Write { offset, width, value })
    }

    /// Waiting events are drained, with room for so many. A record can say a drain of all, and [`EVENTS`] are all.
    ///
    /// # Errors
    ///
    /// A [`RecordError`].
    fn drain(&mut self, room: usize) -> Result<(), RecordError> {
        if room < EVENTS {
            return Err(RecordError::Some);
        }
        self.take(Record::Drain)
    }
}

impl sealed::Sealed for Recorder {}

impl Recording for Recorder {
    fn take(&mut self, record: Record) -> Result<(), RecordError> {
        Recorder::take(self, record)
    }

    fn records(&self) -> u64 {
        self.len() as u64
    }

    fn close_block(&mut self) -> Result<(), RecordError> {
        Recorder::close_block(self)
    }
}

/// Takes calls and makes a [`Trace`] of them: at most 4,000 records in at most 64 blocks, and so never more than 64 KiB.
///
/// What it finishes plays to the same bytes as the day: it takes what a record can say, and refuses all else.
///
/// ```
/// use pch_pic::{reg, RecordError, Recorder, Window};
///
/// let (mut recorder, window) = (Recorder::new(), Window::at(0x1000_0000));
/// recorder.write(window, window.base + reg::MASK, 4, 0)?;
/// recorder.close_block()?;
/// recorder.raise(5)?;
/// recorder.drain(16)?;
/// assert!(matches!(recorder.read(window, window.base + 0x400, 4), Err(RecordError::Refused)));
/// let trace = recorder.finish()?;
/// assert!(trace.blocks().eq([1, 2]));
/// # Ok::<(), RecordError>(())
/// ```
#[derive(Debug)]
pub struct Recorder {
    /// The records, [`RECORD_LEN`] bytes each.
    records: Vec<u8>,
    /// How many records each closed block has.
    blocks: Vec<u16>,
    /// How many come behind the last closed one.
    open: u16,
    /// How many each block is to have, where that is planned.
    plan: Vec<u16>,
    /// Where a planned day is kept as it goes, and its times.
    file: Option<File>,
    times_file: Option<File>,
    /// What tells the time of a record, and what it told of each.
    clock: Option<fn() -> u64>,
    times: Vec<u64>,
}

/// The bytes of a time.
const TIME_LEN: usize = 8;

/// Nanoseconds by the system's own clock that never goes back, for [`Recorder::with_clock`]. They count from the first call on.
pub fn monotonic() -> u64 {
    static FIRST: OnceLock<Instant> = OnceLock::new();
    FIRST.get_or_init(Instant::now).elapsed().as_nanos() as u64
}

impl Default for Recorder {
    fn default() -> Self {
        Recorder::new()
    }
}

impl Recorder {
    /// A day whose blocks are closed as it goes.
    pub fn new() -> Self {
        Recorder {
            records: Vec::new(),
            blocks: Vec::new(),
            open: 0,
            plan: Vec::new(),
            file: None,
            times_file: None,
            clock: None,
            times: Vec::new(),
        }
    }

    /// A day with its blocks planned: how many records each is to have. Each is closed when it has them.
    ///
    /// # Errors
    ///
    /// [`RecordError::Plan`].
    pub fn planned(plan: &[u16]) -> Result<Self, RecordError> {
        if plan.is_empty() || plan.len() > BLOCKS_MAX || plan.contains(&0) {
            return Err(RecordError::Plan);
        }
        let recorder = Recorder { plan: plan.to_vec(), ..Recorder::new() };
        if recorder.most() > RECORDS_MAX {
            return Err(RecordError::Plan);
        }
        Ok(recorder)
    }

    /// A planned day that is kept in a file as it goes.
    ///
    /// The file has the planned contents from the start and zeros for its records, which are bad ones; each record is written at its place as it is
    /// taken, and each full block is then put on the disk. So a day that is cut short leaves a file whose contents are right: loading it gives
    /// [`Error::Record`](crate::Error::Record) with the number of the first record that is not there, and every block that was full is whole. The file is made whole or not at
    /// all, and one that was there is replaced. [`Recorder::sync`] ends the day.
    ///
    /// # Errors
    ///
    /// [`RecordError::Plan`], else [`RecordError::Io`].
    pub fn kept(plan: &[u16], path: impl AsRef<Path>) -> Result<Self, RecordError> {
        let recorder = Recorder::planned(plan)?;
        let mut bytes = contents_of(plan);
        bytes.resize(bytes.len() + RECORD_LEN * recorder.most(), 0);
        let file = replace::replace(path.as_ref(), &bytes)?;
        Ok(Recorder { file: Some(file), ..recorder })
    }

    /// Keeps the time of each record too: the clock is asked as each is taken, and tells nanoseconds from any beginning; it is not to go back. [`monotonic`]
    /// is the system's own.
    ///
    /// ```
    /// use pch_pic::{monotonic, Recorded, Recorder};
    ///
    /// let mut day = Recorded::with_recorder(Recorder::new().with_clock(monotonic)?)?;
    /// let _ = day.set_level(5, true)?;
    /// let _ = day.set_level(5, false)?;
    /// let times = day.recorder().times().unwrap();
    /// assert!(times.len() == 2 && times[0] <= times[1]);
    /// # Ok::<(), Box<dyn std::error::Error>>(())
    /// ```
    ///
    /// # Errors
    ///
    /// [`RecordError::Started`] where there are records already.
    pub fn with_clock(self, clock: fn() -> u64) -> Result<Self, RecordError> {
        if !self.is_empty() {
            return Err(RecordError::Started);
        }
        Ok(Recorder { clock: Some(clock), ..self })
    }

    /// The time of each record, where a clock tells it.
    pub fn times(&self) -> Option<&[u64]> {
        self.clock.map(|_| &self.times[..])
    }

    /// The times to a file beside the trace at `path`, of the same name and `.times`: eight bytes for each record, little end first. `tools/day` then tells waits
    /// in milliseconds. The file is replaced whole or not at all.
    ///
    /// # Errors
    ///
    /// [`RecordError::Empty`] where there is no record, or no clock; else [`RecordError::Io`].
    pub fn save_times(&self, path: impl AsRef<Path>) -> Result<(), RecordError> {
        let times = self.times().filter(|times| !times.is_empty()).ok_or(RecordError::Empty)?;
        let bytes: Vec<u8> = times.iter().flat_map(|time| time.to_le_bytes()).collect();
        replace::replace(&times_beside(path.as_ref()), &bytes)?;
        Ok(())
    }

    /// Keeps the times of a day that is [kept](Recorder::kept) at `path` beside it, as it goes: the file grows, and is on the disk up to each full block.
    pub(crate) fn keep_times(self, path: &Path) -> Result<Self, RecordError> {
        let times_file = Some(replace::replace(&times_beside(path), &[])?);
        Ok(Recorder { times_file, ..self })
    }

    /// How many records were taken.
    pub fn len(&self) -> usize {
        self.records.len() / RECORD_LEN
    }

    /// Whether none was.
    pub fn is_empty(&self) -> bool {
        self.records.is_empty()
    }

    /// How many records there can be.
    fn most(&self) -> usize {
        if self.plan.is_empty() {
            RECORDS_MAX
        } else {
            self.plan.iter().map(|records| usize::from(*records)).sum()
        }
    }

    /// Whether it takes no more: all records are there, or all blocks are closed.
    pub(crate) fn is_full(&self) -> bool {
        self.len() == self.most() || self.blocks.len() == BLOCKS_MAX
    }

    /// An input's line goes up.
    ///
    /// # Errors
    ///
    /// A [`RecordError`], and so for all that take a call.
    pub fn raise(&mut self, input: u64) -> Result<(), RecordError> {
        Recording::raise(self, input)
    }

    /// An input's line goes down.
    ///
    /// # Errors
    ///
    /// A [`RecordError`].
    pub fn lower(&mut self, input: u64) -> Result<(), RecordError> {
        Recording::lower(self, input)
    }

    /// An input is asked for.
    ///
    /// # Errors
    ///
    /// A [`RecordError`].
    pub fn poll(&mut self, input: u64) -> Result<(), RecordError> {
        Recording::poll(self, input)
    }

    /// The guest reads `width` bytes. What is recorded is the offset in the window; a call that this window refuses is taken only where playing gives the
    /// same refusal.
    ///
    /// # Errors
    ///
    /// A [`RecordError`].
    pub fn read(&mut self, window: Window, address: u64, width: u64) -> Result<(), RecordError> {
        Recording::read(self, window, address, width)
    }

    /// The guest writes.
    ///
    /// # Errors
    ///
    /// A [`RecordError`].
    pub fn write(&mut self, window: Window, address: u64, width: u64, value: u64) -> Result<(), RecordError> {
        Recording::write(self, window, address, width, value)
    }

    /// Waiting events are drained, with room for so many. A record can say a drain of all, and [`EVENTS`] are all.
    ///
    /// # Errors
    ///
    /// A [`RecordError`].
    pub fn drain(&mut self, room: usize) -> Result<(), RecordError> {
        Recording::drain(self, room)
    }

    /// Takes a record as it is.
    ///
    /// # Errors
    ///
    /// A [`RecordError`].
    pub fn take(&mut self, record: Record) -> Result<(), RecordError> {
        if self.len() == self.most() {
            return Err(RecordError::Full);
        }
        if self.blocks.len() == BLOCKS_MAX {
            return Err(RecordError::Blocks);
        }
        let full = self.plan.get(self.blocks.len()) == Some(&(self.open + 1));
        let time = self.clock.map(|clock| clock());
        self.keep(record, time, full)?;
        self.records.extend(record.to_bytes());
        self.times.extend(time);
        self.open += 1;
        if full {
            self.end_block();
        }
        Ok(())
    }

    /// Writes a record at its place in the file, and its time before it; a full block goes to the disk, so that it outlasts a lost power.
    fn keep(&self, record: Record, time: Option<u64>, full: bool) -> io::Result<()> {
        if let (Some(file), Some(time)) = (&self.times_file, time) {
            put(file, TIME_LEN * self.times.len(), &time.to_le_bytes(), full)?;
        }
        match &self.file {
            Some(file) => put(file, contents_len(self.plan.len()) + self.records.len(), &record.to_bytes(), full),
            None => Ok(()),
        }
    }

    fn end_block(&mut self) {
        self.blocks.push(self.open);
        self.open = 0;
    }

    /// Ends the block that is open; the next record begins another. Where the blocks are planned this is not asked for.
    ///
    /// # Errors
    ///
    /// [`RecordError::Planned`], or [`RecordError::Empty`] where no record is in it.
    pub fn close_block(&mut self) -> Result<(), RecordError> {
        if !self.plan.is_empty() {
            return Err(RecordError::Planned);
        }
        if self.open == 0 {
            return Err(RecordError::Empty);
        }
        self.end_block();
        Ok(())
    }

    /// Puts all that was taken on the disk, where the day is [kept](Recorder::kept) in a file; full blocks are there already.
    ///
    /// # Errors
    ///
    /// Those of the file system.
    pub fn sync(&self) -> io::Result<()> {
        for file in [&self.times_file, &self.file].into_iter().flatten() {
            file.sync_all()?;
            cut::synced(file);
        }
        Ok(())
    }

    /// The trace of what was taken so far. A block that is open ends with its last record, and blocks that are planned and not begun are left out, so this is
    /// a good trace at any time from the first record on; the recorder may go on. The file of a day that is [kept](Recorder::kept) stays as it is:
    /// [`Trace::save`] replaces it where fewer records came than were planned.
    ///
    /// # Errors
    ///
    /// [`RecordError::Empty`].
    pub fn finish(&self) -> Result<Trace, RecordError> {
        if self.is_empty() {
            return Err(RecordError::Empty);
        }
        let mut blocks = self.blocks.clone();
        blocks.extend((self.open != 0).then_some(self.open));
        let bytes = [contents_of(&blocks), self.records.clone()].concat();
        debug_assert!(bytes.len() <= TRACE_MAX);
        Ok(Trace::try_from(bytes).expect("what a recorder takes is a good trace"))
    }
}

/// Each time from the start of the file: of bytes that were written in part nothing may stay between two others.
fn put(mut file: &File, place: usize, bytes: &[u8], synced: bool) -> io::Result<()> {
    file.seek(SeekFrom::Start(place as u64))?;
    file.write_all(bytes)?;
    cut::taken();
    if synced {
        file.sync_data()?;
        cut::synced(file);
    }
    Ok(())
}

fn byte(number: u64) -> Result<u8, RecordError> {
    u8::try_from(number).map_err(|_| RecordError::Byte)
}

/// Whether an access is inside a window; none is that reaches address 2^64 - 1.
fn inside(window: Window, address: u64, width: u8) -> bool {
    let [base, size, address, width] = [window.base, window.size, address, u64::from(width)].map(u128::from);
    address >= base && address + width <= (base + size).min(u128::from(u64::MAX))
}

/// The offset and the width of an access that plays to the same bytes. One of an unknown width is refused by every window alike. One that is outside is
/// refused with its address, which is the offset only where the base is 0; and it may be inside the larger window that a trace is played in.
fn access(window: Window, address: u64, width: u64) -> Result<(u16, u8), RecordError> {
    let offset = address.checked_sub(window.base).and_then(|offset| u16::try_from(offset).ok()).ok_or(RecordError::Offset)?;
    let width = byte(width)?;
    let (here, there) = (inside(window, address, width), inside(PLAYED, u64::from(offset), width));
    let known = Width::try_from(usize::from(width)).is_ok();
    if !known || (here && there) || (!here && !there && window.base == 0) {
        Ok((offset, width))
    } else {
        Err(RecordError::Refused)
    }
}
