//! A day of several traces, read from its folder or from the files that are named: checked, and given one trace after another.
//!
//! [`list`] has the rules of a folder. One trace is in memory at a time, however long the day is. The first plays from a reset, and each other on what the one before left.
//!
//! ```no_run
//! use pch_pic::day::Day;
//!
//! let day = Day::open("bench/monday")?;
//! for part in day.parts() {
//!     let part = part?;
//!     println!("{}: {} records", part.path.display(), part.trace.records().len());
//! }
//! println!("{}", day.sheet()?);
//! # Ok::<(), pch_pic::day::DayError>(())
//! ```

use crate::holes::{self, Hole, HolesError};
use crate::list::{self, Fault, List};
use crate::sheet::LongSheet;
use crate::{replace, trace, Error, Form, Image, PchPic, Played, Tally, Trace, RECORDS_MAX};
use core::fmt;
use std::fs;
use std::io;
use std::path::{Path, PathBuf};

/// Why a day is not read, in one line with the file's name.
#[derive(Debug)]
#[non_exhaustive]
pub enum DayError {
    /// A file or folder cannot be read.
    Io(PathBuf, io::Error),
    /// A folder is no day, or no whole one.
    Fault(PathBuf, Fault),
    /// A file is no good trace: [`Error::Trace`] or [`Error::Record`], and its cause.
    Refused(PathBuf, Error, Option<String>),
    /// The list of a trace's holes.
    Holes(PathBuf, HolesError),
    /// A trace that has holes comes before another: behind a hole nothing is the day's.
    Behind(PathBuf),
    /// The times of a trace, and what is wrong with them.
    Times(PathBuf, String),
    /// A file is named twice.
    Twice(PathBuf),
    /// A folder is named among several.
    Among(PathBuf),
    /// The day counts more than a tally can.
    Tally(Error),
}

impl fmt::Display for DayError {
    fn fmt(&self, f: &mut fmt::Formatter<'_>) -> fmt::Result {
        match self {
            DayError::Io(path, why) => write!(f, "{}: {why}", path.display()),
            DayError::Fault(path, why) => write!(f, "{}: {why}", path.display()),
            DayError::Refused(path, why, Some(cause)) => write!(f, "{}: refused with {}: {cause}", path.display(), why.number()),
            DayError::Refused(path, why, None) => write!(f, "{}: refused with {}: {why}", path.display(), why.number()),
            DayError::Holes(path, why) => write!(f, "{}: {why}", path.display()),
            DayError::Behind(path) => {
                write!(f, "{}: it has a hole, and is not the last trace: behind a hole nothing is the day's", path.display())
            }
            DayError::Times(path, why) => write!(f, "{}: {why}", path.display()),
            DayError::Twice(path) => write!(f, "{}: it is there twice, and a day has each trace once", path.display()),
            DayError::Among(path) => write!(f, "{}: a folder is a day of its own, and stands alone", path.display()),
            DayError::Tally(why) => write!(f, "refused with {}: {why}", why.number()),
        }
    }
}

impl std::error::Error for DayError {}

/// A trace of a day.
#[derive(Clone, Debug)]
pub struct Part {
    /// Its file.
    pub path: PathBuf,
    /// The trace.
    pub trace: Trace,
    /// When each record was, in nanoseconds by the recorder's own clock, where that was kept.
    pub times: Option<Vec<u64>>,
    /// Its holes, counted within it; only the last trace of a day has any.
    pub holes: Vec<Hole>,
}

/// A day: its traces in their order. The files are read as they are asked for, and checked each time.
#[derive(Clone, Debug)]
pub struct Day {
    folder: PathBuf,
    /// None where the traces were named.
    list: Option<List>,
    /// The bytes of the list.
    text: Vec<u8>,
    paths: Vec<PathBuf>,
}

/// Whatever the day's length, its list has no more: 99,999 lines.
const LIST_MAX: u64 = 8_000_000;

fn bytes_of(path: &Path, most: u64) -> Result<Vec<u8>, DayError> {
    let mut bytes = Vec::new();
    let read = replace::open_plain(path).and_then(|file| io::Read::read_to_end(&mut io::Read::take(file, most), &mut bytes));
    read.map_err(|why| DayError::Io(path.into(), why))?;
    Ok(bytes)
}

/// What tells two files apart, whatever their names and links are.
#[cfg(unix)]
fn same(path: &Path) -> io::Result<(u64, u64)> {
    use std::os::unix::fs::MetadataExt;
    fs::metadata(path).map(|found| (found.dev(), found.ino()))
}

#[cfg(not(unix))]
fn same(path: &Path) -> io::Result<PathBuf> {
    fs::canonicalize(path)
}

impl Day {
    /// The day of a folder. Its list is read, and the names in it are held to that.
    ///
    /// # Errors
    ///
    /// A [`DayError`].
    pub fn open(folder: impl AsRef<Path>) -> Result<Self, DayError> {
        let folder = folder.as_ref();
        let (name, fault) = (folder.join(list::NAME), |why| DayError::Fault(folder.into(), why));
        if !name.exists() {
            return Err(fault(Fault::NoList));
        }
        let text = bytes_of(&name, LIST_MAX)?;
        let list = List::parse(&text).map_err(fault)?;
        let read = || fs::read_dir(folder)?.map(|entry| Ok(entry?.file_name())).collect::<io::Result<Vec<_>>>();
        let names = read().map_err(|why| DayError::Io(folder.into(), why))?;
        let traces = list.traces(names.iter().filter_map(|name| name.to_str())).map_err(fault)?;
        let paths = (1..=traces).map(|number| folder.join(list::name(number))).collect();
        Ok(Day { folder: folder.into(), list: Some(list), text, paths })
    }

    /// The day of these traces, in this order. Of several each is to be a plain file, and another one.
    ///
    /// # Errors
    ///
    /// [`DayError::Among`], [`DayError::Twice`] or [`DayError::Io`]; [`DayError::Fault`] where there is none.
    pub fn of<P: AsRef<Path>>(paths: &[P]) -> Result<Self, DayError> {
        let paths: Vec<PathBuf> = paths.iter().map(|path| path.as_ref().to_path_buf()).collect();
        let mut seen = Vec::new();
        for path in paths.iter().filter(|_| paths.len() > 1) {
            if path.is_dir() {
                return Err(DayError::Among(path.clone()));
            }
            replace::open_plain(path).map_err(|why| DayError::Io(path.clone(), why))?;
            seen.push((same(path).map_err(|why| DayError::Io(path.clone(), why))?, path));
        }
        seen.sort();
        if let Some(twice) = seen.windows(2).find(|pair| pair[0].0 == pair[1].0) {
            return Err(DayError::Twice(twice[1].1.clone()));
        }
        if paths.is_empty() {
            return Err(DayError::Fault(PathBuf::new(), Fault::Empty));
        }
        Ok(Day { folder: PathBuf::new(), list: None, text: Vec::new(), paths })
    }

    /// The list, where the day is a folder, and its bytes.
    pub fn list(&self) -> Option<(&List, &[u8])> {
        self.list.as_ref().map(|list| (list, &self.text[..]))
    }

    /// The files of its traces, in their order.
    pub fn paths(&self) -> &[PathBuf] {
        &self.paths
    }

    /// The trace in one of [these files](Day::paths), counted from 0, read and checked, with what stands beside it.
    ///
    /// # Errors
    ///
    /// A [`DayError`].
    pub fn part(&self, at: usize) -> Result<Part, DayError> {
        let path = &self.paths[at];
        let (trace, last) = (self.trace(at)?, at + 1 == self.paths.len());
        let holes = holes::load(path, trace.as_bytes()).map_err(|why| DayError::Holes(holes::beside(path), why))?;
        if !last && !holes.is_empty() {
            return Err(DayError::Behind(path.clone()));
        }
        let times = times(path, trace.records().len())?;
        Ok(Part { path: path.clone(), trace, times, holes })
    }

    fn trace(&self, at: usize) -> Result<Trace, DayError> {
        let path = &self.paths[at];
        let bytes = trace::bytes_of(path).map_err(|why| DayError::Io(path.clone(), why))?;
        match &self.list {
            Some(list) => list.trace(at + 1, bytes).map_err(|why| DayError::Fault(self.folder.clone(), why)),
            None => checked(path, bytes),
        }
    }

    /// The traces one after another, each read as it is asked for.
    pub fn parts(&self) -> impl Iterator<Item = Result<Part, DayError>> + '_ {
        (0..self.paths.len()).map(|at| self.part(at))
    }

    /// Plays the day: each trace on what the one before left. What each gave is handed out before the next is read.
    ///
    /// # Errors
    ///
    /// A [`DayError`]; traces before the one that it names were handed out.
    pub fn play(&self, mut each: impl FnMut(&Part, &Played<'_>)) -> Result<PchPic, DayError> {
        let mut image: Image = PchPic::new().save(Form::Numbered);
        for part in self.parts() {
            let part = part?;
            let played = part.trace.play_on(&image);
            each(&part, &played);
            image = played.image().clone();
        }
        Ok(image.into())
    }

    /// Counts the day by the library's own tally.
    ///
    /// # Errors
    ///
    /// A [`DayError`].
    pub fn sheet(&self) -> Result<LongSheet, DayError> {
        let (mut tally, mut before) = (Tally::new(), PchPic::new());
        let mut counted = Ok(());
        self.play(|part, played| {
            counted = counted.and_then(|()| tally.add(&part.trace, &before));
            before = played.pic();
        })?;
        counted.and_then(|()| tally.sheet()).map_err(DayError::Tally)
    }
}

/// A good trace of these bytes.
fn checked(path: &Path, bytes: Vec<u8>) -> Result<Trace, DayError> {
    let cause = holes::cause(&bytes);
    Trace::try_from(bytes).map_err(|why| DayError::Refused(path.into(), why, cause.filter(|_| why == Error::Trace)))
}

/// The name of the times of a trace.
pub fn times_beside(path: &Path) -> PathBuf {
    let mut name = path.as_os_str().to_owned();
    name.push(".times");
    name.into()
}

/// More than the times of a trace have, so that a longer file is seen.
const TIMES_MOST: u64 = 8 * RECORDS_MAX as u64 + 1;

/// When each record was, by the file beside the trace: eight bytes each, little end first. None where there is no such file.
fn times(path: &Path, records: usize) -> Result<Option<Vec<u64>>, DayError> {
    let name = times_beside(path);
    if !name.exists() {
        return Ok(None);
    }
    let bytes = bytes_of(&name, TIMES_MOST)?;
    if bytes.len() as u64 == TIMES_MOST {
        return Err(DayError::Times(name, "it is longer than the times of any trace".into()));
    }
    list::times(&bytes, records).map(Some).map_err(|why| DayError::Times(name, why))
}
