//! The files that were handed over, and the day that they are: by the same rules and in the same words as tools/day has them, and without a file system.

use crate::gather::{Part, Source};
use crate::text;
use pch_pic::day::DayError;
use pch_pic::holes;
use pch_pic::list::{self, Fault, List};
use pch_pic::{Error, Form, Image, PchPic, RECORD_LEN, RECORDS_MAX, Trace};
use std::collections::BTreeMap;
use std::path::{Path, PathBuf};

/// A file by its name, with the folder before it where it came in one.
pub struct File {
    pub name: String,
    pub bytes: Vec<u8>,
}

/// What a file's name says of it.
#[derive(Clone, Copy, PartialEq, Eq)]
enum Kind {
    List,
    Trace,
    /// The times or the holes of a trace.
    Beside,
    Names,
}

impl File {
    /// The folder that it came in, and its own name.
    fn parts(&self) -> (&str, &str) {
        self.name.rsplit_once('/').unwrap_or(("", &self.name))
    }

    /// In a folder only what a day has is looked at, and a file of names.
    fn kind(&self) -> Option<Kind> {
        let (folder, name) = self.parts();
        match name.rsplit_once('.').map_or("", |(_, end)| end) {
            _ if name == list::NAME => Some(Kind::List),
            "times" | "holes" => Some(Kind::Beside),
            "names" => Some(Kind::Names),
            "trace" => Some(Kind::Trace),
            _ if !folder.is_empty() => None,
            "txt" => Some(Kind::Names),
            _ => Some(Kind::Trace),
        }
    }
}

/// A day that can be gone through: its traces, and the image before each.
pub struct Opened {
    /// What the day is called: the folder, or its traces.
    pub name: String,
    /// The files of its traces.
    pub files: Vec<String>,
    list: Option<List>,
    /// The SHA-256 of the list.
    digest: Option<String>,
    parts: Vec<Part>,
    /// The number of the first record of each trace, and the device as it stood before it.
    starts: Vec<(usize, Image)>,
    records: usize,
    names: BTreeMap<usize, String>,
}

/// The file of this name, of files that are sorted by it.
fn named<'a>(files: &'a [File], name: &str) -> Option<&'a File> {
    files.binary_search_by(|file| file.name.as_str().cmp(name)).ok().map(|at| &files[at])
}

/// The day that these files are, or why they are none, in one line.
pub fn open(mut files: Vec<File>) -> Result<Opened, String> {
    files.sort_by(|one, other| one.name.cmp(&other.name));
    let told = |why: DayError| why.to_string();
    if let Some(twice) = files.windows(2).find(|pair| pair[0].name == pair[1].name) {
        return Err(told(DayError::Twice(twice[1].name.clone().into())));
    }
    let names = names(&files)?;
    let folder = folder(&files).map_err(told)?;
    let (list, traces) = match &folder {
        Some(folder) => listed(&files, folder).map_err(|why| told(DayError::Fault(shown(folder), why)))?,
        None => (None, loose(&files)?),
    };
    let digest = folder.as_ref().and_then(|folder| Some(holes::digest(&named(&files, &within(folder, list::NAME))?.bytes)));
    let mut opened = Opened { name: String::new(), files: traces, list, digest, parts: Vec::new(), starts: Vec::new(), records: 0, names };
    let mut image = PchPic::new().save(Form::Numbered);
    for at in 0..opened.files.len() {
        let part = part(&files, &opened, folder.as_deref(), at).map_err(told)?;
        let next = part.trace.play_on(&image).image().clone();
        opened.starts.push((opened.records, image));
        opened.records += part.trace.records().len();
        opened.parts.push(part);
        image = next;
    }
    opened.name = called(folder.as_deref(), &opened.parts);
    Ok(opened)
}

/// What the page calls the day.
fn called(folder: Option<&str>, parts: &[Part]) -> String {
    match (folder, parts) {
        (Some(folder), _) => shown(folder).to_string_lossy().into_owned(),
        (None, [first, more @ ..]) if !more.is_empty() => format!("{} and {} more", first.name, more.len()),
        (None, parts) => parts.first().map_or(String::new(), |part| part.name.clone()),
    }
}

/// A file's name in a folder.
fn within(folder: &str, name: &str) -> String {
    if folder.is_empty() { name.to_string() } else { format!("{folder}/{name}") }
}

/// Names in the order in which people count: 2 before 10, in every number of a name. Each is what stands before it, and the number.
fn in_order(name: &str) -> (Vec<(&str, usize)>, &str) {
    let (mut runs, mut rest) = (Vec::new(), name);
    while !rest.is_empty() {
        let (front, behind) = rest.split_at(rest.find(|letter: char| letter.is_ascii_digit()).unwrap_or(rest.len()));
        let (digits, more) = behind.split_at(behind.find(|letter: char| !letter.is_ascii_digit()).unwrap_or(behind.len()));
        runs.push((front, if digits.is_empty() { 0 } else { digits.parse().unwrap_or(usize::MAX) }));
        rest = more;
    }
    (runs, name)
}

/// How a folder is told; files of a day that came without theirs have none.
fn shown(folder: &str) -> PathBuf {
    PathBuf::from(if folder.is_empty() { "the day" } else { folder })
}

/// The folder that is the day, if it is one: that of the list, or one that was handed over with traces. Of several none is.
fn folder(files: &[File]) -> Result<Option<String>, DayError> {
    let mut folders: Vec<&str> = files.iter().filter(|file| file.kind() != Some(Kind::Names)).map(|file| file.parts().0).collect();
    folders.sort_unstable();
    folders.dedup();
    match folders[..] {
        [] => Ok(None),
        [""] => Ok(named(files, list::NAME).map(|_| String::new())),
        [one] => Ok(Some(one.into())),
        [.., last] => Err(DayError::Among(last.into())),
    }
}

/// The names of inputs, of the one file that has them.
fn names(files: &[File]) -> Result<BTreeMap<usize, String>, String> {
    let mut found = files.iter().filter(|file| file.kind() == Some(Kind::Names));
    let Some(file) = found.next() else { return Ok(BTreeMap::new()) };
    if let Some(other) = found.next() {
        return Err(format!("{}: {} has names of inputs already", other.name, file.name));
    }
    let told = &file.name;
    let text = str::from_utf8(&file.bytes).map_err(|_| format!("{told}: stream did not contain valid UTF-8"))?;
    text::names(told, text)
}

/// Of a folder the list, and the names of its traces.
fn listed(files: &[File], folder: &str) -> Result<(Option<List>, Vec<String>), Fault> {
    let list = List::parse(&named(files, &within(folder, list::NAME)).ok_or(Fault::NoList)?.bytes)?;
    let names = files.iter().filter(|file| file.kind() == Some(Kind::Trace)).map(|file| file.parts().1);
    let traces = list.traces(names)?;
    Ok((Some(list), (1..=traces).map(|number| within(folder, &list::name(number))).collect()))
}

/// Traces that came without a list. Whoever hands files over has no say in their order: it is that of their names.
fn loose(files: &[File]) -> Result<Vec<String>, String> {
    let mut traces: Vec<String> = files.iter().filter(|file| file.kind() == Some(Kind::Trace)).map(|file| file.name.clone()).collect();
    traces.sort_by(|one, other| in_order(one).cmp(&in_order(other)));
    let alone = |file: &&File| {
        let of = file.name.rsplit_once('.').map_or("", |(of, _)| of);
        file.kind() == Some(Kind::Beside) && !traces.iter().any(|trace| trace == of)
    };
    if let Some(file) = files.iter().find(alone) {
        return Err(format!("{}: the trace that it stands beside is missing", file.name));
    }
    if traces.is_empty() { Err("there is no trace among these files".into()) } else { Ok(traces) }
}

/// A trace, checked, with what stands beside it.
fn part(files: &[File], opened: &Opened, folder: Option<&str>, at: usize) -> Result<Part, DayError> {
    let name = opened.files[at].as_str();
    let (path, last) = (Path::new(name), at + 1 == opened.files.len());
    let bytes = named(files, name).map(|file| file.bytes.clone()).unwrap_or_default();
    let trace = match &opened.list {
        Some(list) => list.trace(at + 1, bytes).map_err(|why| DayError::Fault(shown(folder.unwrap_or("")), why))?,
        None => checked(path, bytes)?,
    };
    let (holes_name, times_name) = (format!("{name}.holes"), format!("{name}.times"));
    let holes = match named(files, &holes_name) {
        Some(file) => holes::parse(&file.bytes, trace.as_bytes()).map_err(|why| DayError::Holes(holes_name.into(), why))?,
        None => Vec::new(),
    };
    if !last && !holes.is_empty() {
        return Err(DayError::Behind(path.into()));
    }
    let times = match named(files, &times_name) {
        Some(file) => Some(list::times(&file.bytes, trace.records().len()).map_err(|why| DayError::Times(times_name.into(), why))?),
        None => None,
    };
    let name = name.rsplit_once('/').map_or(name, |(_, name)| name).into();
    Ok(Part { name, trace, times, holes })
}

/// A good trace of these bytes.
fn checked(path: &Path, bytes: Vec<u8>) -> Result<Trace, DayError> {
    let cause = holes::cause(&bytes);
    Trace::try_from(bytes).map_err(|why| DayError::Refused(path.into(), why, cause.filter(|_| why == Error::Trace)))
}

impl Source for Opened {
    fn traces(&self) -> usize {
        self.parts.len()
    }

    fn part(&mut self, at: usize) -> Result<&Part, String> {
        self.parts.get(at).ok_or_else(|| "the day has no such trace".into())
    }

    fn ended(&self) -> Option<bool> {
        self.list.as_ref().map(List::ended)
    }
}

impl Opened {
    pub fn records(&self) -> usize {
        self.records
    }

    pub fn names(&self) -> &BTreeMap<usize, String> {
        &self.names
    }

    /// The SHA-256 of the list, where the day has one.
    pub fn list_digest(&self) -> Option<String> {
        self.digest.clone()
    }

    /// The trace that a record is in, and its number there.
    fn within(&self, number: usize) -> Option<(usize, usize)> {
        let at = self.starts.partition_point(|(first, _)| *first <= number).checked_sub(1)?;
        let record = number - self.starts[at].0;
        (record < self.parts[at].trace.records().len()).then_some((at, record))
    }

    /// The device before a record, and that record as a trace of its own: the library plays what comes before it on the image that its trace began with.
    pub fn before(&self, number: usize) -> Option<(PchPic, Trace)> {
        let (at, record) = self.within(number)?;
        let records = || self.parts[at].trace.records();
        let image = &self.starts[at].1;
        let pic = match record {
            0 => PchPic::from(image.clone()),
            _ => trace(records().take(record))?.play_on(image).pic(),
        };
        Some((pic, trace(records().skip(record).take(1))?))
    }

    /// Where a record stands, in words.
    pub fn place(&self, number: usize) -> String {
        let Some((at, record)) = self.within(number) else { return String::new() };
        format!("{}, record {record} of {}", self.parts[at].name, text::counted(self.parts[at].trace.records().len()))
    }

    /// When a record was by the clock, in microseconds from the first time that was kept.
    pub fn time(&self, number: usize) -> Option<u64> {
        let (at, record) = self.within(number)?;
        let first = self.parts.iter().find_map(|part| part.times.as_ref()?.first())?;
        Some(self.parts[at].times.as_ref()?.get(record)?.saturating_sub(*first) / 1000)
    }

    /// Whether a record comes behind a hole.
    pub fn is_wrong(&self, number: usize) -> bool {
        let Some((at, record)) = self.within(number) else { return false };
        self.parts[at].holes.first().is_some_and(|hole| record >= hole.at)
    }
}

/// Records as a trace of one block.
fn trace(records: impl Iterator<Item = pch_pic::Record>) -> Option<Trace> {
    let records: Vec<[u8; RECORD_LEN]> = records.map(pch_pic::Record::to_bytes).collect();
    let count = u16::try_from(records.len()).ok().filter(|count| usize::from(*count) <= RECORDS_MAX)?;
    let mut bytes = vec![1, 0, 6, 0];
    bytes.extend_from_slice(&count.to_le_bytes());
    bytes.extend(records.iter().flatten());
    Trace::try_from(bytes).ok()
}
