//! The program of tools/day: a trace, or a day of several, as one page with a picture of it.
//!
//! `gather.rs` goes through the day, one trace in memory at a time, and `lanes.rs` has what it finds: all that is to be drawn; `findings.rs` tells what stands out, `words.rs` a
//! record in words; `picture.rs` draws, and `page.rs` fills in page.html, with page.css and page.js in it. Files are opened here alone.

mod findings;
mod gather;
mod lanes;
mod page;
mod picture;
mod text;
mod words;

use gather::{Part, Source};
use pch_pic::day::{Day, DayError, times_beside};
use pch_pic::holes::{self, digest};
use pch_pic::{Error, Trace};
use std::collections::BTreeMap;
use std::ffi::OsString;
use std::io::{self, Write};
use std::path::Path;
use std::process::ExitCode;
use text::Asked;

/// A file's name as it is told: on one line, whatever is in it.
fn shown(path: &Path) -> String {
    path.to_string_lossy().chars().map(|letter| if letter.is_control() { '?' } else { letter }).collect()
}

/// The names of inputs that a file has.
fn names(path: &Path) -> Result<BTreeMap<usize, String>, String> {
    let text = std::fs::read_to_string(path).map_err(|why| format!("{}: {why}", shown(path)))?;
    text::names(&shown(path), &text)
}

/// One line, whatever names are in it.
fn told(why: DayError) -> String {
    shown(Path::new(&why.to_string()))
}

/// The files of a day, or standard input, which is one trace. The trace that was read last is kept: what comes by a pipe is read once.
struct Files {
    day: Option<Day>,
    last: Option<(usize, Part)>,
}

impl Files {
    fn open(paths: &[&Path]) -> Result<Self, String> {
        let day = match paths {
            [one] if *one == Path::new("-") => None,
            [one] if one.is_dir() => Some(Day::open(one).map_err(told)?),
            _ => Some(Day::of(paths).map_err(told)?),
        };
        Ok(Files { day, last: None })
    }

    fn read(&self, at: usize) -> Result<Part, String> {
        let Some(day) = &self.day else { return Ok(Part { name: STDIN.into(), trace: piped()?, times: None, holes: Vec::new() }) };
        let part = day.part(at).map_err(told)?;
        let name = shown(Path::new(part.path.file_name().unwrap_or_default()));
        Ok(Part { name, trace: part.trace, times: part.times, holes: part.holes })
    }

    /// The name of the file that would have the times of a trace.
    fn times(&self, at: usize) -> String {
        let beside = |day: &Day| shown(&times_beside(&day.paths()[at]));
        self.day.as_ref().map_or(format!("{STDIN}.times"), beside)
    }
}

impl Source for Files {
    fn traces(&self) -> usize {
        self.day.as_ref().map_or(1, |day| day.paths().len())
    }

    fn part(&mut self, at: usize) -> Result<&Part, String> {
        let kept = self.last.take().filter(|(last, _)| *last == at);
        let part = match kept {
            Some((_, part)) => part,
            None => self.read(at)?,
        };
        Ok(&self.last.insert((at, part)).1)
    }

    fn ended(&self) -> Option<bool> {
        self.day.as_ref().and_then(|day| Some(day.list()?.0.ended()))
    }
}

const STDIN: &str = "standard input";

/// The trace that comes by standard input. It has no files beside it.
fn piped() -> Result<Trace, String> {
    let bytes = holes::read("/dev/stdin").map_err(|why| format!("{STDIN}: {why}"))?;
    let cause = holes::cause(&bytes);
    Trace::try_from(bytes).map_err(|why| {
        let cause = cause.filter(|_| why == Error::Trace);
        format!("{STDIN}: refused with {}: {}", why.number(), cause.unwrap_or_else(|| why.to_string()))
    })
}

/// What the page calls a day.
fn called(files: &[&Path]) -> String {
    let name = |path: &Path| {
        let whole = path.canonicalize().ok().filter(|_| path.file_name().is_none());
        shown(Path::new(whole.as_deref().unwrap_or(path).file_name().unwrap_or_default()))
    };
    match files {
        [one] if *one == Path::new("-") => STDIN.into(),
        [first, more @ ..] if !more.is_empty() => format!("{} and {} more", name(first), more.len()),
        files => files.first().map_or(String::new(), |path| name(path)),
    }
}

/// The words, which tools/day has tested: `[--limit N] [--limit-ms N] [--coarse N] [--from N] [--to N] [--names FILE] [--title TEXT] [--date TEXT] [--version TEXT] DAY..`.
fn asked(words: &[OsString]) -> Result<(Asked, Vec<&Path>), String> {
    let mut asked = Asked {
        title: String::new(),
        file: String::new(),
        play: String::new(),
        list: None,
        date: None,
        version: String::new(),
        names: BTreeMap::new(),
        limit: None,
        limit_ms: None,
        coarse: 1,
        part: 0..usize::MAX,
    };
    let (mut files, mut words) = (Vec::new(), words.iter());
    while let Some(word) = words.next() {
        let mut value = || words.next().ok_or_else(|| format!("{} wants a value", word.to_string_lossy()));
        let number = |word: &OsString| word.to_str().and_then(|word| word.parse().ok()).ok_or("a limit wants a number");
        match word.to_str() {
            Some("--limit") => asked.limit = Some(number(value()?)? as usize),
            Some("--limit-ms") => asked.limit_ms = Some(number(value()?)?),
            Some("--coarse") => asked.coarse = number(value()?)? as usize,
            Some("--from") => asked.part.start = number(value()?)? as usize,
            Some("--to") => asked.part.end = (number(value()?)? as usize).saturating_add(1),
            Some("--names") => asked.names = names(Path::new(value()?))?,
            Some("--title") => asked.title = shown(Path::new(value()?)),
            Some("--date") => asked.date = Some(shown(Path::new(value()?))),
            Some("--version") => asked.version = shown(Path::new(value()?)),
            _ => files.push(Path::new(word)),
        }
    }
    asked.file = called(&files);
    asked.play = files.iter().map(|path| shown(path)).collect::<Vec<_>>().join(" ");
    if asked.title.is_empty() {
        asked.title = asked.file.clone();
    }
    Ok((asked, files))
}

fn page(words: &[OsString]) -> Result<String, String> {
    let (mut asked, paths) = asked(words)?;
    let mut files = Files::open(&paths)?;
    asked.list = files.day.as_ref().and_then(|day| Some(digest(day.list()?.1)));
    let mut day = gather::day(&asked, &mut files)?;
    if let Some(at) = day.traces.iter().position(|told| !told.timed).filter(|_| asked.limit_ms.is_some()) {
        return Err(format!("--limit-ms wants the times of the records, and there is no {}", files.times(at)));
    }
    day.holds()?;
    page::page(&asked, &mut day, &mut files)
}

/// A reader that has closed its pipe ends it quietly, as the signal would.
const NO_READER: u8 = 128 + 13;

fn main() -> ExitCode {
    let words: Vec<OsString> = std::env::args_os().skip(1).collect();
    let page = match page(&words) {
        Ok(page) => page,
        Err(why) => {
            eprintln!("day: {why}");
            return ExitCode::FAILURE;
        }
    };
    let mut out = io::stdout().lock();
    match out.write_all(page.as_bytes()).and_then(|()| out.flush()) {
        Ok(()) => ExitCode::SUCCESS,
        Err(why) if why.kind() == io::ErrorKind::BrokenPipe => ExitCode::from(NO_READER),
        Err(why) => {
            eprintln!("day: standard output: {why}");
            ExitCode::FAILURE
        }
    }
}
