//! A day as a trace: session lines recorded; a trace played and printed, each record with its number and its answer; its numbers; a damaged trace salvaged.
//!
//! `day --record FILE [LINES]` makes the trace FILE of the lines, which docs/DEVICE.md tells; - or no word is standard input. `day --play FILE` prints each
//! record of the trace and what it gave, and how many events were dropped; - is standard input. `day --sheet FILE` prints the day's numbers, input by input, as
//! a table, and `day --csv FILE` for a program. `day --salvage FILE TO` makes the trace TO of what comes before the first hole of FILE: the day, exactly, as far
//! as it goes. `day --salvage FILE TO --all` makes it of all blocks of FILE that have no bad record; behind a hole it does not play as the day did. Where
//! something is missing, TO.holes says what, and the others find it there. hosts/c/day.c does the same, and `./run` by it.

use pch_pic::holes::{self, Hole, HolesError, Kept};
use pch_pic::{Error, Record, RecordError, Recorder, Trace, Window, EVENTS};
use std::env;
use std::ffi::OsString;
use std::fmt::Display;
use std::fs;
use std::io::{self, Write};
use std::path::Path;
use std::process::ExitCode;

/// A block of 64 records has 1 KiB, and 63 blocks take the longest day.
const BLOCK: usize = 64;

/// A session has base 0 and 0x400 bytes.
const WINDOW: Window = Window::at(0);

fn path(name: &Path) -> &Path {
    if name == Path::new("-") {
        Path::new("/dev/stdin")
    } else {
        name
    }
}

fn told(name: &Path) -> String {
    if name == Path::new("-") {
        "standard input".into()
    } else {
        name.display().to_string()
    }
}

#[cfg(unix)]
fn one_file(from: &fs::Metadata, to: &fs::Metadata) -> bool {
    use std::os::unix::fs::MetadataExt;
    (from.dev(), from.ino()) == (to.dev(), to.ino())
}

#[cfg(not(unix))]
fn one_file(_: &fs::Metadata, _: &fs::Metadata) -> bool {
    false
}

/// What is read is not to be lost by what is written: one file cannot be both, by whatever names and links.
fn apart(name: &Path, file: &Path) -> Result<(), String> {
    let (from, to) = (fs::metadata(path(name)), fs::metadata(file));
    if from.is_ok_and(|from| from.is_file() && to.is_ok_and(|to| one_file(&from, &to))) {
        return Err(format!("{}: it is what is read, and is not overwritten", file.display()));
    }
    Ok(())
}

/// A number of so many lower-case hex digits.
fn hex(word: &str, digits: usize) -> Option<u64> {
    let right = word.len() == digits && word.bytes().all(|byte| matches!(byte, b'0'..=b'9' | b'a'..=b'f'));
    right.then(|| u64::from_str_radix(word, 16).ok())?
}

/// A line of a session; none where it is no call.
fn take(recorder: &mut Recorder, line: &str) -> Option<Result<(), RecordError>> {
    let words: Vec<_> = line.split(' ').collect();
    Some(match words[..] {
        ["l", input, "1"] => recorder.raise(hex(input, 2)?),
        ["l", input, "0"] => recorder.lower(hex(input, 2)?),
        ["p", input] => recorder.poll(hex(input, 2)?),
        ["r", width, offset] => recorder.read(WINDOW, hex(offset, 4)?, hex(width, 1)?),
        ["w", width, offset, value] => recorder.write(WINDOW, hex(offset, 4)?, hex(width, 1)?, hex(value, 16)?),
        ["d"] => recorder.drain(EVENTS),
        _ => return None,
    })
}

fn at(name: &Path, why: &dyn Display) -> String {
    format!("{}: {why}", told(name))
}

/// The lines of a text; a last one needs no ending, unless it is empty.
fn record(file: &Path, name: &Path) -> Result<(), String> {
    apart(name, file)?;
    let text = fs::read(path(name)).map_err(|why| at(name, &why))?;
    let mut recorder = Recorder::new();
    let lines = text.split_inclusive(|byte| *byte == b'\n').map(|line| line.strip_suffix(b"\n").unwrap_or(line));
    for (number, line) in lines.enumerate() {
        let shown: String = line.iter().map(|byte| if (b' '..=b'~').contains(byte) { char::from(*byte) } else { '?' }).collect();
        let refused = |why: &dyn Display| format!("{}, line {}: '{shown}': {why}", told(name), number + 1);
        let taken = std::str::from_utf8(line).ok().and_then(|line| take(&mut recorder, line));
        taken.ok_or_else(|| refused(&"it is no call"))?.map_err(|why| refused(&why))?;
        if recorder.len() % BLOCK == 0 {
            recorder.close_block().map_err(|why| refused(&why))?;
        }
    }
    let trace = recorder.finish().map_err(|_| at(name, &"there is no call in it, and a trace has one at least"))?;
    trace.save(file).map_err(|why| at(file, &why))
}

/// What a trace is refused for; of refusal 12 the cause.
fn refused(name: &Path, bytes: &[u8], why: Error) -> String {
    let cause = holes::cause(bytes).filter(|_| why == Error::Trace);
    format!("{}: refused with {}: {}", told(name), why.number(), cause.unwrap_or_else(|| why.to_string()))
}

/// A good trace, and its holes by the list beside its file. What comes by a pipe has none beside it.
fn load(name: &Path) -> Result<(Trace, Vec<Hole>), String> {
    let bytes = holes::read(path(name)).map_err(|why| at(name, &why))?;
    let trace = Trace::try_from(bytes.clone()).map_err(|why| refused(name, &bytes, why))?;
    Ok((trace, find_holes(name, &bytes)?))
}

fn find_holes(name: &Path, bytes: &[u8]) -> Result<Vec<Hole>, String> {
    if name == Path::new("-") {
        return Ok(Vec::new());
    }
    holes::load(name, bytes).map_err(|why| at(&holes::beside(name), &why))
}

fn written(done: io::Result<()>) -> Result<(), String> {
    done.map_err(|why| format!("standard output: {why}"))
}

fn print(text: String) -> io::Result<()> {
    let mut out = io::stdout().lock();
    out.write_all(text.as_bytes())?;
    out.flush()
}

/// Where nothing stands before the first hole, --all may still find something.
fn unsalvaged(name: &Path, bytes: &[u8], why: Error, all: bool) -> String {
    if why == Error::Empty && !all && holes::whole(bytes, &[]).is_ok() {
        return at(name, &"its first record is bad, so nothing comes before the first hole (--all keeps the whole blocks behind it)");
    }
    refused(name, bytes, why)
}

/// The new trace and its list are there before anything is printed, whoever reads that.
fn salvage(name: &Path, file: &Path, all: bool) -> Result<(), String> {
    let list = holes::beside(file);
    apart(name, file)?;
    apart(name, &list)?;
    let bytes = holes::read(path(name)).map_err(|why| at(name, &why))?;
    let (cut, filled) = (holes::cause(&bytes), holes::filled(bytes.clone()));
    let known = find_holes(name, &filled)?;
    let kept = if all { holes::whole(&filled, &known) } else { holes::lead(&filled, &known) };
    let kept = kept.map_err(|why| unsalvaged(name, &filled, why, all))?;
    kept.save(file).map_err(|why| match why {
        HolesError::NoList => at(&list, &"it is no list of holes, and is not replaced"),
        why => at(file, &why),
    })?;
    let cut = cut.filter(|_| filled != bytes).map_or(String::new(), |cut| cut + "\n");
    let mut text = cut + &if all { whole_text(&kept) } else { lead_text(&kept) };
    if !kept.holes.is_empty() {
        text += &format!("{} says what is missing\n", list.display());
    }
    written(print(text))
}

/// A hole, and what it means for what comes behind it.
fn hole_text(hole: &Hole, records: usize) -> String {
    let what = if hole.at == records { "the trace ends there, and the day went on" } else { "what follows is not the day's" };
    format!("hole {hole}; {what}\n")
}

fn lead_text(kept: &Kept) -> String {
    let (records, blocks) = (kept.trace.records().len(), kept.trace.blocks().len());
    match kept.holes.first() {
        None => format!("kept all {records} records in {blocks} blocks: nothing is missing\n"),
        Some(hole) => {
            let kept = format!("kept {records} of {} records, those before the hole: they are the day's, exactly\n", kept.of());
            hole_text(hole, records) + &kept
        }
    }
}

fn whole_text(kept: &Kept) -> String {
    let (records, blocks) = (kept.trace.records().len(), kept.trace.blocks().len());
    let mut text: String = kept.dropped.iter().map(|dropped| format!("{dropped}\n")).collect();
    text += &format!("kept {blocks} of {} blocks, {records} records\n", blocks + kept.dropped.len());
    match kept.holes.first() {
        None => text,
        Some(hole) if hole.at == records => text + "the trace ends there, and the day went on\n",
        Some(hole) => {
            let from = hole.at;
            text + &format!(
                "NOT THE DAY'S: from record {from} on it plays on another state than the day did, and no number there is the day's\n"
            )
        }
    }
}

/// A record in words, its input in decimal, so that nobody takes it for the line of a session, which has hex digits.
fn asked(record: Record) -> String {
    match record {
        Record::Raise(input) => format!("raise {input}"),
        Record::Lower(input) => format!("lower {input}"),
        Record::Poll(input) => format!("poll {input}"),
        Record::Read { offset, width } => format!("read {width} {offset:04x}"),
        Record::Write { offset, width, value } => format!("write {width} {offset:04x} {value:016x}"),
        Record::Drain => "drain".into(),
    }
}

fn play(trace: &Trace, holes: &[Hole]) -> io::Result<()> {
    let (played, records, mut out) = (trace.play(), trace.records().len(), io::BufWriter::new(io::stdout().lock()));
    let before =
        |record: usize| holes.iter().filter(move |hole| hole.at == record).map(move |hole| hole_text(hole, records)).collect::<String>();
    for step in played.steps() {
        write!(out, "{}", before(step.number))?;
        writeln!(out, "{:>7}  {:30}  {step}", step.number, asked(step.record))?;
    }
    writeln!(out, "{}{:>7}  {:30}  drops {}", before(records), "end", "", played.pic().drops())?;
    out.flush()
}

fn sheet(trace: &Trace, holes: &[Hole]) -> String {
    let records = trace.records().len();
    let above: String = holes.iter().map(|hole| hole_text(hole, records)).collect();
    let below = holes.first().filter(|hole| hole.at < records).map_or(String::new(), |hole| {
        format!("NOT THE DAY'S: these numbers go over a hole; only what comes before record {} is the day's\n", hole.at)
    });
    format!("{above}{}\n{below}", trace.sheet().table(&trace.history()))
}

/// Behind the numbers a row of its own for each hole, as wide as the others.
fn csv(trace: &Trace, holes: &[Hole]) -> String {
    let row = |hole: &Hole| format!("hole at record {}: records {} to {} are missing,,,,,,,,,,\n", hole.at, hole.first, hole.last);
    trace.sheet().csv() + &holes.iter().map(row).collect::<String>()
}

fn main() -> ExitCode {
    let words: Vec<OsString> = env::args_os().skip(1).collect();
    // A file's name may be anything, and the first word is text.
    let first = words.first().and_then(|word| word.to_str());
    let files: Vec<&Path> = words.iter().skip(1).map(Path::new).collect();
    let done = match (first, &files[..]) {
        (Some("--play"), [file]) => load(file).and_then(|(trace, holes)| written(play(&trace, &holes))),
        (Some("--sheet"), [file]) => load(file).and_then(|(trace, holes)| written(print(sheet(&trace, &holes)))),
        (Some("--csv"), [file]) => load(file).and_then(|(trace, holes)| written(print(csv(&trace, &holes)))),
        (Some("--record"), [file]) => record(file, Path::new("-")),
        (Some("--record"), [file, lines]) => record(file, lines),
        (Some("--salvage"), [file, to]) => salvage(file, to, false),
        (Some("--salvage"), [file, to, all]) if *all == Path::new("--all") => salvage(file, to, true),
        _ => {
            eprintln!(
                "usage: day --play FILE | day --sheet FILE | day --csv FILE | day --record FILE [LINES] | day --salvage FILE TO [--all]"
            );
            return ExitCode::from(2);
        }
    };
    match done {
        Ok(()) => ExitCode::SUCCESS,
        Err(why) => {
            eprintln!("day: {why}");
            ExitCode::FAILURE
        }
    }
}
