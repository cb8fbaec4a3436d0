//! The WebAssembly of docs/viewer.html: the page of tools/day, by its own modules, and a step through the day, record by record. tools/viewer builds it.
//!
//! What is handed over goes into a room that is asked for; what is told back is a text that stands until the next call. Nothing is imported: it can neither open a
//! file nor a connection. A panic would trap; no bytes lead to one, by the same tests that try tools/day.

// The calls of C, and the replay of the recorded answers through them, as tests make it.
extern crate boundary as _;
extern crate replay as _;

mod files;
#[path = "../day.d/findings.rs"]
mod findings;
#[path = "../day.d/gather.rs"]
mod gather;
#[path = "../day.d/lanes.rs"]
mod lanes;
#[path = "../day.d/page.rs"]
mod page;
#[path = "../day.d/picture.rs"]
mod picture;
mod step;
#[path = "../day.d/text.rs"]
mod text;
#[path = "../day.d/words.rs"]
mod words;

use files::{File, Opened};
use std::sync::{Mutex, MutexGuard};
use text::Asked;

/// All that is kept between calls.
struct Kept {
    room: Vec<u8>,
    files: Vec<File>,
    opened: Option<Opened>,
    told: String,
}

static KEPT: Mutex<Kept> = Mutex::new(Kept { room: Vec::new(), files: Vec::new(), opened: None, told: String::new() });

/// There is one thread, and no call is within another.
fn kept() -> MutexGuard<'static, Kept> {
    KEPT.lock().unwrap_or_else(std::sync::PoisonError::into_inner)
}

/// The numbers that calls hand back.
const DONE: u32 = 0;
const REFUSED: u32 = 1;

/// Tells a text, or why there is none.
fn tell(outcome: Result<String, String>) -> u32 {
    let number = if outcome.is_ok() { DONE } else { REFUSED };
    kept().told = outcome.unwrap_or_else(|why| why);
    number
}

/// Room for what is handed over next.
#[unsafe(no_mangle)]
pub extern "C" fn room(length: usize) -> *mut u8 {
    let mut kept = kept();
    kept.room = vec![0; length];
    kept.room.as_mut_ptr()
}

/// Where the text that was told stands.
#[unsafe(no_mangle)]
pub extern "C" fn told() -> *const u8 {
    kept().told.as_ptr()
}

/// How long it is.
#[unsafe(no_mangle)]
pub extern "C" fn told_length() -> usize {
    kept().told.len()
}

/// Forgets files and day.
#[unsafe(no_mangle)]
pub extern "C" fn forget() {
    let mut kept = kept();
    (kept.files, kept.opened) = (Vec::new(), None);
}

/// Takes a file: in the room its name has so many bytes, and the rest is the file's.
#[unsafe(no_mangle)]
pub extern "C" fn take(name: usize) {
    let mut kept = kept();
    let mut room = std::mem::take(&mut kept.room);
    let bytes = room.split_off(name.min(room.len()));
    // A name is told on one line, whatever is in it.
    let name = String::from_utf8_lossy(&room).chars().map(|letter| if letter.is_control() { '?' } else { letter }).collect();
    kept.files.push(File { name, bytes });
}

/// Makes a day of the files that were taken. What is told is its name, or why they are no day.
#[unsafe(no_mangle)]
pub extern "C" fn open() -> u32 {
    let files = std::mem::take(&mut kept().files);
    let outcome = files::open(files).map(|opened| {
        let name = opened.name.clone();
        kept().opened = Some(opened);
        name
    });
    tell(outcome)
}

/// How many records the day has; 0 where there is none.
#[unsafe(no_mangle)]
pub extern "C" fn records() -> usize {
    kept().opened.as_ref().map_or(0, Opened::records)
}

/// What was asked for, by lines: the version, the title, the date, a limit in records and one in milliseconds, the first record and the last one to be drawn. A line is
/// empty where it is not given.
fn asked(opened: &Opened, words: &str) -> Result<Asked, String> {
    let mut words = words.split('\n').map(str::trim);
    let mut given = || words.next().filter(|word| !word.is_empty());
    let number = |word: Option<&str>| word.map(|word| word.parse::<u64>().map_err(|_| format!("'{word}' is no number"))).transpose();
    let (version, title, date) = (given(), given(), given());
    let (limit, limit_ms, from, to) = (number(given())?, number(given())?, number(given())?, number(given())?);
    if let (Some(from), Some(to)) = (from, to)
        && to < from
    {
        return Err(format!("record {to} comes before record {from}: there is nothing to draw"));
    }
    let place = |number: u64| usize::try_from(number).unwrap_or(usize::MAX);
    Ok(Asked {
        title: title.unwrap_or(&opened.name).into(),
        file: opened.name.clone(),
        play: if opened.list_digest().is_some() { opened.name.clone() } else { opened.files.join(" ") },
        list: opened.list_digest(),
        date: date.map(str::to_string),
        version: version.unwrap_or("").into(),
        names: opened.names().clone(),
        limit: limit.map(place),
        limit_ms,
        coarse: 1,
        part: from.map_or(0, place)..to.map_or(usize::MAX, |to| place(to).saturating_add(1)),
    })
}

/// The page, as tools/day makes it.
fn drawn(opened: &mut Opened, words: &str) -> Result<String, String> {
    let asked = asked(opened, words)?;
    let mut day = gather::day(&asked, opened)?;
    if let Some(at) = day.traces.iter().position(|told| !told.timed).filter(|_| asked.limit_ms.is_some()) {
        return Err(format!("a limit in milliseconds wants the times of the records, and there is no {}.times", opened.files[at]));
    }
    day.holds()?;
    page::page(&asked, &mut day, opened)
}

/// The day's page, for what the lines in the room ask for.
#[unsafe(no_mangle)]
pub extern "C" fn draw() -> u32 {
    let outcome = {
        let mut kept = kept();
        let words = String::from_utf8_lossy(&std::mem::take(&mut kept.room)).into_owned();
        match kept.opened.as_mut() {
            Some(opened) => drawn(opened, &words),
            None => Err("there is no day yet".into()),
        }
    };
    tell(outcome)
}

/// A record, and the device after it.
#[unsafe(no_mangle)]
pub extern "C" fn step(number: usize) -> u32 {
    let outcome = match kept().opened.as_ref() {
        Some(opened) => step::step(opened, number).ok_or_else(|| format!("the day has no record {number}")),
        None => Err("there is no day yet".into()),
    };
    tell(outcome)
}
