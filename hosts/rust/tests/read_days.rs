//! A day of several traces, read from its folder: it is the day of its records as one trace, and what is wrong with it is told.
#![cfg(feature = "std")]

use pch_pic::day::{times_beside, Day};
use pch_pic::history::Walk;
use pch_pic::holes::digest;
use pch_pic::{list, reg, Record, Recorder, Trace};
use std::fs;
use std::path::PathBuf;

/// A folder of its own, taken away at the end.
struct Folder(PathBuf);

impl Folder {
    fn new(name: &str) -> Self {
        let path = std::env::temp_dir().join(format!("pch-pic-read-{name}-{}", std::process::id()));
        let _ = fs::remove_dir_all(&path);
        fs::create_dir_all(&path).unwrap();
        Folder(path)
    }
}

impl Drop for Folder {
    fn drop(&mut self) {
        let _ = fs::remove_dir_all(&self.0);
    }
}

/// Calls with waits that go on for long, drops and refusals.
fn calls(count: usize) -> Vec<Record> {
    let mut state = 0x9e37_79b9_7f4a_7c15_u64;
    let mut any = |below: u64| {
        state ^= state << 13;
        state ^= state >> 7;
        state ^= state << 17;
        state % below
    };
    let call = |_| match any(12) {
        0..=3 => Record::Raise(any(66) as u8),
        4..=5 => Record::Lower(any(64) as u8),
        6 => Record::Poll(any(64) as u8),
        7 => Record::Drain,
        8 => Record::Write { offset: reg::CLEAR as u16, width: 8, value: 1 << any(64) },
        _ => Record::Write { offset: reg::MASK as u16, width: 8, value: any(u64::MAX) },
    };
    (0..count).map(call).collect()
}

fn trace(records: &[Record]) -> Trace {
    let mut recorder = Recorder::new();
    records.iter().for_each(|record| recorder.take(*record).unwrap());
    recorder.finish().unwrap()
}

/// The folder of a day with these traces, as it is ended.
fn folder(name: &str, traces: &[Trace]) -> Folder {
    let folder = Folder::new(name);
    let mut text = format!("{}\n", list::HEAD);
    for (at, trace) in traces.iter().enumerate() {
        fs::write(folder.0.join(list::name(at + 1)), trace.as_bytes()).unwrap();
        text += &format!("{:05} {} {}\n", at + 1, trace.records().len(), digest(trace.as_bytes()));
    }
    let records: usize = traces.iter().map(|trace| trace.records().len()).sum();
    fs::write(folder.0.join(list::NAME), text + &format!("end {} {records}\n", traces.len())).unwrap();
    folder
}

#[test]
fn several_traces_are_the_day_of_one() {
    let calls = calls(3000);
    let (whole, parts) = (trace(&calls), [&calls[..1], &calls[1..1700], &calls[1700..]].map(trace));
    let folder = folder("whole", &parts);
    let day = Day::open(&folder.0).unwrap();
    let sheet = day.sheet().unwrap();
    let numbers = |row: &pch_pic::sheet::Row| row.numbers().map(u64::from);
    assert!(sheet.inputs().iter().zip(whole.sheet().inputs()).all(|(long, one)| long.numbers() == numbers(one)));
    assert_eq!((sheet.total().numbers(), sheet.records()), (numbers(whole.sheet().total()), 3000));
    let (mut answers, mut walk, mut moments, mut waits) = (Vec::new(), Walk::new(), Vec::new(), Vec::new());
    let left = day.play(|_, played| answers.extend(played.answers().to_vec())).unwrap();
    assert!(left == whole.play().pic() && answers == whole.play().answers());
    for part in day.parts() {
        let history = walk.through(&part.unwrap().trace);
        moments.extend(history.moments().to_vec());
        waits.extend(history.waits().to_vec());
    }
    waits.extend(walk.open());
    let history = whole.history();
    assert!(moments == history.moments() && waits == history.waits() && *walk.pic() == left);
    assert!(waits.iter().any(|wait| wait.raised < 1700 && wait.length().is_some_and(|length| wait.raised + length > 1700)));
    // The same files by their names.
    assert_eq!(Day::of(day.paths()).unwrap().sheet().unwrap(), sheet);
}

#[test]
fn what_is_wrong_is_told() {
    let calls = calls(30);
    let parts = [&calls[..10], &calls[10..20], &calls[20..]].map(trace);
    let folder = folder("wrong", &parts);
    let (path, file) = (folder.0.display().to_string(), |number| folder.0.join(list::name(number)));
    let told = || Day::open(&folder.0).and_then(|day| day.sheet()).map_or_else(|why| why.to_string(), |_| String::new());
    assert_eq!(told(), "");
    fs::copy(file(3), file(2)).unwrap();
    assert_eq!(told(), format!("{path}: 00002.trace is trace 3 of this day: its files are out of order, or one is there twice"));
    fs::write(file(2), &parts[1].as_bytes()[..100]).unwrap();
    assert_eq!(told(), format!("{path}: 00002.trace is not the trace that day.list names: it has changed, or it is of another day"));
    fs::remove_file(file(2)).unwrap();
    assert_eq!(told(), format!("{path}: 00002.trace is missing"));
    fs::write(file(2), parts[1].as_bytes()).unwrap();
    let times = times_beside(&file(2));
    fs::write(&times, [0; 79]).unwrap();
    assert_eq!(told(), format!("{}: it has 79 bytes, and the times of 10 records are 80", times.display()));
    fs::write(&times, [0; 80]).unwrap();
    let day = Day::open(&folder.0).unwrap();
    let timed: Vec<bool> = day.parts().map(|part| part.unwrap().times.is_some()).collect();
    assert_eq!(timed, [false, true, false]);
    let twice = Day::of(&[file(1), file(2), folder.0.join(".").join(list::name(1))]).unwrap_err();
    assert!(twice.to_string().ends_with("00001.trace: it is there twice, and a day has each trace once"), "{twice}");
    assert!(Day::of(&[file(1), folder.0.clone()]).unwrap_err().to_string().ends_with("a folder is a day of its own, and stands alone"));
    assert!(Day::of::<PathBuf>(&[]).is_err() && Day::open(file(1)).is_err());
}
