//! The program of tools/growth: makes a bench day of any length, and goes through it, one trace in memory at a time.
//!
//! `record N DAY` records N calls to the folder DAY, which is to be empty. `play DAY` plays it, `sheet DAY` counts it, and `csv DAY` does with commas between its numbers.

use pch_pic::day::Day;
use pch_pic::holes::digest;
use pch_pic::{EVENTS, Form, PchPic, RECORDS_MAX, Record, Recorder, list, reg};
use std::error::Error;
use std::fmt::Write;
use std::fs;
use std::path::Path;
use std::process::ExitCode;

/// The hoist's lines, as tests/days/hoist.names has them.
const WIRED: [u8; 11] = [3, 16, 17, 18, 20, 21, 22, 24, 25, 28, 33];

/// The calls of a guest and its host, made up by a small generator, so that each run makes the same day.
struct Bench {
    chance: u64,
    pending: Vec<Record>,
    lifts: usize,
}

fn write(offset: u64, value: u64) -> Record {
    Record::Write { offset: offset as u16, width: 8, value }
}

fn wired() -> u64 {
    WIRED.iter().map(|input| 1 << input).sum()
}

impl Bench {
    fn new() -> Self {
        let mut pending = vec![write(reg::HTMSI_EN, wired()), write(reg::MASK, !wired()), Record::Drain];
        pending.reverse();
        Bench { chance: 0x9e37_79b9_7f4a_7c15, pending, lifts: 0 }
    }

    fn any(&mut self, below: usize) -> usize {
        self.chance ^= self.chance << 13;
        self.chance ^= self.chance >> 7;
        self.chance ^= self.chance << 17;
        self.chance as usize % below
    }

    /// A sample of one line, taken at once: its raise, what the guest reads and clears, its lowering, and the host's drain.
    fn sample(&mut self) -> Vec<Record> {
        let input = WIRED[self.any(WIRED.len())];
        let clear = write(reg::CLEAR, 1 << input);
        vec![Record::Raise(input), Record::Read { offset: reg::IRR as u16, width: 8 }, Record::Lower(input), clear, Record::Drain]
    }

    /// A load cell masked while its sample comes: it waits, and now and then it is taken back.
    fn late(&mut self) -> Vec<Record> {
        let input = WIRED[1 + self.any(2)];
        let mut calls = vec![write(reg::MASK, !wired() | 1 << input), Record::Raise(input)];
        calls.extend(vec![Record::Read { offset: reg::IRR as u16, width: 8 }; 3 + self.any(60)]);
        if self.any(4) == 0 {
            calls.push(Record::Lower(input));
        }
        calls.extend([write(reg::MASK, !wired()), Record::Drain, Record::Poll(input), Record::Lower(input)]);
        calls
    }

    /// All lines up, and the guest masks and unmasks them while nobody drains: more events are made than can wait.
    fn storm(&mut self) -> Vec<Record> {
        let mut calls: Vec<Record> = WIRED.map(Record::Raise).to_vec();
        for _ in 0..EVENTS / 8 + 1 {
            calls.extend([write(reg::MASK, !0), write(reg::MASK, !wired())]);
            calls.extend(WIRED.map(Record::Poll));
        }
        calls.push(Record::Drain);
        calls.extend(WIRED.map(Record::Lower));
        calls
    }

    fn next(&mut self) -> Record {
        while self.pending.is_empty() {
            self.lifts += 1;
            self.pending = match self.lifts % 9000 {
                0 => self.storm(),
                lift if lift % 400 == 60 => self.late(),
                _ => self.sample(),
            };
            self.pending.reverse();
        }
        self.pending.pop().expect("there is one")
    }
}

/// Records so many calls, a trace at a time, and lists each when it has ended.
fn record(records: usize, folder: &Path) -> Result<(), Box<dyn Error>> {
    fs::create_dir_all(folder)?;
    if fs::read_dir(folder)?.next().is_some() {
        return Err(format!("{}: there is something in it", folder.display()).into());
    }
    let (mut bench, mut text, mut left, mut number) = (Bench::new(), format!("{}\n", list::HEAD), records, 0);
    while left > 0 {
        let (mut recorder, count) = (Recorder::new(), left.min(RECORDS_MAX));
        (0..count).try_for_each(|_| recorder.take(bench.next()))?;
        let trace = recorder.finish()?;
        (number, left) = (number + 1, left - count);
        fs::write(folder.join(list::name(number)), trace.as_bytes())?;
        writeln!(text, "{number:05} {count} {}", digest(trace.as_bytes()))?;
    }
    fs::write(folder.join(list::NAME), text + &format!("end {number} {records}\n"))?;
    Ok(())
}

/// Plays a day, and tells what is left of it: the digest of the device after its last record.
fn play(folder: &Path) -> Result<(), Box<dyn Error>> {
    let mut answers = 0;
    let pic: PchPic = Day::open(folder)?.play(|_, played| answers += played.answers().len() / 16)?;
    println!("{answers} records, {}", digest(&pic.save(Form::Numbered)));
    Ok(())
}

fn main() -> ExitCode {
    let words: Vec<String> = std::env::args().skip(1).collect();
    let words: Vec<&str> = words.iter().map(String::as_str).collect();
    let done = match words[..] {
        ["record", records, folder] => records.parse().map_err(Box::from).and_then(|records| record(records, Path::new(folder))),
        ["play", folder] => play(Path::new(folder)),
        ["sheet", folder] => Day::open(folder).and_then(|day| day.sheet()).map(|sheet| println!("{sheet}")).map_err(Box::from),
        ["csv", folder] => Day::open(folder).and_then(|day| day.sheet()).map(|sheet| print!("{}", sheet.csv())).map_err(Box::from),
        _ => Err("it wants record N DAY, play DAY, sheet DAY or csv DAY".into()),
    };
    match done {
        Ok(()) => ExitCode::SUCCESS,
        Err(why) => {
            eprintln!("growth: {why}");
            ExitCode::FAILURE
        }
    }
}
