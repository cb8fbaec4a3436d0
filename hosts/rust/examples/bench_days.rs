//! A day at the test bench, recorded: a hoist's guest starts up by aligned Dwords, and makes some lifts.
//!
//! `bench_days DAY FILE` records it to FILE, a trace. DAY is `quiet`, two lifts on which nothing is late; `rough`, four lifts: samples that wait while the guest
//! has them masked, some that are taken back, a host that drains too late, and lines that are up at the end; or `long`, as many lifts as a trace has room for.
//! The days in tests/days are made so, and are the same bytes each time. docs/BENCH-DAY.md goes on from there.
//!
//! `bench_days DAY FOLDER/` records it into a folder, which has room for a day of any length: a name that ends in `/`, or a folder that is there and empty. Then `long` has as
//! many lifts as make 20,000 records, or so many as a third word says.

use pch_pic::day_recorder::BLOCK;
use pch_pic::{reg, DayRecorder, Error, Event, PchPic, RecordError, Recorded, Recorder, Recording, Width, Window, EVENTS};
use std::ffi::{OsStr, OsString};
use std::path::Path;
use std::process::ExitCode;

const WINDOW: Window = Window::at(0x1000_0000);

// The hoist's lines; tests/days/hoist.names has the same names.
const CLOCK: u64 = 3;
const CELL_A: u64 = 16;
const CELL_B: u64 = 17;
const HEIGHT: u64 = 18;
const UPPER_LIMIT: u64 = 20;
const LOWER_LIMIT: u64 = 21;
const OVERLOAD: u64 = 22;
const DRIVE: u64 = 24;
const BRAKE: u64 = 25;
const RADIO: u64 = 28;
const WIND: u64 = 33;
const WIRED: [u64; 11] = [CLOCK, CELL_A, CELL_B, HEIGHT, UPPER_LIMIT, LOWER_LIMIT, OVERLOAD, DRIVE, BRAKE, RADIO, WIND];
const MOVING: [u64; 5] = [CLOCK, CELL_A, CELL_B, HEIGHT, DRIVE];

/// A number with the bits of these inputs.
fn bits(inputs: &[u64]) -> u64 {
    inputs.iter().map(|input| 1 << input).sum()
}

/// The records of a long day in a folder.
const LONG: u64 = 20_000;

struct Bench<R> {
    day: Recorded<PchPic, R>,
    high: u64,
    masked: u64,
    late: bool,
    chance: u64,
    /// A long day ends with the lift that makes so many records.
    enough: u64,
}

impl<R: Recording> Bench<R> {
    fn new(recorder: R, enough: u64) -> Result<Self, RecordError> {
        let day = Recorded::with_recorder(recorder)?;
        Ok(Bench { day, high: 0, masked: bits(&WIRED), late: false, chance: 0x9e37_79b9_7f4a_7c15, enough })
    }

    /// A small generator, so that each run makes the same day.
    fn any(&mut self, below: usize) -> usize {
        self.chance ^= self.chance << 13;
        self.chance ^= self.chance >> 7;
        self.chance ^= self.chance << 17;
        self.chance as usize % below
    }

    fn reads(&mut self, offset: u64) -> Result<u64, Error> {
        self.day.read(WINDOW, WINDOW.base + offset, Width::Dword)
    }

    fn writes(&mut self, offset: u64, value: u64) -> Result<(), Error> {
        self.day.write(WINDOW, WINDOW.base + offset, Width::Dword, value).map(|_| ())
    }

    /// The host behind a write to MASK or CLEAR: it drains, polls the inputs that are wired here, and raises the lines again that are up.
    fn settles(&mut self) -> Result<(), Error> {
        let _ = self.day.drain(&mut [Event::default(); EVENTS]);
        for input in WIRED {
            let _ = self.day.poll(input)?;
        }
        for input in WIRED.into_iter().filter(|input| self.high >> input & 1 == 1) {
            let _ = self.day.set_level(input, true)?;
        }
        Ok(())
    }

    fn line(&mut self, input: u64, up: bool) -> Result<(), Error> {
        self.high = self.high & !(1 << input) | u64::from(up) << input;
        self.day.set_level(input, up).map(|_| ())
    }

    fn masks(&mut self, inputs: &[u64]) -> Result<(), Error> {
        self.masked = bits(inputs);
        let mask = !bits(&WIRED) | self.masked;
        self.writes(reg::MASK, mask & 0xffff_ffff)?;
        self.writes(reg::MASK + reg::HIGH, mask >> 32)?;
        if self.late {
            return Ok(());
        }
        self.settles()
    }

    fn clears(&mut self, input: u64) -> Result<(), Error> {
        self.writes(reg::CLEAR + 4 * (input / 32), 1 << (input % 32))?;
        self.settles()
    }

    /// The guest takes what an input brings: it reads ISR, and the device takes its line down.
    fn serves(&mut self, input: u64) -> Result<(), Error> {
        let _ = self.reads(reg::ISR + 4 * (input / 32))?;
        self.line(input, false)
    }

    fn pulse(&mut self, input: u64) -> Result<(), Error> {
        self.line(input, true)?;
        self.serves(input)
    }

    /// Lines come and are served, in any order. One that is masked stays up.
    fn runs(&mut self, steps: usize, inputs: &[u64]) -> Result<(), Error> {
        for _ in 0..steps {
            let input = inputs[self.any(inputs.len())];
            if self.high >> input & 1 == 0 {
                self.line(input, true)?;
            } else if self.day.pic().in_service() >> input & 1 == 1 {
                self.serves(input)?;
            }
        }
        Ok(())
    }

    /// Ends what is under way, so that every line is down.
    fn rests(&mut self) -> Result<(), Error> {
        for input in WIRED {
            if self.high & !self.masked & (1 << input) != 0 {
                self.serves(input)?;
            }
        }
        Ok(())
    }

    /// As a driver for the hoist profile does it, by aligned Dwords: vectors and routes four at a time, then everything masked and cleared, and then the hoist's own lines
    /// unmasked. Linux's driver writes Bytes, and does not fit the profile.
    fn starts_up(&mut self) -> Result<(), Error> {
        let _ = (self.reads(reg::ID)?, self.reads(reg::ID + reg::HIGH)?);
        for first in (0..64).step_by(4) {
            self.writes(reg::VECTORS + first, 0x4342_4140 + 0x0101_0101 * first)?;
            self.writes(reg::ROUTES + first, 0x0101_0101)?;
        }
        for high in [0, reg::HIGH] {
            for (offset, value) in [(reg::MASK, 0xffff_ffff), (reg::CLEAR, 0xffff_ffff), (reg::AUTO0, 0), (reg::AUTO1, 0), (reg::EDGE, 0)] {
                self.writes(offset + high, value)?;
            }
            self.writes(reg::HTMSI_EN + high, 0xffff_ffff)?;
        }
        self.masks(&[])?;
        self.closes()
    }

    /// Start-up and each lift are a block of their own.
    fn closes(&mut self) -> Result<(), Error> {
        // One that is full takes no more, and says so at the end.
        let _ = self.day.close_block();
        Ok(())
    }

    /// The radio is pressed, the brake opens, the load goes up; the guest masks the load cells while it works out a weight; a limit, and the brake again.
    fn lift(&mut self, limit: u64, steps: usize, masked: usize) -> Result<(), Error> {
        self.pulse(RADIO)?;
        self.pulse(BRAKE)?;
        self.runs(steps, &MOVING)?;
        if masked > 0 {
            self.masks(&[CELL_A, CELL_B])?;
            self.runs(masked, &MOVING)?;
            self.masks(&[])?;
        }
        self.runs(steps / 2, &MOVING)?;
        self.pulse(limit)?;
        self.pulse(BRAKE)?;
        self.rests()?;
        self.closes()
    }

    /// Samples that come while the load cells are masked, and are taken back: B's line goes down again, and the guest clears A.
    fn taken_back(&mut self) -> Result<(), Error> {
        self.masks(&[CELL_A, CELL_B])?;
        self.line(CELL_A, true)?;
        self.line(CELL_B, true)?;
        self.runs(12, &[CLOCK, HEIGHT, DRIVE])?;
        self.line(CELL_B, false)?;
        self.runs(6, &[CLOCK, HEIGHT, DRIVE])?;
        self.high &= !(1 << CELL_A);
        self.clears(CELL_A)?;
        self.masks(&[])?;
        self.rests()
    }

    /// All lines come up at once, and the guest masks and unmasks them twice before the host drains: more than sixteen events are offered.
    fn storm(&mut self) -> Result<(), Error> {
        for input in WIRED {
            self.line(input, true)?;
        }
        self.late = true;
        for _ in 0..2 {
            self.masks(&WIRED)?;
            self.masks(&[])?;
            for input in WIRED {
                let _ = self.day.poll(input)?;
            }
        }
        self.late = false;
        self.settles()?;
        self.rests()
    }

    /// The guest goes to sleep with three lines masked, and two of them come up.
    fn sleeps(&mut self) -> Result<(), Error> {
        self.masks(&[CELL_A, CELL_B, WIND])?;
        self.line(CELL_B, true)?;
        self.runs(10, &[CLOCK])?;
        self.line(WIND, true)?;
        self.runs(14, &[CLOCK])?;
        self.rests()
    }

    fn quiet(&mut self) -> Result<(), Error> {
        self.starts_up()?;
        self.lift(UPPER_LIMIT, 60, 0)?;
        self.lift(LOWER_LIMIT, 60, 0)
    }

    fn rough(&mut self) -> Result<(), Error> {
        self.starts_up()?;
        self.lift(UPPER_LIMIT, 60, 8)?;
        self.lift(LOWER_LIMIT, 60, 110)?;
        self.taken_back()?;
        self.lift(UPPER_LIMIT, 50, 10)?;
        self.storm()?;
        self.lift(LOWER_LIMIT, 50, 12)?;
        self.sleeps()
    }

    /// Until there are records enough, or the recorder is full: then it takes no more, and the device goes on.
    fn long(&mut self) -> Result<(), Error> {
        self.starts_up()?;
        while self.day.stopped().is_none() && self.day.recorder().records() < self.enough {
            let (limit, masked) = ([UPPER_LIMIT, LOWER_LIMIT][self.any(2)], 4 + self.any(60));
            self.lift(limit, 60, masked)?;
            match self.any(8) {
                0 => self.taken_back()?,
                1 => self.storm()?,
                2 => self.pulse(OVERLOAD)?,
                3 => self.pulse(WIND)?,
                _ => {}
            }
        }
        Ok(())
    }
}

impl<R: Recording> Bench<R> {
    /// The day of this name, and why it stopped where it did.
    fn does(mut self, day: &str) -> Result<Recorded<PchPic, R>, Box<dyn std::error::Error>> {
        match day {
            "quiet" => self.quiet()?,
            "rough" => self.rough()?,
            _ => self.long()?,
        }
        match self.day.stopped() {
            Some(why) if !matches!(why, RecordError::Full) => Err(why.to_string().into()),
            _ => Ok(self.day),
        }
    }
}

fn record(day: &str, file: &Path) -> Result<(), Box<dyn std::error::Error>> {
    let day = Bench::new(Recorder::new(), u64::MAX)?.does(day)?;
    Ok(day.recorder().finish()?.save(file)?)
}

/// Into a folder, as a bench does it where power may be lost.
fn record_long(day: &str, folder: &Path, enough: u64) -> Result<(), Box<dyn std::error::Error>> {
    let mut day = Bench::new(DayRecorder::planned(folder, BLOCK)?, enough)?.does(day)?;
    Ok(day.end()?)
}

fn is_folder(name: &OsStr) -> bool {
    name.as_encoded_bytes().ends_with(b"/") || Path::new(name).is_dir()
}

/// How many records a long day is to have; none where the word is no number.
fn enough(words: &[OsString]) -> Option<u64> {
    words.get(2).map_or(Some(LONG), |word| word.to_str()?.parse().ok())
}

fn main() -> ExitCode {
    let words: Vec<OsString> = std::env::args_os().skip(1).collect();
    let day = words.first().and_then(|word| word.to_str()).filter(|day| ["quiet", "rough", "long"].contains(day));
    let done = match (day, words.get(1), enough(&words)) {
        (Some(day), Some(name), Some(enough)) if is_folder(name) && (words.len() == 2 || (day == "long" && words.len() == 3)) => {
            record_long(day, Path::new(name), enough)
        }
        (Some(day), Some(name), _) if words.len() == 2 => record(day, Path::new(name)),
        _ => {
            eprintln!(
                "usage: bench_days quiet|rough|long FILE\n       bench_days quiet|rough FOLDER/\n       bench_days long FOLDER/ [RECORDS]"
            );
            return ExitCode::from(2);
        }
    };
    match done {
        Ok(()) => ExitCode::SUCCESS,
        Err(why) => {
            eprintln!("bench_days: {}: {why}", Path::new(&words[1]).display());
            ExitCode::FAILURE
        }
    }
}
