//! Days of any length in a folder: what is there afterwards, what is refused, and a guest that is written once for every device, counted call by call.
#![cfg(feature = "std")]

use pch_pic::day_recorder::BLOCK;
use pch_pic::sheet::LongRow;
use pch_pic::{
    monotonic, reg, DayRecorder, Device, Error, Event, Form, GuestDevice, Hoist, Image, PchPic, Phase, Record, RecordError, Recordable,
    Recorded, Recorder, Recording, Returned, Tally, Trace, Width, Window, Wires, EVENTS, RECORDS_MAX,
};
use std::fs;
use std::path::{Path, PathBuf};

const WINDOW: Window = Window::at(0x1000_0000);

/// A folder of its own, gone at the end.
struct Folder(PathBuf);

impl Folder {
    fn new(name: &str) -> Self {
        let path = std::env::temp_dir().join(format!("pch-pic-day-{name}-{}", std::process::id()));
        let _ = fs::remove_dir_all(&path);
        fs::create_dir_all(&path).unwrap();
        Folder(path)
    }

    fn day(&self) -> PathBuf {
        self.0.join("day")
    }
}

impl Drop for Folder {
    fn drop(&mut self) {
        let _ = fs::remove_dir_all(&self.0);
    }
}

fn trace_path(day: &Path, number: usize) -> PathBuf {
    day.join(format!("{number:05}.trace"))
}

fn list(day: &Path) -> Vec<String> {
    fs::read_to_string(day.join("day.list")).unwrap().lines().map(str::to_string).collect()
}

/// The traces of a day that was ended, by its list.
fn traces(day: &Path) -> Vec<Trace> {
    let list = list(day);
    assert_eq!(list[0], "pch-pic day 1");
    let traces: Vec<_> = (1..list.len() - 1).map(|number| Trace::load(trace_path(day, number)).unwrap()).collect();
    let records: usize = traces.iter().map(|trace| trace.records().len()).sum();
    assert_eq!(*list.last().unwrap(), format!("end {} {records}", traces.len()));
    for (at, trace) in traces.iter().enumerate() {
        let digest = pch_pic::holes::digest(trace.as_bytes());
        assert_eq!(list[at + 1], format!("{:05} {} {digest}", at + 1, trace.records().len()));
    }
    traces
}

/// Every name in a folder, with the bytes behind it.
fn contents(folder: &Path) -> Vec<(PathBuf, Vec<u8>)> {
    let mut names: Vec<_> = fs::read_dir(folder).unwrap().map(|entry| entry.unwrap().path()).collect();
    names.sort();
    names.into_iter().map(|name| (name.clone(), fs::read(&name).unwrap())).collect()
}

fn take(day: &mut DayRecorder, count: usize) {
    for _ in 0..count {
        day.take(Record::Drain).unwrap();
    }
}

#[test]
fn a_trace_has_the_blocks_that_fit() {
    let folder = Folder::new("blocks");
    for (block, blocks) in [(1, 64), (62, 64), (63, 63), (BLOCK, 62), (2_000, 2), (2_001, 1), (4_000, 1)] {
        let day = folder.0.join(block.to_string());
        let mut recorder = DayRecorder::planned(&day, block).unwrap();
        take(&mut recorder, 1);
        let planned = fs::read(trace_path(&day, 1)).unwrap();
        assert_eq!(planned.len(), 2 + 4 * blocks + 16 * blocks * usize::from(block));
        assert_eq!(Trace::try_from(planned), Err(Error::Record(1)));
        take(&mut recorder, blocks * usize::from(block));
        assert_eq!((recorder.traces(), recorder.records()), (1, (blocks * usize::from(block) + 1) as u64));
        recorder.end().unwrap();
        let shapes: Vec<Vec<usize>> = traces(&day).iter().map(|trace| trace.blocks().collect()).collect();
        assert_eq!(shapes, [vec![usize::from(block); blocks], vec![1]]);
    }
    for block in [0, 4_001, u16::MAX] {
        assert!(matches!(DayRecorder::planned(folder.day(), block), Err(RecordError::Plan)));
        assert!(!folder.day().exists());
    }
}

#[test]
fn a_held_day_is_written_trace_by_trace() {
    let folder = Folder::new("held");
    let mut day = DayRecorder::held(folder.day()).unwrap();
    assert!(day.is_empty() && matches!(day.close_block(), Err(RecordError::Empty)));
    take(&mut day, RECORDS_MAX - 1);
    assert_eq!(contents(&folder.day()).len(), 1);
    take(&mut day, 1);
    assert_eq!((day.traces(), contents(&folder.day()).len()), (1, 2));
    // The 64th block is the last of a trace, too.
    for _ in 0..64 {
        take(&mut day, 2);
        day.close_block().unwrap();
    }
    assert_eq!((day.traces(), day.records()), (2, 4_128));
    take(&mut day, 3);
    day.next_trace().unwrap();
    day.next_trace().unwrap();
    assert_eq!((day.traces(), day.records()), (3, 4_131));
    // At a boundary there is no trace without a record.
    day.end().unwrap();
    day.end().unwrap();
    assert!(matches!(day.take(Record::Drain), Err(RecordError::Ended)) && matches!(day.next_trace(), Err(RecordError::Ended)));
    let traces = traces(&folder.day());
    assert_eq!(traces.iter().map(|trace| trace.blocks().len()).collect::<Vec<_>>(), [1, 64, 1]);
    assert_eq!(contents(&folder.day()).len(), 4);
}

#[test]
fn a_day_without_a_record() {
    let folder = Folder::new("empty");
    fs::create_dir(folder.day()).unwrap();
    let mut day = DayRecorder::planned(folder.day(), BLOCK).unwrap();
    day.next_trace().unwrap();
    assert!(matches!(day.close_block(), Err(RecordError::Planned)));
    assert!(matches!(day.end(), Err(RecordError::Empty)));
    assert_eq!((list(&folder.day()), contents(&folder.day()).len()), (vec!["pch-pic day 1".to_string()], 1));
    // It is no day yet, and may become one.
    take(&mut day, 1);
    day.end().unwrap();
    assert_eq!(traces(&folder.day()).len(), 1);
}

/// A day that is there is not touched, whatever it is.
#[test]
fn a_folder_that_is_not_empty_is_refused() {
    let folder = Folder::new("full");
    let refused = |way: &Path| {
        let before = contents(way);
        assert!(matches!(DayRecorder::planned(way, BLOCK), Err(RecordError::NotEmpty)));
        assert!(matches!(DayRecorder::held(way), Err(RecordError::NotEmpty)));
        assert_eq!(contents(way), before);
    };
    for name in ["00001.trace", "day.list", ".hidden", "notes.txt"] {
        let way = folder.0.join(name.replace('.', "-"));
        fs::create_dir(&way).unwrap();
        fs::write(way.join(name), "mine").unwrap();
        refused(&way);
    }
    let mut day = DayRecorder::planned(folder.day(), 2).unwrap();
    refused(&folder.day()); // while it is recorded
    take(&mut day, 130);
    refused(&folder.day());
    day.end().unwrap();
    refused(&folder.day());
    // A file is no folder, and where there is no folder above none is made.
    let file = folder.0.join("file");
    fs::write(&file, "mine").unwrap();
    assert!(matches!(DayRecorder::held(&file), Err(RecordError::Io(_))));
    assert_eq!(fs::read(&file).unwrap(), b"mine");
    assert!(matches!(DayRecorder::held(folder.0.join("none/day")), Err(RecordError::Io(_))));
}

/// What another puts in the way of the next trace stays, and the recording stops there; what was taken is all there.
#[test]
fn nothing_is_overwritten_on_the_way() {
    let folder = Folder::new("way");
    for held in [false, true] {
        let path = folder.0.join(if held { "held" } else { "planned" });
        let mut recorder = if held { DayRecorder::held(&path).unwrap() } else { DayRecorder::planned(&path, 1).unwrap() };
        take(&mut recorder, 5);
        recorder.next_trace().unwrap();
        let other = trace_path(&path, 2);
        fs::write(&other, "mine").unwrap();
        assert!(matches!(recorder.take(Record::Raise(1)), Err(RecordError::NotEmpty)));
        assert_eq!((fs::read(&other).unwrap(), recorder.records()), (b"mine".to_vec(), 5));
        fs::remove_file(&other).unwrap();
        recorder.take(Record::Raise(2)).unwrap();
        recorder.end().unwrap();
        assert!(traces(&path)[1].records().eq([Record::Raise(2)]));
    }
}

/// While the folder is away nothing can be ended or begun. The call says so, no record that was taken is lost, and all goes on when the folder is back.
#[test]
fn what_failed_is_tried_again() {
    let folder = Folder::new("again");
    let away = folder.0.join("away");
    for (held, full) in [(false, false), (false, true), (true, false), (true, true)] {
        let path = folder.0.join(format!("{held}-{full}"));
        let mut day = if held { DayRecorder::held(&path).unwrap() } else { DayRecorder::planned(&path, 2).unwrap() };
        let most = if held { RECORDS_MAX } else { 128 };
        take(&mut day, if full { most - 1 } else { 7 });
        fs::rename(&path, &away).unwrap();
        let taken = if full {
            // It fills the trace, which cannot be listed yet, or not be written; the record itself is taken.
            take(&mut day, 1);
            most
        } else {
            assert!(matches!(day.next_trace(), Err(RecordError::Io(_))));
            7
        };
        assert!(matches!(day.take(Record::Raise(1)), Err(RecordError::Io(_))));
        assert_eq!(day.records(), taken as u64);
        fs::rename(&away, &path).unwrap();
        day.take(Record::Raise(2)).unwrap();
        day.end().unwrap();
        let records: Vec<_> = traces(&path).iter().map(|trace| trace.records().collect::<Vec<_>>()).collect();
        assert_eq!(records, [vec![Record::Drain; taken], vec![Record::Raise(2)]]);
        assert_eq!(contents(&path).len(), 3);
    }
}

#[test]
fn times_are_of_one_clock() {
    let folder = Folder::new("times");
    let mut day = DayRecorder::planned(folder.day(), 1).unwrap().with_clock(monotonic).unwrap();
    take(&mut day, 100);
    assert!(matches!(day.sync(), Ok(())));
    day.end().unwrap();
    let mut times = Vec::new();
    for (at, trace) in traces(&folder.day()).iter().enumerate() {
        let bytes = fs::read(trace_path(&folder.day(), at + 1).with_extension("trace.times")).unwrap();
        assert_eq!(bytes.len(), 8 * trace.records().len());
        times.extend(bytes.chunks_exact(8).map(|time| u64::from_le_bytes(time.try_into().unwrap())));
    }
    assert!(times.len() == 100 && times.windows(2).all(|pair| pair[0] <= pair[1]));
    let mut started = DayRecorder::held(folder.0.join("started")).unwrap();
    take(&mut started, 1);
    assert!(matches!(started.with_clock(monotonic), Err(RecordError::Started)));
}

/// What no record can say stops the recording of a day too, and never the device.
#[test]
fn a_recorded_day_that_stops() {
    let folder = Folder::new("stops");
    let mut day = Recorded::with_recorder(DayRecorder::planned(folder.day(), 1).unwrap()).unwrap();
    for _ in 0..70 {
        day.write(WINDOW, WINDOW.base + reg::POL, Width::Dword, 1).unwrap();
    }
    let before = day.pic().clone();
    day.reset();
    assert!(matches!(day.stopped(), Some(RecordError::Again)));
    let _ = day.set_level(5, true).unwrap();
    day.end().unwrap();
    let traces = traces(&folder.day());
    assert_eq!(traces[1].play_on(traces[0].play().image()).pic(), before);
    // One that was ended takes no more, and the device goes on.
    let mut day = Recorded::with_recorder(DayRecorder::held(folder.0.join("ended")).unwrap()).unwrap();
    let _ = day.set_level(5, true).unwrap();
    day.next_trace().unwrap();
    day.end().unwrap();
    let _ = day.set_level(5, false).unwrap();
    assert!(matches!(day.stopped(), Some(RecordError::Ended)) && day.pic().latched() == 0);
    let (_, recorder) = day.into_parts();
    assert!(matches!(Recorded::with_recorder(recorder), Err(RecordError::Started)));
}

/// As `a_watched_hoist` of hosts/c has it: what the profile refuses is no record, and what passes plays to the image.
#[test]
fn a_recorded_hoist() {
    let mut day = Recorded::hoist(Recorder::new()).unwrap();
    let at = |offset| WINDOW.base + offset;
    assert_eq!(day.write(WINDOW, at(reg::VECTORS), Width::Dword, 0x4342_4140), Ok(0));
    assert_eq!(day.read(WINDOW, at(reg::ID), Width::Byte), Err(Error::Align));
    assert_eq!(day.mmio_read(WINDOW, at(reg::ID), &mut [0; 8]), Err(Error::Align));
    assert_eq!(day.read(WINDOW, at(reg::ID), Width::Dword), Ok(0x0700_0000));
    assert_eq!((day.end_startup(), day.device().phase()), (Ok(()), Phase::Running));
    assert_eq!(day.end_startup(), Err(Error::Profile));
    assert_eq!(day.write(WINDOW, at(reg::VECTORS), Width::Dword, 0x4342_4140), Err(Error::Profile));
    assert_eq!(day.mmio_write(WINDOW, at(reg::ISR), &[0; 4]), Err(Error::Profile));
    assert_eq!(day.mmio_write(WINDOW, at(reg::MASK), &[0; 4]), Ok(0));
    // The window of a plain device refuses this too.
    assert_eq!(day.mmio_read(WINDOW, at(reg::ID), &mut [0; 3]), Err(Error::Width));
    assert!(day.stopped().is_none());
    let trace = day.recorder().finish().unwrap();
    let records = [
        Record::Write { offset: reg::VECTORS as u16, width: 4, value: 0x4342_4140 },
        Record::Read { offset: reg::ID as u16, width: 4 },
        Record::Write { offset: reg::MASK as u16, width: 4, value: 0 },
        Record::Read { offset: reg::ID as u16, width: 3 },
    ];
    assert!(trace.records().eq(records));
    assert_eq!(trace.play().image(), &day.pic().save(Form::Numbered));
    // What the window refuses and a trace would play otherwise stops it, as of a plain device.
    assert_eq!(day.read(WINDOW, at(reg::WINDOW_LEN), Width::Dword), Err(Error::Outside(at(reg::WINDOW_LEN))));
    assert!(matches!(day.stopped(), Some(RecordError::Refused)));
    day.reset();
    assert_eq!((day.device().phase(), day.pic()), (Phase::StartUp, &PchPic::new()));
}

/// A small generator, so that each run makes the same day.
struct Chance(u64);

impl Chance {
    fn below(&mut self, most: u64) -> u64 {
        self.0 ^= self.0 << 13;
        self.0 ^= self.0 >> 7;
        self.0 ^= self.0 << 17;
        (self.0 >> 11) % most
    }
}

const FIRST_VECTOR: u64 = 0x40;

/// A device that hands every call on, and counts by what was asked and answered alone: it knows the vectors, and no bit of the device.
struct Counted<D> {
    device: D,
    /// How many records the calls so far are.
    records: u64,
    rows: [LongRow; 64],
    /// By the calls: raised, and neither lowered nor cleared since. By the events: asserted, and not deasserted since.
    latched: u64,
    in_service: u64,
    /// The record of the raise whose wait is not over.
    waits: [Option<u64>; 64],
    /// The last write: what a drain gives was made there.
    write: u64,
}

impl<D: GuestDevice> Counted<D> {
    fn new(device: D) -> Self {
        Counted { device, records: 0, rows: [LongRow::default(); 64], latched: 0, in_service: 0, waits: [None; 64], write: 0 }
    }

    fn event(&mut self, event: Event, returned: bool, made: u64) {
        let input = (u64::from(event.vector) - FIRST_VECTOR) as usize;
        let row = &mut self.rows[input];
        row.asserts += u64::from(event.asserted);
        row.deasserts += u64::from(!event.asserted);
        row.returned += u64::from(returned);
        row.offered += u64::from(!returned);
        self.in_service = self.in_service & !(1 << input) | u64::from(event.asserted) << input;
        if event.asserted {
            if let Some(raised) = self.waits[input].take() {
                row.greatest_wait = row.greatest_wait.max(made - raised);
            }
        }
    }

    fn withdraw(&mut self, inputs: u64) {
        for input in (0..64).filter(|input| inputs >> input & 1 == 1) {
            self.rows[input].withdrawn += u64::from(self.waits[input].take().is_some());
        }
        self.latched &= !inputs;
    }

    /// A write that was done; it has answered how many events were dropped, and here none is.
    fn wrote(&mut self, offset: u64, value: u64, done: &Result<u32, Error>) {
        match done {
            Err(Error::Align | Error::Profile) => return,
            done => assert!(!matches!(done, Ok(1..))),
        }
        self.write = self.records;
        self.records += 1;
        if offset == reg::CLEAR || offset == reg::CLEAR + reg::HIGH {
            self.withdraw(value << (8 * (offset - reg::CLEAR)));
        }
    }

    fn rows(&self) -> [LongRow; 64] {
        core::array::from_fn(|input| LongRow { open: u64::from(self.waits[input].is_some()), ..self.rows[input] })
    }
}

impl<D: GuestDevice> Device for Counted<D> {
    fn pic(&self) -> &PchPic {
        self.device.pic()
    }

    fn set_level(&mut self, input: u64, level: bool) -> Result<Returned, Error> {
        let (answer, number) = (self.device.set_level(input, level), self.records);
        self.records += 1;
        let Ok(returned) = answer else { return answer };
        let row = &mut self.rows[input as usize];
        (row.raises, row.lowers) = (row.raises + u64::from(level), row.lowers + u64::from(!level));
        if level && (self.latched | self.in_service) >> input & 1 == 0 {
            self.waits[input as usize] = Some(number);
        }
        if level {
            self.latched |= 1 << input;
        } else {
            self.withdraw(1 << input);
        }
        for event in returned {
            self.event(event, true, number);
        }
        answer
    }

    fn poll(&mut self, input: u64) -> Result<Returned, Error> {
        let (answer, number) = (self.device.poll(input), self.records);
        self.records += 1;
        for event in answer.into_iter().flatten() {
            self.event(event, true, number);
        }
        answer
    }

    fn drain(&mut self, events: &mut [Event]) -> usize {
        self.records += 1;
        let count = self.device.drain(events);
        for event in events.iter().take(count) {
            self.event(*event, false, self.write);
        }
        count
    }
}

impl<D: GuestDevice> GuestDevice for Counted<D> {
    fn read(&mut self, window: Window, address: u64, width: Width) -> Result<u64, Error> {
        let answer = self.device.read(window, address, width);
        self.records += u64::from(answer != Err(Error::Align));
        answer
    }

    fn write(&mut self, window: Window, address: u64, width: Width, value: u64) -> Result<u32, Error> {
        let answer = self.device.write(window, address, width, value);
        self.wrote(address - window.base, value, &answer);
        answer
    }

    fn mmio_read(&mut self, window: Window, address: u64, data: &mut [u8]) -> Result<(), Error> {
        let answer = self.device.mmio_read(window, address, data);
        self.records += u64::from(answer != Err(Error::Align));
        answer
    }

    fn mmio_write(&mut self, window: Window, address: u64, data: &[u8]) -> Result<u32, Error> {
        let answer = self.device.mmio_write(window, address, data);
        let value = data.iter().take(8).rev().fold(0, |value, byte| value << 8 | u64::from(*byte));
        self.wrote(address - window.base, value, &answer);
        answer
    }

    fn reset(&mut self) {
        self.device.reset();
    }

    fn end_startup(&mut self) -> Result<(), Error> {
        self.device.end_startup()
    }
}

/// A guest and its host, written once for every device. It fits the hoist profile, unless it is told to try what does not.
struct Bench<'a> {
    pic: &'a mut dyn GuestDevice,
    wires: Wires,
    chance: Chance,
    tries: bool,
}

impl Bench<'_> {
    fn writes(&mut self, offset: u64, value: u64) {
        self.pic.write(WINDOW, WINDOW.base + offset, Width::Dword, value).unwrap();
        self.wires.settle(self.pic, |_| ());
    }

    fn line(&mut self, input: u64, high: bool) {
        self.wires.line(self.pic, input, high, |_| ()).unwrap();
    }

    fn masks(&mut self, masked: u64) {
        self.writes(reg::MASK, masked & 0xffff_ffff);
        self.writes(reg::MASK + reg::HIGH, masked >> 32);
    }

    fn starts_up(&mut self) {
        for input in (0..64).step_by(4) {
            self.writes(reg::VECTORS + input, 0x0302_0100 + 0x0101_0101 * (FIRST_VECTOR + input));
        }
        self.masks(u64::MAX);
        self.writes(reg::CLEAR, 0xffff_ffff);
        self.writes(reg::CLEAR + reg::HIGH, 0xffff_ffff);
        self.masks(0);
        self.pic.end_startup().unwrap();
    }

    /// Calls that a plain device refuses, and does so again when they are played.
    fn errs(&mut self) {
        assert_eq!(self.pic.raise(64).unwrap_err(), Error::Input);
        assert_eq!(self.pic.mmio_read(WINDOW, WINDOW.base, &mut [0; 3]), Err(Error::Width));
    }

    /// Calls that the profile refuses, and a plain device would carry out.
    fn is_refused(&mut self) {
        let at = |offset| WINDOW.base + offset;
        assert_eq!(self.pic.write(WINDOW, at(reg::MASK), Width::Byte, 0xff), Err(Error::Align));
        assert_eq!(self.pic.mmio_write(WINDOW, at(reg::ISR), &[0xff; 4]), Err(Error::Profile));
        assert_eq!(self.pic.write(WINDOW, at(reg::VECTORS), Width::Dword, 0), Err(Error::Profile));
        assert_eq!(self.pic.read(WINDOW, at(reg::ID), Width::Qword), Err(Error::Align));
    }

    /// One interrupt of an input: it comes at once, waits until it is unmasked, or is taken back by its line or by the guest.
    fn interrupt(&mut self) {
        let input = self.chance.below(64);
        match self.chance.below(16) {
            0 => self.waits(input),
            1 => self.is_taken_back(input),
            2 => self.errs(),
            3 if self.tries => self.is_refused(),
            _ => {}
        }
        self.line(input, true);
        let (half, bit) = (4 * (input / 32), 1 << (input % 32));
        assert_eq!(self.pic.read(WINDOW, WINDOW.base + reg::ISR + half, Width::Dword).unwrap(), bit);
        match self.chance.below(3) {
            // The device lets go first, or the guest clears a line that is up: it comes again.
            0 => self.writes(reg::CLEAR + half, bit),
            1 => assert_eq!(self.pic.poll(input).unwrap(), None),
            _ => {}
        }
        self.line(input, false);
        assert!(!self.wires.is_on((FIRST_VECTOR + input) as u8) && self.pic.waiting_inputs() == 0);
    }

    fn waits(&mut self, input: u64) {
        let other = (input + 7) % 64;
        self.masks(1 << input | 1 << other);
        self.line(other, true);
        self.line(input, true);
        for _ in 0..self.chance.below(40) {
            self.pic.read(WINDOW, WINDOW.base + reg::ID, Width::Dword).unwrap();
        }
        self.masks(0);
        self.line(input, false);
        self.line(other, false);
    }

    fn is_taken_back(&mut self, input: u64) {
        let other = (input + 9) % 64;
        self.masks(1 << input | 1 << other);
        self.line(input, true);
        self.line(input, false);
        let _ = self.pic.raise(other).unwrap(); // a pulse: the wires do not know it as high
        self.writes(reg::CLEAR + 4 * (other / 32), 1 << (other % 32));
        self.masks(0);
    }
}

/// So many interrupts on a device; at the end a line stays up and one waits.
fn guest(pic: &mut dyn GuestDevice, interrupts: usize, tries: bool) {
    let mut bench = Bench { pic, wires: Wires::new(), chance: Chance(0x9e37_79b9_7f4a_7c15), tries };
    bench.starts_up();
    for _ in 0..interrupts {
        bench.interrupt();
    }
    bench.line(3, true);
    bench.masks(1 << 40);
    bench.line(40, true);
}

/// A few thousand; PCH_PIC_INTERRUPTS asks for another number.
fn interrupts() -> usize {
    std::env::var("PCH_PIC_INTERRUPTS").map_or(1_500, |number| number.parse().unwrap())
}

/// Plays a day trace by trace, and tells the last image and the tally.
fn played(day: &Path, count: usize) -> (Image, Tally) {
    let (mut image, mut tally) = (PchPic::new().save(Form::Numbered), Tally::new());
    for number in 1..=count {
        let trace = Trace::load(trace_path(day, number)).unwrap();
        tally.add(&trace, &PchPic::from(image.clone())).unwrap();
        image = match number {
            1 => trace.play().image().clone(),
            _ => trace.play_on(&image).image().clone(),
        };
    }
    (image, tally)
}

/// The guest's day on a recorded device: it plays to the live image, and its tally is what was counted from the answers.
fn a_day_of_interrupts<D: Recordable>(recorded: Recorded<D, DayRecorder>, tries: bool) -> PchPic {
    let mut counted = Counted::new(recorded);
    guest(&mut counted, interrupts(), tries);
    let rows = counted.rows();
    let mut day = counted.device;
    day.end().unwrap();
    assert!(day.stopped().is_none());
    assert_eq!(day.recorder().records(), counted.records);
    let (image, tally) = played(day.recorder().folder(), day.recorder().traces());
    assert_eq!(image, day.pic().save(Form::Numbered));
    let sheet = tally.sheet().unwrap();
    assert_eq!(tally.records(), counted.records);
    for (input, row) in rows.iter().enumerate() {
        assert_eq!(sheet.inputs()[input], *row, "input {input}");
    }
    let total = sheet.total();
    println!("{} records in {} traces: {} asserts, {} withdrawn", tally.records(), day.recorder().traces(), total.asserts, total.withdrawn);
    assert!(total.asserts >= interrupts() as u64 && total.withdrawn > 0 && total.open == 1 && total.dropped == 0);
    assert_eq!(day.pic().drops(), 0);
    day.pic().clone()
}

/// The same guest on all of them, plain and under the profile, recorded and not: they end as the same device.
#[test]
fn a_guest_is_written_once() {
    let folder = Folder::new("guest");
    let mut alone = PchPic::new();
    guest(&mut alone, interrupts(), false);
    let planned = DayRecorder::planned(folder.0.join("plain"), 200).unwrap();
    assert_eq!(a_day_of_interrupts(Recorded::with_recorder(planned).unwrap(), false), alone);
    let mut hoist = Hoist::new();
    guest(&mut hoist, interrupts(), true);
    let held = DayRecorder::held(folder.0.join("hoist")).unwrap();
    assert_eq!(a_day_of_interrupts(Recorded::hoist(held).unwrap(), true), *hoist.pic());
    // What the profile refused changed nothing, and the generator went the same way.
    assert_eq!(hoist.pic(), &alone);
}

/// In one trace, as far as it goes: both kinds of recorder are behind the same trait.
#[test]
fn one_trace_is_enough_for_a_short_day() {
    let mut day = Counted::new(Recorded::hoist(Recorder::planned(&[1_000; 4]).unwrap()).unwrap());
    guest(&mut day, 150, true);
    assert!(day.device.stopped().is_none());
    let trace = day.device.recorder().finish().unwrap();
    assert_eq!((trace.records().len() as u64, trace.play().pic()), (day.records, day.pic().clone()));
    let sheet = trace.sheet();
    for (input, row) in day.rows().iter().enumerate() {
        assert_eq!(sheet.inputs()[input].numbers().map(u64::from), row.numbers());
    }
    let mut events = [Event::default(); EVENTS];
    assert_eq!(day.drain(&mut events), 0);
}
