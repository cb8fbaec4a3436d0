//! Days recorded and played back: every byte that the live calls gave comes again. Also what a recorder refuses, days that are cut short and salvaged, files.
#![cfg(feature = "std")]

use pch_pic::trace::LoadError;
use pch_pic::{
    reg, Dropped, Error, Event, Form, PchPic, Record, RecordError, Recorded, Recorder, Returned, Salvaged, Trace, Width, Window, Wires,
    BLOCKS_MAX, EVENTS, RECORDS_MAX,
};
use std::fs;
use std::path::PathBuf;

const WINDOW: Window = Window::at(0x1000_0000);

/// A folder of its own, gone at the end.
struct Folder(PathBuf);

impl Folder {
    fn new(name: &str) -> Self {
        let path = std::env::temp_dir().join(format!("pch-pic-trace-{name}-{}", std::process::id()));
        fs::create_dir_all(&path).unwrap();
        Folder(path)
    }
}

impl Drop for Folder {
    fn drop(&mut self) {
        let _ = fs::remove_dir_all(&self.0);
    }
}

/// The 16 answer bytes that a number and a value are.
fn answer(number: u8, value: Option<u64>) -> Vec<u8> {
    [&[number, u8::from(value.is_some()), 0, 0, 0, 0, 0, 0], &value.unwrap_or(0).to_le_bytes()[..]].concat()
}

fn answer_of(outcome: Result<Option<u64>, Error>) -> Vec<u8> {
    outcome.map_or_else(|why| answer(why.number(), why.value()), |value| answer(0, value))
}

fn value_of(event: Event) -> u64 {
    u64::from(event.vector) | u64::from(event.number) << 16
}

/// A recorded device, and what its live calls gave.
#[derive(Default)]
struct Live {
    day: Recorded,
    answers: Vec<u8>,
    events: Vec<Event>,
}

impl Live {
    fn returned(&mut self, returned: Result<Returned, Error>) {
        self.answers.extend(answer_of(returned.map(|returned| returned.event().map(value_of))));
    }

    fn level(&mut self, input: u64, level: bool) {
        let returned = self.day.set_level(input, level);
        self.returned(returned);
    }

    fn poll(&mut self, input: u64) {
        let returned = self.day.poll(input);
        self.returned(returned);
    }

    fn read(&mut self, offset: u64, bytes: usize) {
        let mut data = vec![0; bytes];
        let read = self.day.mmio_read(WINDOW, WINDOW.base + offset, &mut data);
        let value = data.iter().rev().fold(0, |value, byte| value << 8 | u64::from(*byte));
        self.answers.extend(answer_of(read.map(|()| Some(value))));
    }

    fn write(&mut self, offset: u64, bytes: usize, value: u64) {
        let written = self.day.mmio_write(WINDOW, WINDOW.base + offset, &value.to_le_bytes()[..bytes]);
        self.answers.extend(answer_of(written.map(|dropped| Some(u64::from(dropped)))));
    }

    fn drain(&mut self) {
        let mut events = [Event::default(); EVENTS];
        let count = self.day.drain(&mut events);
        self.answers.extend(answer(0, Some(count as u64)));
        self.events.extend(&events[..count]);
    }

    /// The day as a trace, which plays to every byte that the calls gave.
    fn played(&self) -> Trace {
        assert!(self.day.stopped().is_none(), "{:?}", self.day.stopped());
        let trace = self.day.recorder().finish().unwrap();
        let played = trace.play();
        assert_eq!(played.answers(), self.answers);
        let events =
            self.events.iter().flat_map(|event| [event.vector, u8::from(event.asserted), event.number as u8, (event.number >> 8) as u8]);
        assert!(played.events().iter().copied().eq(events));
        assert_eq!(played.image(), &self.day.pic().save(Form::Numbered));
        assert_eq!(played.pic(), *self.day.pic());
        trace
    }
}

fn start_up(live: &mut Live) {
    for input in 0..64 {
        live.write(reg::VECTORS + input, 1, 0x40 + input);
    }
    live.write(reg::MASK, 8, u64::MAX);
    live.write(reg::CLEAR, 8, u64::MAX);
    live.read(reg::ID, 8);
}

/// Seventeen lines go up, and are masked at once: sixteen events wait, and one is dropped.
fn seventeen(live: &mut Live) {
    live.write(reg::MASK, 4, 0);
    for input in 0..=16 {
        live.level(input, true);
    }
    live.write(reg::MASK, 4, 0xffff_ffff);
    live.drain();
    assert_eq!((live.events.len(), live.day.pic().drops()), (16, 1));
}

#[test]
fn a_day_plays_to_the_same_bytes() {
    let mut live = Live::default();
    start_up(&mut live);
    live.day.close_block().unwrap();
    seventeen(&mut live);
    live.level(64, true);
    live.level(255, false);
    live.poll(64);
    live.read(reg::ID, 3);
    live.write(reg::MASK, 0, 0);
    live.day.close_block().unwrap();
    live.level(3, false);
    live.write(reg::MASK, 4, 0xffff_fff0);
    live.poll(1);
    live.read(reg::WINDOW_LEN - 4, 4);
    live.drain();
    let trace = live.played();
    assert!(trace.blocks().eq([67, 25, 5]));
    let played = trace.play();
    let steps: Vec<_> = played.steps().collect();
    assert_eq!(steps.len(), 97);
    assert_eq!((steps[66].record, steps[66].to_string()), (Record::Read { offset: 0, width: 8 }, "= 003f000107000000".to_string()));
    assert_eq!((steps[68].number, steps[68].record, steps[68].outcome()), (68, Record::Raise(0), Ok(Some(0x40))));
    assert_eq!(steps[68].events().collect::<Vec<_>>(), [Event { vector: 0x40, asserted: true, number: 0 }]);
    assert_eq!((steps[87].record, steps[87].outcome(), steps[87].to_string()), (Record::Raise(64), Err(Error::Input), "e3".to_string()));
    assert_eq!(steps[86].events().count(), 16);
    assert_eq!(steps[96].events().map(|event| event.to_string()).collect::<Vec<_>>(), ["assert vector 0x40"]);
    assert_eq!(steps[96].to_string(), "d +40");
    assert_eq!(steps.iter().map(|step| step.drained().len()).sum::<usize>(), played.events().len());
}

/// A small generator, so that each run makes the same calls.
struct Chance(u64);

impl Chance {
    fn next(&mut self) -> u64 {
        self.0 ^= self.0 << 13;
        self.0 ^= self.0 >> 7;
        self.0 ^= self.0 << 17;
        self.0
    }
}

#[test]
fn the_longest_day_plays_to_the_same_bytes() {
    let (mut live, mut chance) = (Live::default(), Chance(0x9e37_79b9_7f4a_7c15));
    let offsets = [reg::MASK, reg::MASK + reg::HIGH, reg::CLEAR, reg::ISR, reg::VECTORS, reg::POL];
    for call in 0..RECORDS_MAX {
        let dice = chance.next();
        let (input, offset, bytes) = (dice >> 32 & 31, offsets[(dice >> 16) as usize % 6] + (dice >> 24 & 7), 1 << (dice >> 12 & 3));
        // Few drains, so that events are dropped too.
        match dice % 256 {
            0..=79 => live.level(input, true),
            80..=99 => live.level(input, false),
            100..=119 => live.poll(input),
            120..=139 => live.read(offset, bytes),
            140..=254 => live.write(offset, bytes, chance.next() & chance.next()),
            _ => live.drain(),
        }
        if call % 62 == 61 && call / 62 < 63 {
            live.day.close_block().unwrap();
        }
    }
    let trace = live.played();
    assert_eq!((trace.records().len(), trace.blocks().len(), trace.as_bytes().len()), (4_000, 64, 64_258));
    assert!(live.day.pic().drops() > 0);
    live.poll(1);
    assert!(matches!(live.day.stopped(), Some(RecordError::Full)));
}

#[test]
fn forms_without_numbers_play_too() {
    let mut live = Live::default();
    seventeen(&mut live);
    let trace = live.played();
    for form in [Form::One, Form::Two] {
        let played = trace.play_in(form);
        assert_eq!(played.image(), &live.day.pic().save(form));
        let numbers: Vec<_> = played.steps().last().unwrap().events().map(|event| event.number).collect();
        assert!(numbers.into_iter().eq(0..16));
    }
}

/// Records as a trace of one block.
fn one_block(records: &[Record]) -> Trace {
    let count = (records.len() as u16).to_le_bytes();
    let contents = [1, 0, 6, 0, count[0], count[1]];
    Trace::try_from([&contents[..], &records.iter().flat_map(|record| record.to_bytes()).collect::<Vec<_>>()].concat()).unwrap()
}

/// A day cut into traces, each played on what the one before left, is the day in one trace; and played from a reset instead, it is not.
#[test]
fn a_day_of_several_traces_plays_to_the_same_bytes() {
    let mut live = Live::default();
    start_up(&mut live);
    seventeen(&mut live);
    live.level(3, false);
    live.write(reg::MASK, 4, 0xffff_fff0);
    live.poll(1);
    live.drain();
    let day = live.played();
    let records: Vec<Record> = day.records().collect();
    for form in [Form::One, Form::Two, Form::Numbered] {
        let whole = day.play_in(form);
        for length in [1, 7, 40] {
            let (mut image, mut answers, mut events) = (PchPic::new().save(form), Vec::new(), Vec::new());
            for part in records.chunks(length).map(one_block) {
                let played = part.play_on(&image);
                answers.extend_from_slice(played.answers());
                events.extend_from_slice(played.events());
                image = played.image().clone();
            }
            assert!((&image, &answers[..], &events[..]) == (whole.image(), whole.answers(), whole.events()), "{form} by {length}");
        }
    }
    let last = one_block(&records[records.len() - 3..]);
    assert_ne!(last.play().answers(), &day.play().answers()[16 * (records.len() - 3)..]);
}

#[test]
fn a_host_with_wires_is_recorded() {
    let (mut day, mut wires) = (Recorded::new(), Wires::new());
    let (mut pic, mut plain) = (PchPic::new(), Wires::new());
    let (mut told, mut as_told) = (Vec::new(), Vec::new());
    day.write(WINDOW, WINDOW.base + reg::MASK, Width::Qword, 0).unwrap();
    wires.settle(&mut day, |change| told.push(change));
    wires.line(&mut day, 5, true, |change| told.push(change)).unwrap();
    wires.resume(&mut day, 0, |change| told.push(change));
    pic.write(WINDOW, WINDOW.base + reg::MASK, Width::Qword, 0).unwrap();
    plain.settle(&mut pic, |change| as_told.push(change));
    plain.line(&mut pic, 5, true, |change| as_told.push(change)).unwrap();
    plain.resume(&mut pic, 0, |change| as_told.push(change));
    assert_eq!((told.len(), &told), (2, &as_told));
    assert_eq!(*day.pic(), pic);
    // A write; a settle, where nobody waits a drain alone; a line with a drain; a line lowered, and another settle.
    assert_eq!(day.recorder().len(), 1 + 1 + 2 + 1 + 1);
    // Three inputs that are taken out of service wait: a settle polls them and no other. Of two lines that are high the one is raised whose latch is gone.
    for input in [6, 7, 8] {
        let _ = day.set_level(input, true).unwrap();
    }
    day.write(WINDOW, WINDOW.base + reg::ISR, Width::Qword, 0).unwrap();
    wires.settle(&mut day, |_| ());
    assert_eq!(day.recorder().len(), 6 + 3 + 1 + 1 + 3);
    wires.line(&mut day, 6, true, |_| ()).unwrap();
    wires.line(&mut day, 7, true, |_| ()).unwrap();
    day.write(WINDOW, WINDOW.base + reg::CLEAR, Width::Dword, 1 << 7 | 1 << 8).unwrap();
    wires.settle(&mut day, |_| ());
    assert_eq!(day.recorder().len(), 14 + 4 + 1 + 1 + 1);
    let trace = day.recorder().finish().unwrap();
    assert_eq!(trace.play().pic(), *day.pic());
}

#[test]
fn every_way_to_access_is_recorded() {
    let (mut day, at) = (Recorded::new(), WINDOW.base + reg::POL);
    assert_eq!(day.write(WINDOW, at, Width::Dword, 0x1234), Ok(0));
    assert_eq!(day.table_write(WINDOW, at + 4, Width::Word, 0x5678), Ok(0));
    assert_eq!(day.mmio_write(WINDOW, at + 6, &[0x9a]), Ok(0));
    assert_eq!(day.read(WINDOW, at, Width::Qword), Ok(0x009a_5678_0000_1234));
    assert_eq!(day.table_read(WINDOW, at, Width::Word), Ok(0x1234));
    let mut data = [0; 4];
    assert_eq!((day.mmio_read(WINDOW, at + 4, &mut data), data), (Ok(()), [0x78, 0x56, 0x9a, 0]));
    assert_eq!(day.mmio_write(WINDOW, at, &[1; 300]), Err(Error::Width));
    assert!(matches!(day.stopped(), Some(RecordError::Byte)));
    let (pic, recorder) = day.into_parts();
    let trace = recorder.finish().unwrap();
    let offset = reg::POL as u16;
    assert!(trace.records().eq([
        Record::Write { offset, width: 4, value: 0x1234 },
        Record::Write { offset: offset + 4, width: 2, value: 0x5678 },
        Record::Write { offset: offset + 6, width: 1, value: 0x9a },
        Record::Read { offset, width: 8 },
        Record::Read { offset, width: 2 },
        Record::Read { offset: offset + 4, width: 4 },
    ]));
    assert_eq!(trace.play().pic(), pic);
}

#[test]
fn what_cannot_be_recorded_stops_the_recording_and_not_the_device() {
    /// Each does what no record can say.
    type Way = fn(&mut Recorded);
    let ways: [(Way, &str); 5] = [
        (|day| day.reset(), "a reset"),
        (|day| day.replace(PchPic::new()), "a load"),
        (|day| assert!(day.drain(&mut [Event::default(); EVENTS - 1]) < EVENTS), "some events only"),
        (|day| assert!(day.read(WINDOW, WINDOW.base + reg::WINDOW_LEN, Width::Dword).is_err()), "plays it otherwise"),
        (|day| assert_eq!(day.poll(256), Err(Error::Input)), "over 255"),
    ];
    for (way, why) in ways {
        let mut day = Recorded::new();
        day.write(WINDOW, WINDOW.base + reg::MASK, Width::Dword, 0).unwrap();
        let _ = day.set_level(7, true).unwrap();
        let before = day.pic().clone();
        way(&mut day);
        assert!(day.stopped().unwrap().to_string().contains(why), "{why}: {:?}", day.stopped());
        let latched = day.pic().latched();
        let _ = day.set_level(9, true).unwrap();
        assert_eq!(day.pic().latched(), latched | 1 << 9);
        assert!(day.close_block().is_ok());
        let trace = day.recorder().finish().unwrap();
        assert_eq!((trace.records().len(), trace.play().pic()), (2, before));
    }
}

#[test]
fn what_no_record_can_say_is_refused() {
    let (mut recorder, at_0, large) = (Recorder::new(), Window::at(0), Window::new(0, 1 << 32));
    let base = WINDOW.base;
    assert!(matches!(recorder.raise(256), Err(RecordError::Byte)));
    assert!(matches!(recorder.lower(u64::MAX), Err(RecordError::Byte)));
    assert!(matches!(recorder.poll(256), Err(RecordError::Byte)));
    assert!(matches!(recorder.read(at_0, 0, 256), Err(RecordError::Byte)));
    assert!(matches!(recorder.write(at_0, 0, (1 << 32) + 4, 0), Err(RecordError::Byte)));
    assert!(matches!(recorder.read(WINDOW, base - 1, 4), Err(RecordError::Offset)));
    assert!(matches!(recorder.write(Window::new(base, 1 << 32), base + 0x1_0000, 4, 0), Err(RecordError::Offset)));
    assert!(matches!(recorder.read(at_0, 0x400, 4), Err(RecordError::Refused)));
    assert!(matches!(recorder.write(WINDOW, base + 0x3fc, 8, 0), Err(RecordError::Refused)));
    assert!(matches!(recorder.read(WINDOW, base + 0xffff, 2), Err(RecordError::Refused)));
    assert!(matches!(recorder.read(large, 0xffff, 2), Err(RecordError::Refused)));
    assert!(matches!(recorder.read(Window::at(u64::MAX - 3), u64::MAX - 3, 4), Err(RecordError::Refused)));
    assert!(matches!(recorder.drain(EVENTS - 1), Err(RecordError::Some)));
    assert!(recorder.is_empty());
    // Refused by both windows alike, and near the end of all addresses by none.
    recorder.read(at_0, 0xffff, 2).unwrap();
    recorder.write(Window::new(u64::MAX - 3, 4), u64::MAX - 3, 2, 5).unwrap();
    let trace = recorder.finish().unwrap();
    let played = trace.play();
    assert!(played.steps().map(|step| step.outcome()).eq([Err(Error::Outside(0xffff)), Ok(Some(0))]));
}

#[test]
fn blocks_and_plans_have_limits() {
    let mut recorder = Recorder::default();
    assert!(matches!(recorder.finish(), Err(RecordError::Empty)));
    assert!(matches!(recorder.close_block(), Err(RecordError::Empty)));
    for _ in 0..BLOCKS_MAX {
        recorder.poll(1).unwrap();
        recorder.close_block().unwrap();
    }
    assert!(matches!(recorder.close_block(), Err(RecordError::Empty)));
    assert!(matches!(recorder.drain(EVENTS), Err(RecordError::Blocks)));
    assert!(recorder.finish().unwrap().blocks().eq([1; BLOCKS_MAX]));
    for plan in [&[][..], &[1; 65], &[1, 0], &[3_999, 2]] {
        assert!(matches!(Recorder::planned(plan), Err(RecordError::Plan)), "{plan:?}");
    }
    assert!(Recorder::planned(&[1; 64]).is_ok());
    let mut recorder = Recorder::planned(&[2, 2]).unwrap();
    recorder.raise(1).unwrap();
    assert!(matches!(recorder.close_block(), Err(RecordError::Planned)));
    recorder.raise(2).unwrap();
    recorder.raise(3).unwrap();
    assert!(recorder.finish().unwrap().blocks().eq([2, 1]));
    recorder.raise(4).unwrap();
    assert!(matches!(recorder.raise(5), Err(RecordError::Full)));
    assert!(recorder.finish().unwrap().blocks().eq([2, 2]));
    assert!(matches!(Recorded::with_recorder(recorder), Err(RecordError::Started)));
}

/// A day that ends at any record leaves right contents, the records taken, and bad ones behind them. The recorder is forgotten, as by a lost power.
#[test]
fn a_day_cut_short_leaves_right_contents() {
    let folder = Folder::new("short");
    let path = folder.0.join("day");
    for calls in 0..=8 {
        let mut day = Recorded::with_recorder(Recorder::kept(&[3, 1, 4], &path).unwrap()).unwrap();
        for call in 0..calls {
            day.write(WINDOW, WINDOW.base + reg::POL, Width::Qword, 0x0101_0101_0101_0101 * (call + 1)).unwrap();
        }
        assert!(day.stopped().is_none());
        std::mem::forget(day);
        let bytes = fs::read(&path).unwrap();
        assert_eq!(bytes[..14], [3, 0, 14, 0, 3, 0, 62, 0, 1, 0, 78, 0, 4, 0]);
        let last = bytes[14..].chunks(16).map(|record| u64::from(record[15]));
        assert!(last.eq((0..8).map(|call| if call < calls { call + 1 } else { 0 })));
        match Trace::load(&path) {
            Err(LoadError::Trace(Error::Record(bad))) => assert_eq!((bad, calls < 8), (calls, true)),
            Ok(trace) => assert_eq!((trace.blocks().collect::<Vec<_>>(), calls), (vec![3, 1, 4], 8)),
            other => panic!("{other:?}"),
        }
        // What is salvaged of it are the blocks that were full.
        match Trace::salvage_file(&path) {
            Err(LoadError::Trace(Error::Empty)) => assert!(calls < 3),
            Ok(salvaged) => {
                let full = match calls {
                    3 => 1,
                    4..=7 => 2,
                    _ => 3,
                };
                assert!(calls >= 3 && salvaged.trace.blocks().eq([3, 1, 4].into_iter().take(full)));
                assert_eq!(salvaged.trace.as_bytes()[2 + 4 * full..], bytes[14..][..16 * [0, 3, 4, 8][full]]);
                let dropped: Vec<_> = (full..3)
                    .map(|block| Dropped { block, record: if block == 2 { (calls as usize).saturating_sub(4) } else { 0 } })
                    .collect();
                assert_eq!(salvaged.dropped, dropped);
            }
            other => panic!("{other:?}"),
        }
        // A file that is cut short has not the length that its contents say.
        fs::write(&path, &bytes[..bytes.len() - 1]).unwrap();
        assert!(matches!(Trace::salvage_file(&path), Err(LoadError::Trace(Error::Trace))));
    }
}

/// Every set of torn blocks of a trace of 64, by chance, and what is left of it salvaged again.
#[test]
fn what_is_salvaged_is_whole() {
    let mut recorder = Recorder::new();
    for block in 0..BLOCKS_MAX as u64 {
        for record in 0..=block % 4 {
            recorder.write(Window::at(0), reg::POL, 8, block << 8 | record).unwrap();
        }
        recorder.close_block().unwrap();
    }
    let whole = recorder.finish().unwrap();
    assert_eq!(Trace::salvage(whole.as_bytes()).unwrap(), Salvaged { trace: whole.clone(), dropped: vec![] });
    let (counts, mut chance) = (whole.blocks().collect::<Vec<_>>(), Chance(0x0123_4567_89ab_cdef));
    let mut torn_first = 0;
    for _ in 0..200 {
        let (torn, mut bytes, mut at, mut kept, mut dropped) = (chance.next(), whole.as_bytes().to_vec(), 258, Vec::new(), Vec::new());
        torn_first += torn & 1;
        for (block, count) in counts.iter().enumerate() {
            let body = at..at + 16 * count;
            if torn >> block & 1 == 1 {
                let record = chance.next() as usize % count;
                bytes[body.start + 16 * record + 4] = 1;
                bytes[body.end - 10] = 1;
                dropped.push(Dropped { block, record });
            } else {
                kept.extend(
                    whole.as_bytes()[body.clone()].chunks(16).map(|record| Record::from_bytes(record.try_into().unwrap()).unwrap()),
                );
            }
            at = body.end;
        }
        let salvaged = Trace::salvage(&bytes).unwrap();
        assert!(salvaged.trace.records().eq(kept));
        assert_eq!((salvaged.dropped.len() + salvaged.trace.blocks().len(), &salvaged.dropped), (BLOCKS_MAX, &dropped));
        assert!(salvaged.trace.blocks().eq(counts.iter().enumerate().filter(|(block, _)| torn >> block & 1 == 0).map(|(_, count)| *count)));
        assert_eq!(Trace::try_from(salvaged.trace.as_bytes().to_vec()).as_ref(), Ok(&salvaged.trace));
        assert_eq!(Trace::salvage(salvaged.trace.as_bytes()).unwrap(), Salvaged { trace: salvaged.trace, dropped: vec![] });
    }
    assert!(torn_first > 50);
}

#[test]
fn there_and_back() {
    let folder = Folder::new("back");
    let path = folder.0.join("day");
    let mut recorder = Recorder::kept(&[3, 1, 4], &path).unwrap();
    recorder.raise(1).unwrap();
    recorder.drain(EVENTS).unwrap();
    recorder.sync().unwrap();
    assert!(matches!(Trace::load(&path), Err(LoadError::Trace(Error::Record(2)))));
    let trace = recorder.finish().unwrap();
    trace.save(&path).unwrap();
    assert_eq!(Trace::load(&path).unwrap(), trace);
    assert_eq!(fs::read(&path).unwrap(), trace.as_bytes());
    assert!(trace.save(&folder.0).is_err());
    assert!(matches!(Recorder::kept(&[1], &folder.0), Err(RecordError::Io(_))));
    assert!(matches!(Trace::load(&folder.0), Err(LoadError::Io(_))));
    assert!(matches!(Trace::load(folder.0.join("nothing")), Err(LoadError::Io(_))));
    assert!(matches!(Trace::load("/dev/zero"), Err(LoadError::Trace(Error::Trace))));
    assert_eq!(fs::read_dir(&folder.0).unwrap().count(), 1);
}

/// Each record has the time that the clock told as it was taken, and a file of them stands beside the trace.
#[test]
fn times_stand_beside_a_trace() {
    use std::sync::atomic::{AtomicU64, Ordering};
    static NOW: AtomicU64 = AtomicU64::new(0xff_ffff_fff0);
    let clock = || NOW.fetch_add(1_000_000_007, Ordering::Relaxed);
    let path = std::env::temp_dir().join(format!("pch-pic-times-{}", std::process::id()));
    let mut untimed = Recorder::new();
    untimed.drain(16).unwrap();
    assert!(untimed.times().is_none() && matches!(untimed.save_times(&path), Err(RecordError::Empty)));
    assert!(matches!(untimed.with_clock(clock), Err(RecordError::Started)));
    let mut recorder = Recorder::new().with_clock(clock).unwrap();
    assert!(matches!(recorder.save_times(&path), Err(RecordError::Empty)));
    recorder.raise(5).unwrap();
    recorder.drain(16).unwrap();
    assert!(recorder.raise(256).is_err());
    assert_eq!(recorder.times().unwrap(), [0xff_ffff_fff0, 0xff_ffff_fff0 + 1_000_000_007]);
    recorder.save_times(&path).unwrap();
    let name = path.with_extension("times");
    let bytes = std::fs::read(&name).unwrap();
    assert_eq!(bytes, recorder.times().unwrap().iter().flat_map(|time| time.to_le_bytes()).collect::<Vec<_>>());
    std::fs::remove_file(name).unwrap();
}
