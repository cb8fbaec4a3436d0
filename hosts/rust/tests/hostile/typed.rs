//! The types of the crate.

use crate::dice::{Dice, FORMS};
use crate::rounds;
use pch_pic::axdevice::LoongArchPchPic;
use pch_pic::{difference, Board, Change, Device, Error, Event, Form, Hoist, Image, PchPic, Phase, Returned, Width, Window, Wires, EVENTS};
use std::cell::RefCell;

fn form(dice: &mut Dice) -> Form {
    dice.of(&[Form::One, Form::Two, Form::Numbered])
}

fn width(dice: &mut Dice) -> Width {
    dice.of(&[Width::Byte, Width::Word, Width::Dword, Width::Qword])
}

fn access(dice: &mut Dice) -> (Window, u64) {
    let [base, size, address] = dice.access();
    (Window::new(base, size), address)
}

/// A call on a device, any but a load.
fn moved(dice: &mut Dice, pic: &mut PchPic) {
    let ((window, address), width, value, input) = (access(dice), width(dice), dice.any(), dice.input());
    let (place, len) = (dice.of(&[0, 1, 64, usize::MAX]), dice.len());
    let mut data = dice.area(8);
    let _ = match dice.below(10) {
        0 => pic.read(window, address, width).map(drop),
        1 => pic.write(window, address, width, value).map(drop),
        2 => pic.table_read(window, address, width).map(drop),
        3 => pic.table_write(window, address, width, value).map(drop),
        4 => pic.mmio_read(window, address, &mut data),
        5 => pic.mmio_write(window, address, &data).map(drop),
        6 => pic.set_level(input, value & 1 == 1).map(drop),
        7 => pic.poll(input).map(drop),
        8 => pic.drain_bytes(&mut data, place).map(drop),
        _ => {
            let drained = pic.drain(&mut vec![Event::default(); len]);
            assert!(drained <= EVENTS.min(len));
            Ok(())
        }
    };
}

/// What a device says of itself agrees, and it is loaded again from every form.
fn told(dice: &mut Dice, pic: &PchPic) {
    assert!(pic.waiting() <= EVENTS);
    let inputs = (0..64).filter(|input| pic.in_service() >> input & 1 == 1);
    let mut counts = [0; 256];
    for vector in inputs.filter_map(|input| pic.vector(input)) {
        counts[usize::from(vector)] += 1;
    }
    assert_eq!(pic.board().counts(), &counts);
    assert_eq!((pic.vector(64), pic.vector(usize::MAX)), (None, None));
    let (first, second) = (form(dice), form(dice));
    let image = Image::converted(&pic.save(first), second).unwrap();
    assert_eq!((image.form(), image.len()), (second, second.image_len()));
    assert_eq!(PchPic::from(image).save(Form::Two), pic.save(Form::Two));
    assert!(format!("{pic:?}").contains("next_number"));
}

#[test]
fn any_bytes_as_a_device() {
    let (mut dice, mut good, mut loaded) = (Dice(2), PchPic::new(), 0);
    for _ in 0..rounds() {
        let (form, as_form) = (form(&mut dice), form(&mut dice));
        let saved = good.save(form);
        let bytes = match dice.below(4) {
            0 => dice.area(FORMS[1]),
            1 => saved.to_vec(),
            _ => dice.damaged(&saved),
        };
        let tried = PchPic::try_from(&bytes[..]);
        let named = PchPic::load(form, &bytes);
        let wanted = match Form::of_len(bytes.len()) {
            Some(found) if found == form => tried.clone(),
            Some(found) => Err(Error::Form { found, named: form }),
            None => Err(Error::Length),
        };
        assert_eq!(named, wanted);
        assert_eq!(Image::converted(&bytes, as_form).is_ok(), tried.is_ok());
        if let Ok(pic) = tried {
            (good, loaded) = (pic, loaded + 1);
        }
        for _ in 0..4 {
            moved(&mut dice, &mut good);
        }
        told(&mut dice, &good);
        if dice.once_in(500) {
            good.reset();
        }
    }
    assert!(loaded > rounds() / 4, "{loaded}");
}

#[test]
fn any_guest_of_a_hoist() {
    let (mut dice, mut hoist, mut done) = (Dice(3), Hoist::new(), 0);
    for _ in 0..rounds() {
        let ((window, address), width, value) = (access(&mut dice), width(&mut dice), dice.any());
        let mut data = dice.area(4);
        let (mut pic, phase) = hoist.into_parts();
        moved(&mut dice, &mut pic);
        hoist = Hoist::from_parts(pic, dice.of(&[phase, phase, phase, Phase::StartUp, Phase::Running]));
        let outcome = match dice.below(6) {
            0 => hoist.read(window, address, width).map(drop),
            1 => hoist.write(window, address, width, value).map(drop),
            2 => hoist.mmio_read(window, address, &mut data),
            3 => hoist.mmio_write(window, address, &data).map(drop),
            4 => hoist.end_startup(),
            _ => Device::poll(&mut hoist, dice.input()).map(drop),
        };
        done += usize::from(outcome.is_ok());
        told(&mut dice, hoist.pic());
    }
    hoist.reset();
    assert_eq!((hoist.phase(), hoist.pic()), (Phase::StartUp, &PchPic::new()));
    assert!(done > rounds() / 10, "{done}");
}

/// The published module's functions, in windows that may be anywhere and of any size.
#[test]
fn any_guest_of_the_published_face() {
    let (mut dice, mut done, mut events) = (Dice(9), 0, 0);
    for _ in 0..rounds() / 100 {
        let (base, size) = (dice.number() as usize, dice.of(&[0x400, 0x400, 0, 1, usize::MAX]));
        let face = if dice.of(&[true, false]) {
            LoongArchPchPic::<RefCell<_>>::new(base.into(), size)
        } else {
            LoongArchPchPic::wholly_inside(base.into(), size)
        };
        for _ in 0..200 {
            let ([_, _, address], width, value, input) = (dice.access(), width(&mut dice), dice.any() as usize, dice.input() as usize);
            let address = if dice.once_in(3) { address as usize } else { base.wrapping_add(dice.offset() as usize) };
            match dice.below(5) {
                0 => assert!(face.set_irq_level(input, value & 1 == 1) < Some(256)),
                1 => assert!(face.pending_vector(input) < Some(256)),
                2 => done += usize::from(face.read_register(address.into(), width).is_ok()),
                3 => done += usize::from(face.write_register(address.into(), width, value).is_ok()),
                _ => face.drain_output_events(|event| events += usize::from(event.vector < 256)),
            }
            told(&mut dice, &face.snapshot());
        }
    }
    assert!(done > rounds() / 10 && events > 0, "{done} {events}");
}

/// A device that does not keep to what it says: more events than there is room for, and inputs that are always refused.
struct Liar(PchPic);

impl Device for Liar {
    fn pic(&self) -> &PchPic {
        &self.0
    }

    fn set_level(&mut self, _: u64, _: bool) -> Result<Returned, Error> {
        Err(Error::Input)
    }

    fn poll(&mut self, _: u64) -> Result<Returned, Error> {
        Err(Error::Input)
    }

    fn drain(&mut self, events: &mut [Event]) -> usize {
        events.fill(Event { vector: 7, asserted: true, number: 7 });
        usize::MAX
    }
}

#[test]
fn any_wires() {
    let (mut dice, mut pic, mut wires) = (Dice(4), PchPic::new(), Wires::new());
    let mut above = [false; 256];
    for _ in 0..rounds() / 4 {
        moved(&mut dice, &mut pic);
        let mut route = |change: Change| above[usize::from(change.vector)] = change.asserted;
        match dice.below(3) {
            0 => wires.settle(&mut pic, &mut route),
            1 => wires.resume(&mut pic, dice.any(), &mut route),
            _ => {
                let input = dice.input();
                let line = wires.line(&mut pic, input, dice.once_in(2), &mut route);
                assert_eq!(line.is_ok(), input < 64);
                wires.settle(&mut pic, &mut route);
            }
        }
        assert!((0..=u8::MAX).all(|vector| above[usize::from(vector)] == pic.board().is_on(vector)));
        assert!(wires.vectors_on().all(|vector| above[usize::from(vector)]));
    }
    let mut told = 0;
    wires = Wires::new();
    wires.settle(&mut Liar(PchPic::new()), |_| told += 1);
    wires.resume(&mut Liar(pic.clone()), u64::MAX, |_| told += 1);
    assert_eq!(wires.line(&mut Liar(pic), u64::MAX, true, |_| told += 1), Err(Error::Input));
    assert!(format!("{wires:?} {told}").contains("high"));
}

#[test]
fn any_event() {
    let (mut dice, mut board) = (Dice(5), Board::new());
    for _ in 0..rounds() {
        let mut events: Vec<Event> = (0..dice.below(40))
            .map(|_| Event { vector: dice.number() as u8, asserted: dice.once_in(2), number: dice.number() as u16 })
            .collect();
        for event in &events {
            let before = board.count(event.vector);
            let after = if event.asserted { before.saturating_add(1) } else { before.saturating_sub(1) };
            assert_eq!(board.hear(*event), after);
        }
        Event::sort(&mut events);
        Event::sort_from_reset(&mut events);
        assert!(events.windows(2).all(|two| two[0].number <= two[1].number));
        let (later, earlier, bytes) = (dice.number() as u16, dice.number() as u16, dice.number() as usize);
        assert_eq!(difference(later, earlier), later.wrapping_sub(earlier) as i16);
        assert_eq!(Width::try_from(bytes).is_ok(), [1, 2, 4, 8].contains(&bytes));
    }
}

/// What is recorded, kept, played, counted and gone through.
#[cfg(feature = "std")]
mod days {
    use super::*;
    use pch_pic::history::{End, Wait};
    use pch_pic::{
        file, DayRecorder, GuestDevice, Record, RecordError, Recordable, Recorded, Recorder, Recording, Tally, Trace, RECORDS_MAX,
        TALLY_LEN,
    };
    use std::fs;

    /// What can be asked of a good trace: it agrees with itself.
    fn went_through(dice: &mut Dice, trace: &Trace) {
        let played = trace.play_in(form(dice));
        assert_eq!(played.steps().count(), trace.records().len());
        for step in played.steps() {
            assert!(!format!("{:25} {step}", step.record).is_empty());
            assert!(step.events().count() <= EVENTS);
            assert_eq!(step.answer()[0], step.outcome().map_or_else(|why| why.number(), |_| 0));
        }
        let (sheet, history) = (trace.sheet(), trace.history());
        assert_eq!((sheet.input(63).is_some(), sheet.input(64), sheet.input(usize::MAX)), (true, None, None));
        let dropped = history.moments().iter().flat_map(|moment| &moment.made).filter(|made| made.fate == pch_pic::history::Fate::Dropped);
        assert_eq!(dropped.count(), sheet.total().dropped as usize);
        assert_eq!(history.moments().last().map(|last| last.latched), Some(trace.play().pic().latched()));
        assert_eq!(sheet.csv().lines().count(), 66);
        assert!(format!("{trace:?} {sheet}").contains("records"));
        // A tally of the trace alone has the same numbers, and goes on from what was played.
        let mut tally = Tally::new();
        tally.add(trace, &PchPic::new()).unwrap();
        let long = tally.sheet().unwrap();
        assert_eq!((long.records(), long.to_string(), long.csv()), (sheet.records(), sheet.to_string(), sheet.csv()));
        tally.add(trace, &trace.play().pic()).unwrap();
        assert_eq!(tally.records(), 2 * trace.records().len() as u64);
        assert_eq!(Tally::from_bytes(tally.as_bytes()).as_ref(), Ok(&tally));
        assert_eq!(Tally::from_bytes(&tally.as_bytes()[1..]), Err(Error::Room));
    }

    fn day_of(records: &[Record]) -> Trace {
        let mut recorder = Recorder::new();
        records.iter().for_each(|record| recorder.take(*record).unwrap());
        recorder.finish().unwrap()
    }

    /// A tally at its end is refused, and stays as it was.
    #[test]
    fn any_bytes_as_a_tally() {
        let mut dice = Dice(9);
        let trace = day_of(&[Record::Raise(5), Record::Drain]);
        for _ in 0..rounds() / 4 {
            let bytes = dice.bytes(TALLY_LEN);
            assert!(matches!(Tally::from_bytes(&bytes), Err(Error::Tally(place)) if place % 8 == 0 && place < 5_200));
        }
        let mut bytes = *Tally::new().as_bytes();
        bytes[8 * 640..8 * 641].copy_from_slice(&(u64::MAX / 2).to_le_bytes());
        let mut tally = Tally::from_bytes(&bytes).unwrap();
        tally.add(&trace, &PchPic::new()).unwrap();
        assert_eq!((tally.sheet(), tally.records()), (Err(Error::Tally(472)), (1 << 63) + trace.records().len() as u64 - 1));
        let stood = tally.clone();
        assert_eq!(tally.add(&trace, &PchPic::new()), Err(Error::Tally(472)));
        assert_eq!(tally, stood);
    }

    #[test]
    fn any_bytes_as_a_trace() {
        let (mut dice, mut good, mut salvaged) = (Dice(6), 0, 0);
        for _ in 0..rounds() / 4 {
            let bytes = if dice.once_in(10) { dice.area(100) } else { dice.trace() };
            if let Ok(trace) = Trace::try_from(bytes.clone()) {
                went_through(&mut dice, &trace);
                good += 1;
            }
            if let Ok(left) = Trace::salvage(&bytes) {
                went_through(&mut dice, &left.trace);
                salvaged += usize::from(!left.dropped.is_empty());
            }
        }
        assert!(good > rounds() / 20 && salvaged > rounds() / 40, "{good} {salvaged}");
    }

    #[test]
    fn any_bytes_as_a_file() {
        let path = concat!(env!("CARGO_TARGET_TMPDIR"), "/hostile");
        let (mut dice, mut loaded) = (Dice(7), 0);
        let saved = [Form::One, Form::Two, Form::Numbered].map(|form| {
            file::save(&PchPic::new(), form, path).unwrap();
            fs::read(path).unwrap()
        });
        for _ in 0..200 {
            let saved = &saved[dice.below(3)];
            fs::write(path, if dice.once_in(4) { dice.area(300) } else { dice.damaged(saved) }).unwrap();
            loaded += usize::from(file::load(path).is_ok());
            assert!(Trace::load(path).is_err() && Trace::salvage_file(path).is_err());
        }
        assert!((20..180).contains(&loaded), "{loaded}");
    }

    /// A call on a device of any kind.
    fn called(dice: &mut Dice, day: &mut dyn GuestDevice) {
        let ((window, address), width, value, input) = (access(dice), width(dice), dice.any(), dice.input());
        let mut data = dice.area(8);
        let _ = match dice.below(9) {
            0 => day.read(window, address, width).map(drop),
            1 => day.write(window, address, width, value).map(drop),
            2 => day.mmio_read(window, address, &mut data),
            3 => day.mmio_write(window, address, &data).map(drop),
            4 | 5 => day.set_level(input, value & 1 == 1).map(drop),
            6 => day.poll(input).map(drop),
            7 => day.end_startup(),
            _ => {
                assert!(day.drain(&mut [Event::default(); EVENTS]) <= EVENTS);
                Ok(())
            }
        };
    }

    fn lived<D: Recordable, R: Recording>(dice: &mut Dice, day: &mut Recorded<D, R>) {
        for _ in 0..dice.below(200) {
            called(dice, day);
            if dice.once_in(9) {
                let _ = day.close_block();
            }
        }
    }

    /// What was recorded of a device is a good trace, and where nothing stopped it, that is the device.
    fn recorded_or_refused<D: Recordable>(dice: &mut Dice, mut day: Recorded<D>) {
        lived(dice, &mut day);
        match day.recorder().finish() {
            Ok(trace) if day.stopped().is_none() => assert_eq!(trace.play().pic(), *day.pic()),
            Ok(trace) => went_through(dice, &trace),
            Err(why) => assert!(matches!(why, RecordError::Empty)),
        }
    }

    #[test]
    fn any_day_is_recorded_or_refused() {
        let mut dice = Dice(8);
        for _ in 0..rounds() / 200 {
            let plan: Vec<u16> = (0..dice.below(70)).map(|_| dice.number() as u16 >> dice.below(17).min(15)).collect();
            let recorder = || Recorder::planned(&plan).unwrap_or_default();
            recorded_or_refused(&mut dice, Recorded::with_recorder(recorder()).unwrap());
            recorded_or_refused(&mut dice, Recorded::hoist(recorder()).unwrap());
        }
    }

    #[test]
    fn any_day_in_a_folder() {
        let mut dice = Dice(10);
        let home = std::path::PathBuf::from(concat!(env!("CARGO_TARGET_TMPDIR"), "/hostile-days"));
        let _ = fs::remove_dir_all(&home);
        fs::create_dir_all(&home).unwrap();
        for number in 0..8 {
            let folder = home.join(number.to_string());
            let Ok(recorder) = DayRecorder::planned(&folder, dice.number() as u16 >> dice.below(17).min(15)) else { continue };
            let mut day = Recorded::hoist(recorder).unwrap();
            for _ in 0..dice.below(4) {
                lived(&mut dice, &mut day);
                day.next_trace().unwrap();
            }
            match day.end() {
                Err(RecordError::Empty) => assert_eq!(day.recorder().records(), 0),
                ended => ended.unwrap(),
            }
            let mut image = PchPic::new().save(Form::Numbered);
            for trace in 1..=day.recorder().traces() {
                image = Trace::load(folder.join(format!("{trace:05}.trace"))).unwrap().play_on(&image).image().clone();
            }
            assert!(day.stopped().is_some() || image == day.pic().save(Form::Numbered));
        }
        fs::remove_dir_all(&home).unwrap();
    }

    #[test]
    fn more_than_a_recorder_takes() {
        let mut recorder = Recorder::new();
        for number in 0..RECORDS_MAX + 2 {
            assert_eq!(recorder.take(Record::Drain).is_ok(), number < RECORDS_MAX);
        }
        assert_eq!(recorder.finish().unwrap().records().len(), RECORDS_MAX);
        assert!(Recorder::planned(&vec![u16::MAX; 1 << 20]).is_err());
        assert_eq!(Wait { input: usize::MAX, raised: usize::MAX, end: End::Asserted(0) }.length(), None);
    }
}
