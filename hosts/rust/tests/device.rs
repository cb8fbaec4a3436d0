//! The device through its safe type: what it answers, what it refuses, and what it keeps.

use pch_pic::{difference, reg, Board, Error, Event, Form, Image, PchPic, Returned, Width, Window, EVENTS, INPUTS, VECTORS};
use std::collections::HashSet;
use std::sync::{Arc, Mutex};
use std::thread;

const WINDOW: Window = Window::at(0);
const FORMS: [Form; 3] = [Form::One, Form::Two, Form::Numbered];

fn assert_event(vector: u8, number: u16) -> Event {
    Event { vector, asserted: true, number }
}

fn deassert_event(vector: u8, number: u16) -> Event {
    Event { vector, asserted: false, number }
}

/// What a level or poll call returned, or why it was refused.
fn event(returned: Result<Returned, Error>) -> Result<Option<Event>, Error> {
    returned.map(Returned::event)
}

/// After reset everything is masked; this unmasks the low half.
fn unmasked() -> PchPic {
    let mut pic = PchPic::new();
    pic.write(WINDOW, reg::MASK, Width::Dword, 0).unwrap();
    pic
}

/// Seventeen inputs in service, and then masked with one write: events 17 to 32 wait, and 33 is dropped.
fn overflown() -> PchPic {
    let mut pic = unmasked();
    for input in 0..=16 {
        assert_eq!(event(pic.set_level(input, true)), Ok(Some(assert_event(input as u8, input as u16))));
    }
    pic.write(WINDOW, reg::MASK, Width::Dword, 0xffff_ffff).unwrap();
    pic
}

#[test]
fn reset_is_the_start() {
    let mut pic = unmasked();
    assert_ne!(pic, PchPic::new());
    pic.reset();
    assert_eq!(pic, PchPic::new());
    assert_eq!(pic, PchPic::default());
    assert_eq!((pic.waiting(), pic.drops(), pic.next_number()), (0, 0, 0));
    let mut pic = overflown();
    pic.reset();
    assert_eq!(pic, PchPic::new());
}

#[test]
fn the_four_widths_read() {
    let pic = PchPic::new();
    assert_eq!(pic.read(WINDOW, reg::ID, Width::Qword), Ok(0x003f_0001_0700_0000));
    assert_eq!(pic.read(WINDOW, reg::ID + reg::HIGH, Width::Dword), Ok(0x003f_0001));
    assert_eq!(pic.read(WINDOW, reg::ROUTES - 1, Width::Word), Ok(0x0100));
    assert_eq!(pic.read(WINDOW, reg::VECTORS + 63, Width::Byte), Ok(63));
    for width in [Width::Byte, Width::Word, Width::Dword, Width::Qword] {
        assert_eq!(Width::try_from(width.bytes()), Ok(width));
    }
}

#[test]
fn every_register_stands_at_its_offset() {
    let mut pic = PchPic::new();
    for register in [reg::MASK, reg::HTMSI_EN, reg::EDGE, reg::AUTO0, reg::AUTO1, reg::ISR, reg::POL] {
        let value = 0x1111_0000_0000_0000 | register;
        pic.write(WINDOW, register, Width::Qword, value).unwrap();
    }
    assert_eq!(pic.read(WINDOW, reg::ISR, Width::Qword), Ok(reg::ISR & !reg::MASK));
    for register in [reg::MASK, reg::HTMSI_EN, reg::EDGE, reg::AUTO0, reg::AUTO1, reg::POL] {
        assert_eq!(pic.read(WINDOW, register, Width::Qword), Ok(0x1111_0000_0000_0000 | register));
    }
    assert_eq!(event(pic.set_level(40, true)), Ok(Some(assert_event(40, 0))));
    assert_eq!(pic.read(WINDOW, reg::IRR, Width::Qword), Ok(1 << 40));
    pic.write(WINDOW, reg::CLEAR, Width::Qword, 1 << 40).unwrap();
    assert_eq!(pic.read(WINDOW, reg::IRR, Width::Qword), Ok(0));
    assert_eq!(pic.drain_events().collect::<Vec<_>>(), [deassert_event(40, 1)]);
}

#[test]
fn a_window_elsewhere() {
    let pic = PchPic::new();
    let window = Window::new(0x1000_0000, 0x30);
    assert_eq!(pic.read(window, 0x1000_0000 + reg::MASK, Width::Dword), Ok(0xffff_ffff));
    for address in [0x0fff_ffff, 0x1000_0030, 0, u64::MAX] {
        assert_eq!(pic.read(window, address, Width::Dword), Err(Error::Outside(address)));
    }
}

#[test]
fn bytes_as_a_bus_hands_them_on() {
    let mut pic = PchPic::new();
    pic.mmio_write(WINDOW, reg::VECTORS + 4, &[0x99, 0x98]).unwrap();
    let mut data = [0; 8];
    pic.mmio_read(WINDOW, reg::VECTORS, &mut data).unwrap();
    assert_eq!(data, [0, 1, 2, 3, 0x99, 0x98, 6, 7]);
}

#[test]
fn a_refusal_changes_nothing() {
    let mut pic = overflown();
    let before = pic.clone();
    let mut data = [0xa5; 9];
    assert_eq!(pic.mmio_read(WINDOW, 0, &mut data), Err(Error::Width));
    assert_eq!(pic.mmio_read(WINDOW, 0x400, &mut data[..4]), Err(Error::Outside(0x400)));
    assert_eq!(pic.mmio_write(WINDOW, 0, &data), Err(Error::Width));
    assert_eq!(pic.mmio_write(WINDOW, 0x400, &[]), Err(Error::Width));
    assert_eq!(pic.write(WINDOW, 0x400, Width::Byte, 0), Err(Error::Outside(0x400)));
    for input in [INPUTS as u64, u64::MAX] {
        assert_eq!(pic.set_level(input, true), Err(Error::Input));
        assert_eq!(pic.set_level(input, false), Err(Error::Input));
        assert_eq!(pic.poll(input), Err(Error::Input));
    }
    assert_eq!(pic.drain_bytes(&mut data, 10), Err(Error::Room));
    assert_eq!(pic, before);
    assert_eq!(data, [0xa5; 9]);
}

#[test]
fn a_write_tells_how_many_events_it_dropped() {
    let (mut pic, window) = (PchPic::new(), Window::at(0));
    assert_eq!(pic.write(window, reg::MASK, Width::Qword, 0), Ok(0));
    for input in 0..40 {
        assert_ne!(pic.set_level(input, true).unwrap(), None);
    }
    // 16 deasserts wait; the low half drops 16, the high half 8
    assert_eq!(pic.write(window, reg::MASK, Width::Qword, u64::MAX), Ok(24));
    assert_eq!((pic.waiting(), pic.drops()), (EVENTS, 24));
    assert_eq!(pic.mmio_write(window, reg::MASK, &[0]), Ok(1));
    assert_eq!(pic.write(window, 0x3fc, Width::Qword, 0), Err(Error::Outside(0x3fc)));
}

#[test]
fn the_seventeenth_event_is_dropped_and_counted() {
    let mut pic = overflown();
    assert_eq!((pic.waiting(), pic.drops(), pic.next_number()), (EVENTS, 1, 34));
    let mut events = [Event::default(); EVENTS + 4];
    assert_eq!(pic.drain(&mut events), EVENTS);
    let kept: Vec<Event> = (0..16).map(|input| deassert_event(input, 17 + u16::from(input))).collect();
    assert_eq!(events[..EVENTS], kept[..]);
    assert_eq!(events[EVENTS..], [Event::default(); 4]);
    assert_eq!((pic.waiting(), pic.drops()), (0, 1));
}

#[test]
fn a_drain_moves_what_fits() {
    let mut pic = overflown();
    assert_eq!(pic.drain(&mut []), 0);
    let mut two = [Event::default(); 2];
    assert_eq!(pic.drain(&mut two), 2);
    assert_eq!(two, [deassert_event(0, 17), deassert_event(1, 18)]);
    let mut bytes = [0xa5; 10];
    assert_eq!(pic.drain_bytes(&mut bytes, 1), Ok(2));
    assert_eq!(bytes, [0xa5, 2, 0, 19, 0, 3, 0, 20, 0, 0xa5]);
    assert_eq!(pic.drain_bytes(&mut bytes, 7), Ok(0));
    assert_eq!(pic.drain_events().len(), 12);
    assert_eq!(pic.drain_events().next(), Some(deassert_event(4, 21)));
    assert_eq!(pic.waiting(), 11);
    assert_eq!(pic.drain_events().last(), Some(deassert_event(15, 32)));
    assert_eq!(pic.drain_events().next(), None);
}

/// What was room for all is room for half: 32 bytes take eight events, 64 take sixteen.
#[test]
fn sixty_four_bytes_have_room_for_all() {
    for (len, count) in [(32, 8), (63, 15), (64, 16), (80, 16)] {
        let mut pic = overflown();
        assert_eq!(pic.drain_bytes(&mut vec![0; len], 0), Ok(count));
        assert_eq!(pic.waiting(), EVENTS - count);
    }
}

/// Returned, kept and dropped events are numbered alike, in the order in which they are made.
#[test]
fn every_event_has_its_number() {
    let mut pic = overflown();
    assert_eq!(event(pic.set_level(40, true)), Ok(None));
    assert_eq!(pic.write(WINDOW, reg::MASK + reg::HIGH, Width::Dword, 0), Ok(1)); // 34 is dropped
    assert_eq!(event(pic.set_level(41, true)), Ok(Some(assert_event(41, 35))));
    assert_eq!(pic.write(WINDOW, reg::CLEAR + reg::HIGH, Width::Dword, 1 << 9), Ok(1)); // 36 too
    assert_eq!(event(pic.set_level(40, false)), Ok(Some(deassert_event(40, 37))));
    let waiting: Vec<u16> = pic.drain_events().map(|event| event.number).collect();
    assert_eq!(waiting, (17..33).collect::<Vec<_>>());
    assert_eq!(pic.next_number(), 38);
}

#[test]
fn numbers_go_round() {
    let mut image = unmasked().save(Form::Numbered).to_vec();
    let numbers = offset_of(&image, 5);
    image[numbers..numbers + 2].copy_from_slice(&65_534_u16.to_le_bytes());
    let mut pic = PchPic::try_from(&image[..]).unwrap();
    let mut made: Vec<Event> = (0..3).filter_map(|input| pic.set_level(input, true).unwrap().event()).collect();
    assert_eq!(made, [assert_event(0, 65_534), assert_event(1, 65_535), assert_event(2, 0)]);
    assert_eq!(pic.write(WINDOW, reg::CLEAR, Width::Dword, 7), Ok(0));
    made.extend(pic.drain_events());
    assert_eq!(made.iter().map(|event| event.since(made[0])).collect::<Vec<_>>(), [0, 1, 2, 3, 4, 5]);
    assert_eq!(made[0].since(made[5]), -5);
    let in_order = made.clone();
    made.reverse();
    made.swap(1, 4);
    Event::sort(&mut made);
    assert_eq!(made, in_order);
    Event::sort(&mut []);
}

#[test]
fn differences() {
    for (later, earlier, wanted) in
        [(0, 0, 0), (0, 65_535, 1), (65_535, 0, -1), (32_767, 0, 32_767), (32_768, 0, -32_768), (0, 32_768, -32_768)]
    {
        assert_eq!(difference(later, earlier), wanted);
        assert_eq!(assert_event(1, later).since(deassert_event(2, earlier)), wanted);
    }
}

#[test]
fn a_loaded_device_goes_on_where_it_was() {
    let mut pic = overflown();
    pic.write(WINDOW, reg::VECTORS + 20, Width::Byte, 0xee).unwrap();
    pic.write(WINDOW, reg::MASK, Width::Dword, 0).unwrap();
    let mut loaded = FORMS.map(|form| PchPic::load(form, &pic.save(form)).unwrap());
    assert_eq!(loaded[2], pic);
    // Without numbers those of waiting events begin with 0.
    for (device, first) in loaded.iter_mut().chain([&mut pic]).zip([0, 0, 17, 17]) {
        let next = if first == 0 { 16 } else { 35 };
        assert_eq!(event(device.set_level(20, true)), Ok(Some(assert_event(0xee, next))));
        assert_eq!(device.drops(), 2);
        let drained: Vec<Event> = device.drain_events().collect();
        assert_eq!(drained, (0..16).map(|input| deassert_event(input, first + u16::from(input))).collect::<Vec<_>>());
    }
    assert_eq!(loaded[2], pic);
    for form in [Form::One, Form::Two] {
        assert_eq!(loaded.clone().map(|device| device.save(form)), [pic.save(form), pic.save(form), pic.save(form)]);
    }
}

#[test]
fn one_form_becomes_the_other() {
    let mut pic = overflown();
    pic.write(WINDOW, reg::ISR, Width::Qword, 0x8000_0000_0000_0003).unwrap();
    let [one, two, numbered] = FORMS.map(|form| pic.save(form));
    assert_eq!((one.len(), one.form(), two.len(), two.form()), (259, Form::One, 251, Form::Two));
    assert_eq!((numbered.len(), numbered.form()), (290, Form::default()));
    assert_eq!((&one[..2], &two[..2], &numbered[..2]), (&[1, 4][..], &[2, 4][..], &[2, 5][..]));
    // Form 2 is form 1 without the copy of IRR, which stands before IRR; the contents differ beside. With numbers, they stand at the end.
    assert_eq!(one[46..54], one[54..62]);
    assert_eq!([&one[22..46], &one[54..]].concat(), two[22..]);
    assert_eq!(numbered[27..256], two[22..]);
    assert_eq!(numbered[256..262], [34, 0, 17, 0, 18, 0]);
    for (from, to) in [(&one, &two), (&two, &one), (&one, &one), (&two, &two), (&numbered, &one), (&numbered, &two), (&numbered, &numbered)]
    {
        assert_eq!(&Image::converted(from, to.form()).unwrap(), to);
    }
    assert_eq!(PchPic::from(numbered.clone()), pic);
    // What loses its numbers has those with which it loads.
    for from in [one.clone(), two.clone()] {
        let again = Image::converted(&from, Form::Numbered).unwrap();
        assert_eq!((&again[..256], &again[256..262]), (&numbered[..256], &[16, 0, 0, 0, 1, 0][..]));
        assert_eq!(PchPic::from(from).save(Form::Numbered), again);
    }
    assert_ne!(one, two);
    assert!(format!("{two:?}").starts_with("Image { form: Two, bytes: [02, 04, 01, "));
}

/// Where the body of that kind begins, as the contents say.
fn offset_of(image: &[u8], kind: u8) -> usize {
    let entry = image[2..].chunks(5).take(usize::from(image[1])).find(|entry| entry[0] == kind).unwrap();
    usize::from(u16::from_le_bytes([entry[1], entry[2]]))
}

#[test]
fn what_is_no_image_is_refused() {
    for len in (0..300).chain([1000]) {
        let why = if Form::of_len(len).is_some() { Error::Contents } else { Error::Length };
        assert_eq!(PchPic::try_from(&vec![9; len][..]), Err(why));
        assert_eq!(Image::converted(&vec![9; len], Form::One), Err(why));
        for form in FORMS {
            let why = match Form::of_len(len) {
                Some(found) if found != form => Error::Form { found, named: form },
                _ => why,
            };
            assert_eq!(PchPic::load(form, &vec![9; len]), Err(why));
            assert_eq!(why.number(), if why == Error::Contents { 5 } else { 4 });
        }
    }
    for form in FORMS {
        let image = PchPic::new().save(form).to_vec();
        for place in 0..offset_of(&image, 1) {
            let mut other = image.clone();
            other[place] ^= 0x80;
            assert_eq!(PchPic::load(form, &other), Err(Error::Contents));
        }
        // The copy of IRR, the count, a waiting event's flag, an unused pair: places in the bodies of the registers and of the events.
        let (registers, events) = (offset_of(&image, 1), offset_of(&image, 4));
        let last = events + 36;
        let broken = |breach: &[(usize, u8)], why: fn(u64) -> Error, place: usize| {
            let mut broken = image.clone();
            for (place, byte) in breach {
                broken[*place] = *byte;
            }
            assert_eq!(PchPic::load(form, &broken), Err(why(place as u64)), "{breach:?}");
            assert_eq!(Image::converted(&broken, Form::Two), Err(why(place as u64)), "{breach:?}");
        };
        if form == Form::One {
            broken(&[(registers + 26, 1)], Error::Copy, registers + 24);
        }
        broken(&[(events, 17)], Error::Count, events);
        broken(&[(events, 2), (events + 6, 1), (events + 8, 2)], Error::Flag, events + 8);
        broken(&[(events, 1), (events + 6, 2), (last, 1)], Error::Flag, events + 6);
        broken(&[(last, 1)], Error::Unused, last);
        // An unused number comes after an unused pair; that of a waiting event may be any.
        if form == Form::Numbered {
            let numbers = offset_of(&image, 5);
            broken(&[(numbers + 33, 1)], Error::Unused, numbers + 33);
            broken(&[(numbers + 2, 1), (last, 1)], Error::Unused, last);
            broken(&[(events, 1), (numbers + 3, 1), (numbers + 4, 1)], Error::Unused, numbers + 4);
        }
    }
}

#[test]
fn reads_run_side_by_side() {
    let pic = overflown();
    thread::scope(|scope| {
        for _ in 0..4 {
            scope.spawn(|| {
                for _ in 0..1000 {
                    assert_eq!(pic.read(WINDOW, reg::IRR, Width::Qword), Ok(0x1ffff));
                    assert_eq!(pic.read(WINDOW, reg::VECTORS + 8, Width::Byte), Ok(8));
                }
            });
        }
    });
    assert_eq!(pic, overflown());
}

#[test]
fn what_the_device_holds() {
    let mut pic = overflown();
    assert_eq!((pic.latched(), pic.in_service()), (0x1ffff, 0));
    pic.write(WINDOW, reg::ISR, Width::Qword, 0x8000_0000_0000_0003).unwrap();
    assert_eq!(pic.read(WINDOW, reg::ISR, Width::Qword), Ok(0));
    assert_eq!(pic.in_service(), 0x8000_0000_0000_0003);
    pic.write(WINDOW, reg::VECTORS + 63, Width::Byte, 1).unwrap();
    assert_eq!((pic.vector(0), pic.vector(63), pic.vector(64)), (Some(0), Some(1), None));
    let board = pic.board();
    assert_eq!((board.count(0), board.count(1), board.count(63)), (1, 2, 0));
    assert!(board.vectors_on().eq([0, 1]));
    assert_eq!(format!("{board:?}"), "{0: 1, 1: 2}");
    let text = format!("{pic:?}");
    for part in ["in_service: 0x8000000000000003", "latched: 0x000000000001ffff", "waiting: 16", "drops: 1", "next_number: 34"] {
        assert!(text.contains(part), "{text}");
    }
}

#[test]
fn it_is_bytes_and_a_key() {
    let pic = unmasked();
    for form in FORMS {
        assert_eq!(PchPic::from(pic.save(form)), pic);
        assert_eq!(PchPic::try_from(pic.save(form).as_ref()), Ok(pic.clone()));
    }
    assert_eq!(HashSet::from([pic.clone(), PchPic::new(), pic]).len(), 2);
}

#[test]
fn it_is_sent_and_shared() {
    let pic = Arc::new(Mutex::new(unmasked()));
    let raised: Vec<_> = (0..4)
        .map(|part| {
            let pic = Arc::clone(&pic);
            thread::spawn(move || {
                (part * 8..part * 8 + 8).all(|input| pic.lock().unwrap().set_level(input, true).unwrap().event().is_some())
            })
        })
        .collect();
    assert!(raised.into_iter().all(|thread| thread.join().unwrap()));
    assert_eq!(pic.lock().unwrap().read(WINDOW, reg::ISR, Width::Qword), Ok(0xffff_ffff));
}

#[test]
fn events_and_errors_in_words() {
    assert_eq!(assert_event(5, 0).to_string(), "assert vector 0x05");
    assert_eq!(deassert_event(0xff, 9).to_string(), "deassert vector 0xff");
    assert_eq!(format!("{:>6}|{}", Width::Word, Width::Qword), "  Word|Qword");
    assert_eq!(usize::from(Width::Qword), 8);
    assert_eq!(Error::Outside(0x400).to_string(), "the access at 0x400 is not wholly inside the window");
}

#[test]
fn an_error_goes_up_as_any_other() {
    fn host() -> Result<u64, Box<dyn std::error::Error>> {
        Ok(PchPic::new().read(WINDOW, 0x400, Width::Dword)?)
    }
    assert_eq!(host().unwrap_err().downcast_ref(), Some(&Error::Outside(0x400)));
}

#[test]
fn by_the_table_everything_is_the_same() {
    let (mut plain, mut table) = (overflown(), overflown());
    for offset in 0..0x400_u64 {
        for width in [Width::Byte, Width::Word, Width::Dword, Width::Qword] {
            let value = (offset + 1).wrapping_mul(0x9e37_79b9_7f4a_7c15);
            assert_eq!(table.table_read(WINDOW, offset, width), plain.read(WINDOW, offset, width));
            assert_eq!(table.table_write(WINDOW, offset, width, value), plain.write(WINDOW, offset, width, value));
            assert_eq!(table, plain);
        }
    }
}

/// What a board has to hold, found out by calls alone: lowering an input returns its vector if it was in service.
fn counted(pic: &PchPic) -> [u8; VECTORS] {
    let (mut copy, mut counts) = (pic.clone(), [0; VECTORS]);
    for input in 0..INPUTS as u64 {
        for event in copy.set_level(input, false).unwrap() {
            counts[usize::from(event.vector)] += 1;
        }
    }
    assert!(copy.board().vectors_on().next().is_none());
    counts
}

/// A small generator of numbers.
fn next(state: &mut u64) -> u64 {
    *state ^= *state << 13;
    *state ^= *state >> 7;
    *state ^= *state << 17;
    *state
}

#[test]
fn the_board_is_right_after_every_call() {
    let (mut pic, mut state) = (PchPic::new(), 88_172_645_463_325_252);
    for step in 0..3_000 {
        let (word, input) = (next(&mut state), next(&mut state) % 65);
        match word % 9 {
            0 => drop(pic.poll(input)),
            1 | 2 => drop(pic.set_level(input, word % 2 == 1)),
            3 => drop(pic.write(WINDOW, reg::VECTORS + input, Width::Byte, word >> 40 & 7)),
            4 => drop(pic.write(WINDOW, reg::ISR + (input & 4), Width::Dword, word >> 20)),
            5 => drop(pic.table_write(WINDOW, (word >> 20) % 0x401, Width::Qword, word.rotate_left(17))),
            6 => drop(pic.mmio_write(WINDOW, reg::MASK, &word.to_le_bytes())),
            7 => pic = PchPic::from(pic.save(FORMS[step % FORMS.len()])),
            _ if step % 100 == 0 => pic.reset(),
            _ => drop(pic.drain_events().next()),
        }
        assert_eq!(pic.board().counts(), &counted(&pic), "step {step}");
    }
}

/// More than 32,768 events from a reset on, so that their difference would turn round: by rising number they are in order, and the second board is the first.
#[test]
fn a_second_board_hears_the_events() {
    let (mut pic, mut state, mut high) = (PchPic::new(), 88_172_645_463_325_252, 0u64);
    for input in 0..INPUTS as u64 {
        pic.write(WINDOW, reg::VECTORS + input, Width::Byte, input / 3).unwrap();
    }
    let mut events = Vec::new();
    for step in 0..40_000 {
        let (word, input) = (next(&mut state), next(&mut state) % 64);
        match word % 16 {
            0 => drop(pic.write(WINDOW, reg::MASK + (input & 4), Width::Dword, 1 << (input & 31))),
            1 => drop(pic.write(WINDOW, reg::CLEAR + (input & 4), Width::Dword, 3 << (input & 15))),
            2 => events.extend(pic.poll(input).unwrap()),
            _ => {
                high ^= 1 << input;
                events.extend(pic.set_level(input, high >> input & 1 == 1).unwrap());
            }
        }
        if step % 4 == 3 {
            events.extend(pic.drain_events());
        }
    }
    assert_eq!((pic.drops(), pic.waiting()), (0, 0));
    assert!(events.len() > 32_768 && events.len() <= 65_536, "{}", events.len());
    let hears = |events: &[Event]| {
        let mut board = Board::new();
        for event in events {
            board.hear(*event);
        }
        board
    };
    assert_ne!(&hears(&events), pic.board());
    Event::sort_from_reset(&mut events);
    assert!(events.iter().zip(0..).all(|(event, number)| event.number == number));
    assert_eq!(&hears(&events), pic.board());
    assert_eq!(pic.board().counts(), &counted(&pic));
}
