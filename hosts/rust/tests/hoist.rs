//! The hoist profile: what passes is the full device in every byte, and what does not changes nothing.

use pch_pic::{reg, Device, Error, Form, GuestDevice, Hoist, PchPic, Phase, Width, Window, Wires};

const WINDOW: Window = Window::at(0x1000_0000);

fn at(offset: u64) -> u64 {
    WINDOW.base + offset
}

/// Input 5 in service, its vector 0x45.
fn in_service() -> Hoist {
    let mut hoist = Hoist::new();
    hoist.write(WINDOW, at(reg::VECTORS + 4), Width::Dword, 0x4746_4544).unwrap();
    hoist.write(WINDOW, at(reg::MASK), Width::Dword, 0xffff_ffdf).unwrap();
    assert_eq!(hoist.set_level(5, true).unwrap().event().map(|event| event.vector), Some(0x45));
    hoist
}

#[test]
fn every_access_is_the_full_devices_or_changes_nothing() {
    for running in [false, true] {
        let start = Hoist::from_parts(in_service().into_parts().0, if running { Phase::Running } else { Phase::StartUp });
        for offset in 0..0x410 {
            for width in [Width::Byte, Width::Word, Width::Dword, Width::Qword] {
                for value in [0, 0x0706_0504, 0x4746_4544, 0x9999_4599, 0xffff_ffff] {
                    access(&start, offset, width, value);
                }
            }
        }
    }
}

fn access(start: &Hoist, offset: u64, width: Width, value: u64) {
    let (mut hoist, mut full) = (start.clone(), start.pic().clone());
    let aligned = width == Width::Dword && offset % 4 == 0;
    match hoist.read(WINDOW, at(offset), width) {
        Err(Error::Align) => assert!(!aligned && full.read(WINDOW, at(offset), width).is_ok()),
        read => assert_eq!(read, full.read(WINDOW, at(offset), width)),
    }
    match (hoist.write(WINDOW, at(offset), width, value), full.write(WINDOW, at(offset), width, value)) {
        (Err(Error::Align), done) => {
            assert!(!aligned && done.is_ok());
            assert_eq!(&hoist, start);
        }
        (Err(Error::Profile), done) => {
            assert!(aligned && done.is_ok() && forbidden(start, offset, &full), "{offset:#x} {value:#x}");
            assert_eq!(&hoist, start);
        }
        (written, done) => {
            assert_eq!(written, done);
            assert_eq!(hoist.pic(), &full);
            assert!(done.is_err() || (aligned && !forbidden(start, offset, &full)), "{offset:#x} {value:#x}");
        }
    }
}

/// By the words of the request: ISR, vectors after start-up, a vector byte that changes in service.
fn forbidden(start: &Hoist, offset: u64, after: &PchPic) -> bool {
    let vectors = (reg::VECTORS..reg::VECTORS + 64).contains(&offset);
    let changed = |input: &usize| start.pic().in_service() >> input & 1 == 1 && start.pic().vector(*input) != after.vector(*input);
    offset == reg::ISR
        || offset == reg::ISR + reg::HIGH
        || (vectors && start.phase() == Phase::Running)
        || (0..64).any(|input| changed(&input))
}

#[test]
fn start_up_ends_once_and_with_nothing_in_service() {
    let mut hoist = in_service();
    assert_eq!((hoist.end_startup(), hoist.phase()), (Err(Error::Profile), Phase::StartUp));
    let _ = hoist.set_level(5, false).unwrap();
    let before = hoist.pic().clone();
    assert_eq!((hoist.end_startup(), hoist.phase()), (Ok(()), Phase::Running));
    assert_eq!(hoist.end_startup(), Err(Error::Profile));
    assert_eq!(hoist.pic(), &before);
    hoist.reset();
    assert_eq!(hoist, Hoist::new());
}

/// A masked input can be in service only after a load, since the profile lets no write reach ISR.
#[test]
fn a_masked_input_in_service_counts() {
    let mut pic = PchPic::new();
    pic.write(WINDOW, at(reg::ISR), Width::Dword, 1 << 9).unwrap();
    let mut hoist = Hoist::from_parts(pic, Phase::StartUp);
    assert_eq!(hoist.end_startup(), Err(Error::Profile));
    assert_eq!(hoist.write(WINDOW, at(reg::VECTORS + 8), Width::Dword, 0), Err(Error::Profile));
    assert_eq!(hoist.write(WINDOW, at(reg::VECTORS + 8), Width::Dword, 0x0000_0900), Ok(0));
}

#[test]
fn as_a_bus_hands_it_on() {
    let mut hoist = Hoist::new();
    let mut data = [0; 4];
    hoist.mmio_read(WINDOW, at(reg::ID), &mut data).unwrap();
    assert_eq!(data, [0, 0, 0, 7]);
    assert_eq!(hoist.mmio_read(WINDOW, at(reg::ID), &mut [0; 8]), Err(Error::Align));
    assert_eq!(hoist.mmio_read(WINDOW, at(0x400), &mut [0; 3]), Err(Error::Width));
    assert_eq!(hoist.mmio_write(WINDOW, at(0x400), &data), Err(Error::Outside(at(0x400))));
    assert_eq!(hoist.mmio_write(WINDOW, at(reg::MASK), &[0; 4]), Ok(0));
    assert_eq!(hoist.mmio_write(WINDOW, at(reg::MASK), &[0]), Err(Error::Align));
}

/// Wires take it as they take the full device, and it is saved with its phase.
#[test]
fn wires_and_a_save() {
    let (mut hoist, mut wires) = (Hoist::new(), Wires::new());
    hoist.write(WINDOW, at(reg::MASK), Width::Dword, 0).unwrap();
    wires.settle(&mut hoist, |_| ());
    hoist.end_startup().unwrap();
    wires.line(&mut hoist, 21, true, |_| ()).unwrap();
    assert!(wires.is_on(21));
    let (pic, phase) = hoist.clone().into_parts();
    assert_eq!(Hoist::from_parts(PchPic::from(pic.save(Form::Numbered)), phase), hoist);
}

/// A guest that is written once: start-up by aligned Dwords, an interrupt, and what comes of it.
fn one_guest(pic: &mut dyn GuestDevice) -> Vec<String> {
    let (mut wires, mut told) = (Wires::new(), Vec::new());
    pic.reset();
    pic.write(WINDOW, at(reg::VECTORS + 4), Width::Dword, 0x4746_4544).unwrap();
    pic.mmio_write(WINDOW, at(reg::MASK), &[0; 4]).unwrap();
    wires.settle(pic, |change| told.push(change.to_string()));
    pic.end_startup().unwrap();
    wires.line(pic, 5, true, |change| told.push(change.to_string())).unwrap();
    let mut data = [0; 4];
    pic.mmio_read(WINDOW, at(reg::ISR), &mut data).unwrap();
    assert_eq!((data, pic.read(WINDOW, at(reg::ISR), Width::Dword)), ([1 << 5, 0, 0, 0], Ok(1 << 5)));
    assert_eq!((pic.raise(64).unwrap_err(), pic.lower(64).unwrap_err(), pic.waiting_inputs()), (Error::Input, Error::Input, 0));
    wires.line(pic, 5, false, |change| told.push(change.to_string())).unwrap();
    told
}

#[test]
fn one_guest_for_both() {
    let (mut pic, mut hoist) = (PchPic::new(), in_service());
    assert_eq!(one_guest(&mut pic), ["assert vector 0x45", "deassert vector 0x45"]);
    assert_eq!(one_guest(&mut hoist), ["assert vector 0x45", "deassert vector 0x45"]);
    assert_eq!((hoist.pic(), hoist.phase()), (&pic, Phase::Running));
    // A plain device has no phases, and what the profile refuses is its own.
    let both: [&mut dyn GuestDevice; 2] = [&mut pic, &mut hoist];
    let refused = both.map(|pic| (pic.end_startup(), pic.write(WINDOW, at(reg::MASK), Width::Byte, 0)));
    assert_eq!(refused, [(Ok(()), Ok(0)), (Err(Error::Profile), Err(Error::Align))]);
}
