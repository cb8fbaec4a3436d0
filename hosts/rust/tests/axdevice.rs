//! The published module's face, without the published module: what each function gives at its borders, and what the lock is asked for. That the answers
//! are the published ones is held by tools/try-face of the repository.
#![cfg(feature = "std")]

use pch_pic::axdevice::{AccessWidth, DeviceError, GuestPhysAddr, LoongArchPchPic, PchPicOutputEvent};
use pch_pic::{reg, Error, Form, PchPic, Window};
use std::cell::RefCell;
use std::panic::{catch_unwind, AssertUnwindSafe};
use std::sync::Mutex;
use std::thread;

type Face = LoongArchPchPic<RefCell<PchPic>>;

const WIDTHS: [AccessWidth; 4] = [AccessWidth::Byte, AccessWidth::Word, AccessWidth::Dword, AccessWidth::Qword];

fn face() -> Face {
    Face::new(0.into(), 0x400)
}

fn at(offset: u64) -> GuestPhysAddr {
    GuestPhysAddr::from_usize(offset as usize)
}

fn dword<L: pch_pic::axdevice::Lock>(pic: &LoongArchPchPic<L>, offset: u64, val: usize) {
    pic.write_register(at(offset), AccessWidth::Dword, val).unwrap();
}

/// Inputs 0 to 15 in service, and then masked: a deassert of each waits.
fn sixteen_waiting<L: pch_pic::axdevice::Lock>(pic: &LoongArchPchPic<L>) {
    dword(pic, reg::MASK, 0);
    for irq in 0..16 {
        assert_eq!(pic.set_irq_level(irq, true), Some(irq));
    }
    dword(pic, reg::MASK, 0xffff_ffff);
}

#[test]
fn inputs_from_64_on_are_none_and_change_nothing() {
    let pic = face();
    dword(&pic, reg::MASK, 0);
    dword(&pic, reg::MASK + reg::HIGH, 0);
    let before = pic.snapshot();
    for irq in [64, 65, 128, 1 << 32, usize::MAX - 63, usize::MAX] {
        assert_eq!((pic.set_irq_level(irq, true), pic.set_irq_level(irq, false), pic.pending_vector(irq)), (None, None, None));
    }
    assert_eq!(pic.snapshot(), before);
    assert_eq!(pic.set_irq_level(63, true), Some(63));
}

#[test]
fn an_address_outside_comes_back_and_changes_nothing() {
    for (base, size, addr) in
        [(0x1000, 0x400, 0xfff), (0x1000, 0x400, 0x1400), (0x1000, 0, 0x1000), (0, usize::MAX, usize::MAX), (usize::MAX, 9, usize::MAX)]
    {
        let pic = Face::new(base.into(), size);
        let outside = DeviceError::OutOfRange { addr: addr as u64 };
        for width in WIDTHS {
            assert_eq!(pic.read_register(addr.into(), width), Err(outside));
            assert_eq!(pic.write_register(addr.into(), width, 0), Err(outside));
        }
        assert_eq!(pic.snapshot(), PchPic::new());
        assert_eq!(Error::from(outside), Error::Outside(addr as u64));
    }
}

#[test]
fn only_the_first_byte_has_to_be_inside() {
    let pic = Face::new(0.into(), 1);
    assert_eq!(pic.read_register(0.into(), AccessWidth::Qword), Ok(0x003f_0001_0700_0000));
    let pic = Face::new(0.into(), 0x21);
    dword(&pic, reg::MASK, 5);
    assert_eq!(pic.read_register(at(reg::MASK), AccessWidth::Dword), Ok(5));
}

#[test]
fn the_far_end_reads_0_and_never_panics() {
    let pic = Face::new(0.into(), usize::MAX);
    for back in 1..=16 {
        for width in WIDTHS {
            assert_eq!(pic.read_register((usize::MAX - back).into(), width), Ok(0));
            assert_eq!(pic.write_register((usize::MAX - back).into(), width, usize::MAX), Ok(()));
        }
    }
    assert_eq!(pic.snapshot(), PchPic::new());
}

#[test]
fn strict_windows_are_those_of_the_device() {
    let bases = [0, 1, 0x1000, usize::MAX - 0x400, usize::MAX - 1, usize::MAX];
    let sizes = [0, 1, 2, 7, 0x400, 0x401, 0x1000, usize::MAX - 1, usize::MAX];
    for (base, size) in bases.into_iter().flat_map(|base| sizes.map(|size| (base, size))) {
        let strict = Face::wholly_inside(base.into(), size);
        let window = Window::new(base as u64, size as u64);
        for edge in [base, base.wrapping_add(size), base.wrapping_add(0x400), usize::MAX] {
            for addr in (0..20).map(|step| edge.wrapping_add(step).wrapping_sub(10)) {
                for width in WIDTHS {
                    let wanted = PchPic::new().read(window, addr as u64, width);
                    assert_eq!(strict.read_register(addr.into(), width).map(|value| value as u64).map_err(Error::from), wanted);
                }
            }
        }
    }
}

#[test]
fn the_closure_of_a_drain_may_call_the_device() {
    let pic = face();
    assert_eq!(pic.set_irq_level(3, true), None);
    assert_eq!(pic.set_irq_level(9, true), None);
    dword(&pic, reg::MASK, 0); // announces 3 alone
    let mut told = Vec::new();
    pic.drain_output_events(|event| {
        told.push(event);
        if told.len() == 1 {
            assert_eq!(pic.pending_vector(9), Some(9));
            dword(&pic, reg::CLEAR, 1 << 9); // makes an event more
        }
    });
    assert_eq!(told, [PchPicOutputEvent { vector: 3, asserted: true }, PchPicOutputEvent { vector: 9, asserted: false }]);
    assert_eq!(pic.take_output_event(), None);
}

#[test]
fn a_panic_in_a_closure_leaves_the_rest_waiting_and_the_lock_free() {
    let pic = LoongArchPchPic::<Mutex<_>>::new(0.into(), 0x400);
    sixteen_waiting(&pic);
    assert!(catch_unwind(AssertUnwindSafe(|| pic.drain_output_events(|_| panic!("the host's own")))).is_err());
    assert_eq!(pic.snapshot().waiting(), 15);
    assert_eq!(pic.take_output_event(), Some(PchPicOutputEvent { vector: 1, asserted: false }));
}

#[test]
fn a_poisoned_lock_is_taken() {
    use pch_pic::axdevice::Lock;
    let lock = Mutex::new(PchPic::new());
    assert!(catch_unwind(AssertUnwindSafe(|| Lock::with(&lock, |_| panic!("the host's own")))).is_err());
    assert!(lock.is_poisoned());
    assert_eq!(Lock::with(&lock, |pic| pic.clone()), PchPic::new());
}

#[test]
fn dropped_events_are_counted() {
    let pic = face();
    sixteen_waiting(&pic);
    assert_eq!(pic.drops(), 0);
    dword(&pic, reg::MASK, 0xffff_fffe); // 16 wait: the assert of 0 is dropped
    assert_eq!(pic.drops(), 1);
    assert_eq!(pic.snapshot().waiting(), 16);
}

#[test]
fn a_device_moves_from_one_face_to_another() {
    let pic = face();
    sixteen_waiting(&pic);
    let moved = LoongArchPchPic::<Mutex<_>>::new(0x8000.into(), 0x400);
    moved.restore(PchPic::from(pic.snapshot().save(Form::Numbered)));
    assert_eq!(moved.snapshot(), pic.snapshot());
    let (mut here, mut there) = (Vec::new(), Vec::new());
    pic.drain_output_events(|event| here.push(event));
    moved.drain_output_events(|event| there.push(event));
    assert_eq!((here.len(), &here), (16, &there));
    assert_eq!(moved.read_register(0x8020.into(), AccessWidth::Dword), Ok(0xffff_ffff));
}

#[test]
fn threads_share_one_device() {
    let pic = LoongArchPchPic::<Mutex<_>>::new(0.into(), 0x400);
    dword(&pic, reg::MASK, 0);
    dword(&pic, reg::MASK + reg::HIGH, 0);
    // Each thread moves its own sixteen lines, and every move has its vector.
    let told: usize = thread::scope(|threads| {
        let movers: Vec<_> = (0..4)
            .map(|first| {
                threads.spawn({
                    let pic = &pic;
                    move || moves(pic, first * 16)
                })
            })
            .collect();
        movers.into_iter().map(|mover| mover.join().unwrap()).sum()
    });
    assert_eq!(told, 4 * 16 * 200);
    assert_eq!((pic.snapshot().in_service(), pic.snapshot().next_number()), (0, 12_800));
}

/// How many of a thread's moves returned the input's own vector.
fn moves(pic: &LoongArchPchPic<Mutex<PchPic>>, first: usize) -> usize {
    let lines = || first..first + 16;
    (0..200).map(|turn| lines().filter(|&irq| pic.set_irq_level(irq, turn % 2 == 0) == Some(irq)).count()).sum()
}
