//! A hypervisor that knows the published module's functions, over this device: its own lock, its sink, and a guest that uses one input.

#[macro_use]
mod common;

use pch_pic::axdevice::{AccessWidth, DeviceError, DeviceResult, GuestPhysAddr, Lock, LoongArchPchPic, PchPicOutputEvent};
use pch_pic::{reg, PchPic};
use std::sync::{Arc, Mutex, PoisonError};
use std::thread;

const BASE: usize = 0x1000_0000;
const INPUT: usize = 21;
const VECTOR: usize = 0x55;

/// The lock of this host. A kernel has a spin lock here that keeps interrupts off.
struct HostLock(Mutex<PchPic>);

impl Lock for HostLock {
    fn new(pic: PchPic) -> Self {
        HostLock(Mutex::new(pic))
    }

    fn with<R>(&self, work: impl FnOnce(&mut PchPic) -> R) -> R {
        work(&mut self.0.lock().unwrap_or_else(PoisonError::into_inner))
    }
}

type Pic = LoongArchPchPic<HostLock>;

/// A real host moves the vector at the controller above here.
fn publish(event: PchPicOutputEvent) {
    say!("  {} vector {:#04x}", if event.asserted { "assert" } else { "deassert" }, event.vector);
}

/// A guest's write, and then all that it made.
fn guest_writes(pic: &Pic, offset: u64, width: AccessWidth, val: usize) -> DeviceResult {
    pic.write_register(GuestPhysAddr::from_usize(BASE + offset as usize), width, val)?;
    pic.drain_output_events(publish);
    Ok(())
}

/// A device's line moves, on a thread of its own.
fn line_moves(pic: &Arc<Pic>, level: bool) {
    let pic = Arc::clone(pic);
    let moved = thread::spawn(move || pic.set_irq_level(INPUT, level));
    if let Ok(Some(vector)) = moved.join() {
        publish(PchPicOutputEvent { vector, asserted: level });
    }
}

fn main() -> DeviceResult {
    let pic = Arc::new(Pic::new(BASE.into(), 0x400));
    say!("The guest gives input {INPUT} its vector and unmasks it.");
    guest_writes(&pic, reg::VECTORS + INPUT as u64, AccessWidth::Byte, VECTOR)?;
    guest_writes(&pic, reg::MASK, AccessWidth::Dword, !(1 << INPUT))?;
    say!("Its line goes up.");
    line_moves(&pic, true);
    say!("The guest masks it, and unmasks it again.");
    guest_writes(&pic, reg::MASK, AccessWidth::Dword, !0)?;
    guest_writes(&pic, reg::MASK, AccessWidth::Dword, !(1 << INPUT))?;
    say!("The line goes down.");
    line_moves(&pic, false);
    say!("An input that is not there: {:?}.", pic.pending_vector(64));
    if let Err(error @ DeviceError::OutOfRange { .. }) = guest_writes(&pic, reg::WINDOW_LEN, AccessWidth::Dword, 0) {
        say!("A write behind the window: {error}.");
    }
    say!("Dropped events: {}.", pic.drops());
    Ok(())
}
