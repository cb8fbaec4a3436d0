//! The device on a bus as rust-vmm's crates have one: behind a trait of the shape of vm-device's `DeviceMmio`, with vCPUs and devices in threads of their own.
//!
//! The trait stands here so that this crate needs no other. With vm-device its `DeviceMmio`, `MmioAddress` and `MmioAddressOffset` take the place of these, and
//! `PicOnBus` stays as it is.

#[macro_use]
mod common;

use pch_pic::{reg, Change, PchPic, Window, Wires};
use std::sync::{Arc, Mutex, MutexGuard, PoisonError};
use std::thread;

/// As vm-device's.
#[derive(Clone, Copy)]
pub struct MmioAddress(pub u64);
/// As vm-device's.
pub type MmioAddressOffset = u64;

/// As vm-device's: a device is told where its range begins, and the place in it. There is no way to say that an access is refused.
pub trait DeviceMmio {
    /// The guest reads.
    fn mmio_read(&self, base: MmioAddress, offset: MmioAddressOffset, data: &mut [u8]);
    /// The guest writes.
    fn mmio_write(&self, base: MmioAddress, offset: MmioAddressOffset, data: &[u8]);
}

struct Inner {
    pic: PchPic,
    wires: Wires,
    refused: u64,
}

/// A PCH-PIC on a bus. `above` is told of each vector that goes on or off, while the device is locked, so that changes come in their order; it must not call back.
pub struct PicOnBus<F: Fn(Change)> {
    inner: Mutex<Inner>,
    above: F,
}

impl<F: Fn(Change)> PicOnBus<F> {
    /// The device after reset.
    pub fn new(above: F) -> Self {
        PicOnBus { inner: Mutex::new(Inner { pic: PchPic::new(), wires: Wires::new(), refused: 0 }), above }
    }

    /// A thread that died with the lock leaves a whole device: no call stops half way.
    fn lock(&self) -> MutexGuard<'_, Inner> {
        self.inner.lock().unwrap_or_else(PoisonError::into_inner)
    }

    /// Another device of the host moves its line. There are 64 of them.
    pub fn set_line(&self, input: u8, high: bool) {
        let inner = &mut *self.lock();
        if inner.wires.line(&mut inner.pic, input.into(), high, &self.above).is_err() {
            inner.refused += 1;
        }
    }

    /// How many accesses and lines were refused: a guest that reads over the window's end, or a width that there is not.
    pub fn refused(&self) -> u64 {
        self.lock().refused
    }
}

impl<F: Fn(Change)> DeviceMmio for PicOnBus<F> {
    fn mmio_read(&self, base: MmioAddress, offset: MmioAddressOffset, data: &mut [u8]) {
        let inner = &mut *self.lock();
        // A bus that nobody answers on reads as ones.
        let address = base.0.checked_add(offset);
        let done = address.map(|address| inner.pic.mmio_read(Window::at(base.0), address, data));
        if !matches!(done, Some(Ok(()))) {
            data.fill(0xff);
            inner.refused += 1;
        }
    }

    fn mmio_write(&self, base: MmioAddress, offset: MmioAddressOffset, data: &[u8]) {
        let inner = &mut *self.lock();
        let address = base.0.checked_add(offset);
        let done = address.map(|address| inner.pic.mmio_write(Window::at(base.0), address, data));
        match done {
            Some(Ok(_)) => inner.wires.settle(&mut inner.pic, &self.above),
            _ => inner.refused += 1,
        }
    }
}

const BASE: MmioAddress = MmioAddress(0x1000_0000);

fn main() {
    let pic = Arc::new(PicOnBus::new(|change: Change| say!("  {change}")));
    say!("The guest unmasks everything.");
    pic.mmio_write(BASE, reg::MASK, &[0; 8]);
    say!("Line 5 goes up, in a thread of its device.");
    let device = Arc::clone(&pic);
    let _ = thread::spawn(move || device.set_line(5, true)).join();
    let mut service = [0; 8];
    pic.mmio_read(BASE, reg::ISR, &mut service);
    say!("The guest reads ISR {:#x}. The line goes down.", u64::from_le_bytes(service));
    pic.set_line(5, false);
    let mut word = [0; 3];
    pic.mmio_read(BASE, 0, &mut word);
    say!("A read of three bytes gives {word:x?}; refused so far: {}.", pic.refused());
}

#[cfg(test)]
mod tests {
    use super::*;
    use std::sync::atomic::{AtomicI64, AtomicU64, Ordering};

    #[test]
    fn vcpus_and_devices_side_by_side() {
        let (on, told) = (AtomicI64::new(0), AtomicU64::new(0));
        let pic = PicOnBus::new(|change: Change| {
            told.fetch_add(1, Ordering::Relaxed);
            on.fetch_add(if change.asserted { 1 } else { -1 }, Ordering::Relaxed);
        });
        pic.mmio_write(BASE, reg::MASK, &[0; 8]);
        thread::scope(|scope| {
            for input in 0..8 {
                let pic = &pic;
                scope.spawn(move || (0..500).for_each(|turn| pic.set_line(input, turn % 2 == 0)));
                scope.spawn(move || (0..500).for_each(|_| pic.mmio_read(BASE, reg::ISR, &mut [0; 8])));
            }
        });
        // Every input has a vector of its own here, and each line ends low.
        assert_eq!((on.load(Ordering::Relaxed), told.load(Ordering::Relaxed), pic.refused()), (0, 8 * 500, 0));
    }

    #[test]
    fn what_is_refused_reads_as_ones_and_is_counted() {
        let pic = PicOnBus::new(|_| ());
        for (base, offset, len) in [(BASE, 0, 3), (BASE, 0x3fe, 4), (BASE, u64::MAX, 4), (MmioAddress(u64::MAX), 0, 8)] {
            let mut data = [0; 8];
            pic.mmio_read(base, offset, &mut data[..len]);
            assert!(data[..len].iter().all(|byte| *byte == 0xff) && data[len..].iter().all(|byte| *byte == 0));
            pic.mmio_write(base, offset, &data[..len]);
        }
        pic.set_line(64, true);
        assert_eq!(pic.refused(), 9);
    }
}
