//! The published module's public functions as one trait, over plain numbers: everything that is compared is driven through it.

use pch_pic::PchPic;
use pch_pic::axdevice::{AccessWidth, DeviceError, Lock, LoongArchPchPic};

/// An event that was handed over: the vector, and whether it is asserted.
pub type Event = (usize, bool);

/// Why an access was refused.
#[derive(Clone, Copy, Debug, PartialEq, Eq)]
pub enum Refused {
    OutOfRange(u64),
    Otherwise,
}

pub trait Module {
    fn set_irq_level(&self, irq: usize, level: bool) -> Option<usize>;
    fn pending_vector(&self, irq: usize) -> Option<usize>;
    fn drain_output_events(&self, f: impl FnMut(Event));
    fn take_output_event(&self) -> Option<Event>;
    fn read_register(&self, addr: usize, width: AccessWidth) -> Result<usize, Refused>;
    fn write_register(&self, addr: usize, width: AccessWidth, val: usize) -> Result<(), Refused>;
    /// How many events were dropped since the device was made: counted, or as the lines of a log.
    fn drops(&self) -> u64;
}

/// The face, over any lock.
impl<L: Lock> Module for LoongArchPchPic<L> {
    fn set_irq_level(&self, irq: usize, level: bool) -> Option<usize> {
        self.set_irq_level(irq, level)
    }

    fn pending_vector(&self, irq: usize) -> Option<usize> {
        self.pending_vector(irq)
    }

    fn drain_output_events(&self, mut f: impl FnMut(Event)) {
        self.drain_output_events(|event| f((event.vector, event.asserted)));
    }

    fn take_output_event(&self) -> Option<Event> {
        self.take_output_event().map(|event| (event.vector, event.asserted))
    }

    fn read_register(&self, addr: usize, width: AccessWidth) -> Result<usize, Refused> {
        self.read_register(addr.into(), width).map_err(refused)
    }

    fn write_register(&self, addr: usize, width: AccessWidth, val: usize) -> Result<(), Refused> {
        self.write_register(addr.into(), width, val).map_err(refused)
    }

    fn drops(&self) -> u64 {
        self.drops().into()
    }
}

fn refused(DeviceError::OutOfRange { addr }: DeviceError) -> Refused {
    Refused::OutOfRange(addr)
}

/// A lock as a hypervisor plugs one in: it finds out whether code of the host ever runs while it is held.
pub struct HostLock {
    pic: std::sync::Mutex<PchPic>,
    held: std::cell::Cell<bool>,
}

impl Lock for HostLock {
    fn new(pic: PchPic) -> Self {
        HostLock { pic: std::sync::Mutex::new(pic), held: std::cell::Cell::new(false) }
    }

    fn with<R>(&self, work: impl FnOnce(&mut PchPic) -> R) -> R {
        assert!(!self.held.replace(true), "the lock is taken while it is held");
        let done = work(&mut self.pic.lock().expect("no work panics"));
        self.held.set(false);
        done
    }
}
