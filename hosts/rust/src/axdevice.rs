//! The face of the published module: `LoongArchPchPic` of crate axdevice 0.8.5, over this device.
//!
//! The functions have the published names and signatures, and answer as the published ones do, call by call: an input of 64 or more is `None`, an
//! address outside is [`DeviceError::OutOfRange`] with the address, and of an access only the first byte has to be inside. `docs/SWAP.md` of the
//! repository tells step by step how a hypervisor swaps the module, and what differs.
//!
//! ```
//! use pch_pic::axdevice::{AccessWidth, DeviceError, GuestPhysAddr, LoongArchPchPic, PchPicOutputEvent};
//! use std::cell::RefCell;
//!
//! let base = GuestPhysAddr::from_usize(0x1000_0000);
//! let pic = LoongArchPchPic::<RefCell<_>>::new(base, 0x400);
//! assert_eq!(pic.set_irq_level(5, true), None); // masked: only latched
//! pic.write_register(0x1000_0020.into(), AccessWidth::Dword, 0xffff_ffdf)?; // the guest unmasks input 5
//! let mut events = Vec::new();
//! pic.drain_output_events(|event| events.push(event));
//! assert_eq!(events, [PchPicOutputEvent { vector: 5, asserted: true }]);
//! assert_eq!(pic.set_irq_level(5, false), Some(5));
//! assert_eq!(pic.read_register(0x1000_0400.into(), AccessWidth::Dword), Err(DeviceError::OutOfRange { addr: 0x1000_0400 }));
//! # Ok::<(), DeviceError>(())
//! ```
//!
//! # The lock
//!
//! The published functions take `&self`, and so there is a lock, of the host's choice: [`Lock`] says what is asked of it. `RefCell` serves one thread,
//! and `std::sync::Mutex`, with feature `std`, many. No code of the host runs while the lock is held, so a closure of
//! [`drain_output_events`](LoongArchPchPic::drain_output_events) may call the device again.
//!
//! A spin lock stands in a type of the host's own. Where the device is called from interrupt handlers, the lock has to keep interrupts off while it is held, as the
//! published one does (`ax_sync::SpinLock::lock_irqsave`, or `kspin::SpinNoIrq`):
//!
//! ```
//! # mod spin {
//! #     pub struct Mutex<T>(std::sync::Mutex<T>);
//! #     impl<T> Mutex<T> {
//! #         pub fn new(value: T) -> Self { Mutex(std::sync::Mutex::new(value)) }
//! #         pub fn lock(&self) -> std::sync::MutexGuard<'_, T> { self.0.lock().unwrap() }
//! #     }
//! # }
//! use pch_pic::axdevice::{self, Lock};
//! use pch_pic::PchPic;
//!
//! pub struct Spin(spin::Mutex<PchPic>);
//!
//! impl Lock for Spin {
//!     fn new(pic: PchPic) -> Self {
//!         Spin(spin::Mutex::new(pic))
//!     }
//!
//!     fn with<R>(&self, work: impl FnOnce(&mut PchPic) -> R) -> R {
//!         work(&mut self.0.lock())
//!     }
//! }
//!
//! pub type LoongArchPchPic = axdevice::LoongArchPchPic<Spin>;
//! # assert_eq!(LoongArchPchPic::new(0.into(), 0x400).pending_vector(64), None);
//! ```

use crate::{reg, Error, Event, PchPic, Window};
use core::cell::RefCell;
use core::fmt;

pub use crate::Width as AccessWidth;

/// The registers and the longest access that begins at their end: no access at an offset up to [`reg::WINDOW_LEN`] goes over it.
const REGISTERS: Window = Window::new(0, reg::WINDOW_LEN + 8);

/// What guards the device. `RefCell<PchPic>` and `std::sync::Mutex<PchPic>` do; any other lock stands in a type of the host's own, as the
/// [module's page](self) shows.
pub trait Lock {
    /// A lock around this device, free.
    fn new(pic: PchPic) -> Self;

    /// Does the work while nobody else is at the device.
    fn with<R>(&self, work: impl FnOnce(&mut PchPic) -> R) -> R;
}

/// For one thread. The work is never done within other work, so the borrow is free.
impl Lock for RefCell<PchPic> {
    fn new(pic: PchPic) -> Self {
        RefCell::new(pic)
    }

    fn with<R>(&self, work: impl FnOnce(&mut PchPic) -> R) -> R {
        work(&mut self.borrow_mut())
    }
}

/// For many threads. No code of the host runs under it, so one that was poisoned guards a whole device nevertheless.
#[cfg(feature = "std")]
impl Lock for std::sync::Mutex<PchPic> {
    fn new(pic: PchPic) -> Self {
        std::sync::Mutex::new(pic)
    }

    fn with<R>(&self, work: impl FnOnce(&mut PchPic) -> R) -> R {
        work(&mut self.lock().unwrap_or_else(std::sync::PoisonError::into_inner))
    }
}

/// A guest-physical address.
///
/// ```
/// use pch_pic::axdevice::GuestPhysAddr;
///
/// let addr: GuestPhysAddr = 0x1000_0000.into();
/// assert_eq!(addr, GuestPhysAddr::from_usize(0x1000_0000));
/// assert_eq!((addr.as_usize(), usize::from(addr), u64::from(addr)), (0x1000_0000, 0x1000_0000, 0x1000_0000));
/// ```
#[derive(Clone, Copy, Debug, Default, PartialEq, Eq, PartialOrd, Ord, Hash)]
pub struct GuestPhysAddr(usize);

impl GuestPhysAddr {
    /// The address of this number.
    pub const fn from_usize(addr: usize) -> Self {
        GuestPhysAddr(addr)
    }

    /// Its number.
    pub const fn as_usize(self) -> usize {
        self.0
    }
}

impl From<usize> for GuestPhysAddr {
    fn from(addr: usize) -> Self {
        GuestPhysAddr(addr)
    }
}

impl From<GuestPhysAddr> for usize {
    fn from(addr: GuestPhysAddr) -> Self {
        addr.0
    }
}

impl From<GuestPhysAddr> for u64 {
    fn from(addr: GuestPhysAddr) -> Self {
        addr.0 as u64
    }
}

/// A vector to assert or to deassert at the interrupt controller above (EIOINTC).
#[derive(Clone, Copy, Debug, PartialEq, Eq, Hash)]
pub struct PchPicOutputEvent {
    /// The vector, 0 to 255.
    pub vector: usize,
    /// Whether it is to be asserted, or deasserted.
    pub asserted: bool,
}

impl From<Event> for PchPicOutputEvent {
    /// The event without its number, which the published one does not have.
    fn from(event: Event) -> Self {
        PchPicOutputEvent { vector: usize::from(event.vector), asserted: event.asserted }
    }
}

/// Why an access was refused: the one error that the published functions give.
#[derive(Clone, Copy, Debug, PartialEq, Eq, Hash)]
pub enum DeviceError {
    /// The access is not inside the device's window.
    OutOfRange {
        /// Its address.
        addr: u64,
    },
}

/// What an access gives.
pub type DeviceResult<T = ()> = Result<T, DeviceError>;

impl fmt::Display for DeviceError {
    fn fmt(&self, f: &mut fmt::Formatter<'_>) -> fmt::Result {
        let DeviceError::OutOfRange { addr } = self;
        write!(f, "the address {addr:#x} is out of the device's range")
    }
}

impl core::error::Error for DeviceError {}

impl From<DeviceError> for Error {
    fn from(DeviceError::OutOfRange { addr }: DeviceError) -> Self {
        Error::Outside(addr)
    }
}

/// The published controller: the device in its window, behind a lock.
#[derive(Debug)]
pub struct LoongArchPchPic<L> {
    base: usize,
    size: usize,
    /// How much of an access has to be inside: all of it, or its first byte.
    whole: bool,
    lock: L,
}

impl<L: Lock> LoongArchPchPic<L> {
    /// The controller after reset, with `size` bytes from `base` on. As published, an access is answered where its first byte is inside.
    pub fn new(base: GuestPhysAddr, size: usize) -> Self {
        LoongArchPchPic { base: base.as_usize(), size, whole: false, lock: L::new(PchPic::new()) }
    }

    /// The same, but an access is answered only where all its bytes are inside, as [`PchPic`] asks. So a Qword at the window's last byte is left to no one,
    /// where the published functions answer it.
    ///
    /// ```
    /// use pch_pic::axdevice::{AccessWidth, DeviceError, LoongArchPchPic};
    /// use std::cell::RefCell;
    ///
    /// let [published, strict] = [LoongArchPchPic::<RefCell<_>>::new, LoongArchPchPic::wholly_inside].map(|make| make(0.into(), 0x400));
    /// assert_eq!(published.read_register(0x3ff.into(), AccessWidth::Qword), Ok(0));
    /// assert_eq!(strict.read_register(0x3ff.into(), AccessWidth::Qword), Err(DeviceError::OutOfRange { addr: 0x3ff }));
    /// ```
    pub fn wholly_inside(base: GuestPhysAddr, size: usize) -> Self {
        LoongArchPchPic { whole: true, ..LoongArchPchPic::new(base, size) }
    }

    /// An input's line goes up (`true`) or down. The answer is the vector to assert, or to deassert, if there is one; it does not wait in the device.
    pub fn set_irq_level(&self, irq: usize, level: bool) -> Option<usize> {
        let returned = self.lock.with(|pic| pic.set_level(irq as u64, level));
        returned.ok()?.event().map(|event| usize::from(event.vector))
    }

    /// Asks for an input that was raised before: the vector to assert, where it is latched, unmasked and not in service.
    pub fn pending_vector(&self, irq: usize) -> Option<usize> {
        let returned = self.lock.with(|pic| pic.poll(irq as u64));
        returned.ok()?.event().map(|event| usize::from(event.vector))
    }

    /// Hands over the waiting events, oldest first, until none waits. The lock is free while `f` runs, and events that it makes are handed over too.
    pub fn drain_output_events(&self, mut f: impl FnMut(PchPicOutputEvent)) {
        while let Some(event) = self.take_output_event() {
            f(event);
        }
    }

    /// Takes out the oldest waiting event.
    pub fn take_output_event(&self) -> Option<PchPicOutputEvent> {
        self.lock.with(|pic| pic.drain_events().next()).map(PchPicOutputEvent::from)
    }

    /// What the guest reads at `addr`; 0 where no register stands.
    ///
    /// # Errors
    ///
    /// [`DeviceError::OutOfRange`] with the address, where it is outside.
    pub fn read_register(&self, addr: GuestPhysAddr, width: AccessWidth) -> DeviceResult<usize> {
        let offset = self.offset(addr, width)?;
        let value = self.lock.with(|pic| pic.read(REGISTERS, offset, width));
        value.map(|value| value as usize).map_err(|_| out_of_range(addr))
    }

    /// The guest writes at `addr`; bits of `val` above the width are lost. Events that it makes wait to be drained.
    ///
    /// # Errors
    ///
    /// [`DeviceError::OutOfRange`] with the address, where it is outside.
    pub fn write_register(&self, addr: GuestPhysAddr, width: AccessWidth, val: usize) -> DeviceResult {
        self.write_counting(addr, width, val).map(|_| ())
    }

    /// As [`write_register`](LoongArchPchPic::write_register), and the answer is how many events the write dropped because 16 waited.
    ///
    /// # Errors
    ///
    /// [`DeviceError::OutOfRange`] with the address, where it is outside.
    pub fn write_counting(&self, addr: GuestPhysAddr, width: AccessWidth, val: usize) -> DeviceResult<u32> {
        let offset = self.offset(addr, width)?;
        let dropped = self.lock.with(|pic| pic.write(REGISTERS, offset, width, val as u64));
        dropped.map_err(|_| out_of_range(addr))
    }

    /// How many events were dropped since reset because 16 waited: the published functions log each and count none.
    pub fn drops(&self) -> u32 {
        self.lock.with(|pic| pic.drops())
    }

    /// The device as it stands: to be saved, or asked what the published functions do not tell.
    ///
    /// ```
    /// use pch_pic::axdevice::LoongArchPchPic;
    /// use pch_pic::{Form, PchPic};
    /// use std::cell::RefCell;
    ///
    /// let pic = LoongArchPchPic::<RefCell<_>>::new(0.into(), 0x400);
    /// pic.set_irq_level(5, true);
    /// let image = pic.snapshot().save(Form::Numbered);
    /// let moved = LoongArchPchPic::<RefCell<_>>::new(0x4000.into(), 0x400);
    /// moved.restore(PchPic::from(image));
    /// assert_eq!(moved.snapshot().latched(), 1 << 5);
    /// ```
    pub fn snapshot(&self) -> PchPic {
        self.lock.with(|pic| pic.clone())
    }

    /// Puts this device in place of the one that is there. The window stays.
    pub fn restore(&self, device: PchPic) {
        self.lock.with(|pic| *pic = device);
    }

    /// Where an access that is answered stands among the registers. The window ends before address 2^64 - 1. Behind the registers all offsets are alike, and
    /// nothing stands there: the first of them serves for all, so that no sum of a far one and a width can pass 2^64.
    fn offset(&self, addr: GuestPhysAddr, width: AccessWidth) -> DeviceResult<u64> {
        let first = addr.as_usize();
        let more = if self.whole { width.bytes() - 1 } else { 0 };
        let end = self.base.saturating_add(self.size);
        match first.checked_add(more) {
            Some(last) if self.base <= first && last < end => Ok(((first - self.base) as u64).min(reg::WINDOW_LEN)),
            _ => Err(out_of_range(addr)),
        }
    }
}

fn out_of_range(addr: GuestPhysAddr) -> DeviceError {
    DeviceError::OutOfRange { addr: addr.as_usize() as u64 }
}
