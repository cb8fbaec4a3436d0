//! One trait for every device that a guest can have, so that what drives it is written once.

use crate::{Device, Error, Hoist, PchPic, Returned, Width, Window};

/// A device as its guest and its host reach it: a [`PchPic`], a [`Hoist`], and either of them recorded (`Recorded`, with feature `std`).
///
/// A bus or a guest loop that is written over it serves all of them, and records where the device it is given does. Lines, polls and drains are those of
/// [`Device`]; [`Wires`](crate::Wires) takes every such device, as `&mut dyn GuestDevice` too.
///
/// ```
/// use pch_pic::{reg, Device, Error, GuestDevice, Hoist, PchPic, Width, Window, Wires};
///
/// /// The guest unmasks its inputs, and serves one interrupt.
/// fn guest(pic: &mut dyn GuestDevice, wires: &mut Wires) -> Result<(), Error> {
///     let window = Window::at(0x1000_0000);
///     pic.write(window, window.base + reg::MASK, Width::Dword, 0)?;
///     wires.settle(pic, |change| println!("{change}"));
///     pic.end_startup()?;
///     wires.line(pic, 5, true, |change| println!("{change}"))?;
///     assert_eq!(pic.read(window, window.base + reg::ISR, Width::Dword)?, 1 << 5);
///     wires.line(pic, 5, false, |change| println!("{change}"))
/// }
///
/// let (mut pic, mut hoist) = (PchPic::new(), Hoist::new());
/// guest(&mut pic, &mut Wires::new())?;
/// guest(&mut hoist, &mut Wires::new())?;
/// assert_eq!(hoist.pic(), &pic);
/// # Ok::<(), Error>(())
/// ```
pub trait GuestDevice: Device {
    /// As [`PchPic::read`]. It takes `&mut self`, since a recorded device takes down that it was read.
    ///
    /// # Errors
    ///
    /// [`Error::Outside`] where the access is not wholly inside the window; of a [`Hoist`] also [`Error::Align`].
    fn read(&mut self, window: Window, address: u64, width: Width) -> Result<u64, Error>;

    /// As [`PchPic::write`].
    ///
    /// # Errors
    ///
    /// [`Error::Outside`] where the access is not wholly inside the window; of a [`Hoist`] also [`Error::Align`] and [`Error::Profile`].
    fn write(&mut self, window: Window, address: u64, width: Width, value: u64) -> Result<u32, Error>;

    /// As [`PchPic::mmio_read`].
    ///
    /// # Errors
    ///
    /// [`Error::Width`] where `data` has not 1, 2, 4 or 8 bytes, else as [`read`](GuestDevice::read). `data` then stays as it was.
    fn mmio_read(&mut self, window: Window, address: u64, data: &mut [u8]) -> Result<(), Error>;

    /// As [`PchPic::mmio_write`].
    ///
    /// # Errors
    ///
    /// [`Error::Width`] where `data` has not 1, 2, 4 or 8 bytes, else as [`write`](GuestDevice::write).
    fn mmio_write(&mut self, window: Window, address: u64, data: &[u8]) -> Result<u32, Error>;

    /// Back to the state after reset.
    fn reset(&mut self);

    /// The guest's driver is ready, as [`Hoist::end_startup`]. A plain device has no phases: there it does nothing, each time.
    ///
    /// # Errors
    ///
    /// Of a [`Hoist`] [`Error::Profile`], while an input is in service, and the second time.
    fn end_startup(&mut self) -> Result<(), Error> {
        Ok(())
    }

    /// An input's line goes up: [`set_level`](Device::set_level).
    ///
    /// # Errors
    ///
    /// [`Error::Input`] where the input is 64 or more.
    fn raise(&mut self, input: u64) -> Result<Returned, Error> {
        self.set_level(input, true)
    }

    /// An input's line goes down.
    ///
    /// # Errors
    ///
    /// [`Error::Input`] where the input is 64 or more.
    fn lower(&mut self, input: u64) -> Result<Returned, Error> {
        self.set_level(input, false)
    }

    /// Who waits, as [`PchPic::waiting_inputs`]: a look at the device, which no record of a day has.
    fn waiting_inputs(&self) -> u64 {
        self.pic().waiting_inputs()
    }
}

impl GuestDevice for PchPic {
    fn read(&mut self, window: Window, address: u64, width: Width) -> Result<u64, Error> {
        PchPic::read(self, window, address, width)
    }

    fn write(&mut self, window: Window, address: u64, width: Width, value: u64) -> Result<u32, Error> {
        PchPic::write(self, window, address, width, value)
    }

    fn mmio_read(&mut self, window: Window, address: u64, data: &mut [u8]) -> Result<(), Error> {
        PchPic::mmio_read(self, window, address, data)
    }

    fn mmio_write(&mut self, window: Window, address: u64, data: &[u8]) -> Result<u32, Error> {
        PchPic::mmio_write(self, window, address, data)
    }

    fn reset(&mut self) {
        PchPic::reset(self);
    }
}

impl GuestDevice for Hoist {
    fn read(&mut self, window: Window, address: u64, width: Width) -> Result<u64, Error> {
        Hoist::read(self, window, address, width)
    }

    fn write(&mut self, window: Window, address: u64, width: Width, value: u64) -> Result<u32, Error> {
        Hoist::write(self, window, address, width, value)
    }

    fn mmio_read(&mut self, window: Window, address: u64, data: &mut [u8]) -> Result<(), Error> {
        Hoist::mmio_read(self, window, address, data)
    }

    fn mmio_write(&mut self, window: Window, address: u64, data: &[u8]) -> Result<u32, Error> {
        Hoist::mmio_write(self, window, address, data)
    }

    fn reset(&mut self) {
        Hoist::reset(self);
    }

    fn end_startup(&mut self) -> Result<(), Error> {
        Hoist::end_startup(self)
    }
}
