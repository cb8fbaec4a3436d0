//! The hoist profile: a device for a guest that uses aligned Dwords alone, and leaves ISR and, once it runs, the vectors alone.

use crate::{device, outcome, Device, Error, Event, PchPic, Returned, Width, Window};

/// The phase of a [`Hoist`].
#[derive(Clone, Copy, Debug, PartialEq, Eq, Hash)]
pub enum Phase {
    /// From a reset on: vectors are written, but not where a byte would change whose input is in service.
    StartUp,
    /// After [`Hoist::end_startup`]: no vector is written.
    Running,
}

/// A PCH-PIC under the hoist profile.
///
/// It owns its device and its phase, and the guest reaches the device by the calls here alone: so the profile holds by the types. The lines of other devices,
/// polls and drains are those of [`PchPic`], and [`Wires`](crate::Wires) takes it as it takes a [`PchPic`]. A call that is done answers as the full device
/// does; one that the profile refuses changes nothing.
///
/// ```
/// use pch_pic::{reg, Error, Hoist, Phase, Width, Window};
///
/// let (mut hoist, window) = (Hoist::new(), Window::at(0));
/// hoist.write(window, reg::VECTORS, Width::Dword, 0x4342_4140)?;
/// assert_eq!(hoist.write(window, reg::VECTORS, Width::Byte, 0x50), Err(Error::Align));
/// assert_eq!(hoist.write(window, reg::ISR, Width::Dword, 0), Err(Error::Profile));
/// hoist.end_startup()?;
/// assert_eq!(hoist.phase(), Phase::Running);
/// assert_eq!(hoist.write(window, reg::VECTORS, Width::Dword, 0x4342_4140), Err(Error::Profile));
/// assert_eq!(hoist.end_startup(), Err(Error::Profile));
/// # Ok::<(), Error>(())
/// ```
#[derive(Clone, Debug, PartialEq, Eq, Hash)]
pub struct Hoist {
    pic: PchPic,
    /// 0 in start-up, 1 after it: the byte that the library is lent.
    phase: u8,
}

impl Default for Hoist {
    fn default() -> Self {
        Hoist::new()
    }
}

impl Hoist {
    /// The device after reset, in start-up.
    pub fn new() -> Self {
        Hoist::from_parts(PchPic::new(), Phase::StartUp)
    }

    /// Back to the state after reset, and to start-up.
    pub fn reset(&mut self) {
        outcome::hoist_reset(&mut self.pic.image, &mut self.phase).expect("a reset takes any 290 bytes");
        self.pic.count();
    }

    /// A read of so many bytes.
    pub(crate) fn get(&self, window: Window, address: u64, bytes: usize) -> Result<u64, Error> {
        let value = outcome::hoist_read(&self.pic.image, window, address, bytes)?;
        Ok(value.expect("a done read has a value"))
    }

    /// A write of so many bytes; the board follows it.
    pub(crate) fn put(&mut self, window: Window, address: u64, bytes: usize, value: u64) -> Result<u32, Error> {
        let dropped = outcome::hoist_write(&mut self.pic.image, &self.phase, window, address, bytes, value).map(device::lost)?;
        self.pic.count();
        Ok(dropped)
    }

    /// A device that was saved, in the phase that was kept beside it.
    pub fn from_parts(pic: PchPic, phase: Phase) -> Self {
        Hoist { pic, phase: u8::from(phase == Phase::Running) }
    }

    /// The device and the phase, to be saved, or to go on without the profile.
    pub fn into_parts(self) -> (PchPic, Phase) {
        let phase = self.phase();
        (self.pic, phase)
    }

    /// The phase.
    pub fn phase(&self) -> Phase {
        if self.phase == 0 {
            Phase::StartUp
        } else {
            Phase::Running
        }
    }

    /// As [`PchPic::read`], of an aligned Dword alone.
    ///
    /// # Errors
    ///
    /// [`Error::Outside`] where the access is not wholly inside the window, else [`Error::Align`].
    pub fn read(&self, window: Window, address: u64, width: Width) -> Result<u64, Error> {
        self.get(window, address, width.bytes())
    }

    /// As [`PchPic::write`], of an aligned Dword alone, not to ISR, and to the vectors in start-up alone, where no byte changes whose input is in service.
    ///
    /// # Errors
    ///
    /// [`Error::Outside`] where the access is not wholly inside the window, else [`Error::Align`], else [`Error::Profile`].
    pub fn write(&mut self, window: Window, address: u64, width: Width, value: u64) -> Result<u32, Error> {
        self.put(window, address, width.bytes(), value)
    }

    /// An access as a bus hands it on: as many bytes as `data` has, little end first.
    ///
    /// # Errors
    ///
    /// [`Error::Width`] where `data` has not 1, 2, 4 or 8 bytes, else as [`Hoist::read`]. `data` then stays as it was.
    pub fn mmio_read(&self, window: Window, address: u64, data: &mut [u8]) -> Result<(), Error> {
        let value = self.get(window, address, data.len())?;
        data.copy_from_slice(&value.to_le_bytes()[..data.len()]);
        Ok(())
    }

    /// A write as a bus hands it on. The answer is how many events were dropped.
    ///
    /// # Errors
    ///
    /// [`Error::Width`] where `data` has not 1, 2, 4 or 8 bytes, else as [`Hoist::write`].
    pub fn mmio_write(&mut self, window: Window, address: u64, data: &[u8]) -> Result<u32, Error> {
        let mut bytes = [0; 8];
        for (to, from) in bytes.iter_mut().zip(data) {
            *to = *from;
        }
        let value = u64::from_le_bytes(bytes);
        self.put(window, address, data.len(), value)
    }

    /// The guest's driver is ready: from here on no vector is written.
    ///
    /// ```
    /// use pch_pic::{reg, Device, Error, Hoist, Width, Window};
    ///
    /// let mut hoist = Hoist::new();
    /// hoist.write(Window::at(0), reg::MASK, Width::Dword, 0)?;
    /// let _ = hoist.set_level(21, true)?; // a sample that comes too early
    /// assert_eq!(hoist.end_startup(), Err(Error::Profile));
    /// let _ = hoist.set_level(21, false)?;
    /// hoist.end_startup()?;
    /// # Ok::<(), Error>(())
    /// ```
    ///
    /// # Errors
    ///
    /// [`Error::Profile`] while an input is in service, masked or not, and the second time.
    pub fn end_startup(&mut self) -> Result<(), Error> {
        outcome::hoist_end_startup(&self.pic.image, &mut self.phase).map(|_| ())
    }
}

impl Device for Hoist {
    fn pic(&self) -> &PchPic {
        &self.pic
    }

    fn set_level(&mut self, input: u64, level: bool) -> Result<Returned, Error> {
        self.pic.set_level(input, level)
    }

    fn poll(&mut self, input: u64) -> Result<Returned, Error> {
        self.pic.poll(input)
    }

    fn drain(&mut self, events: &mut [Event]) -> usize {
        self.pic.drain(events)
    }
}
