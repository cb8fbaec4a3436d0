//! A device whose calls are recorded as they are made.

use crate::recorder::sealed::Sealed;
use crate::{DayRecorder, Device, Error, Event, GuestDevice, Hoist, PchPic, RecordError, Recorder, Recording, Returned, Width, Window};

/// A device whose day can be recorded: a [`PchPic`] or a [`Hoist`].
pub trait Recordable: GuestDevice + Default + Sealed {
    /// Why this device refuses an access that a plain one in its place would carry out; none where both do the same. A read has no value.
    fn refuses(&self, window: Window, address: u64, bytes: usize, value: Option<u64>) -> Option<Error>;
}

impl Sealed for PchPic {}

impl Recordable for PchPic {
    fn refuses(&self, _: Window, _: u64, _: usize, _: Option<u64>) -> Option<Error> {
        None
    }
}

impl Sealed for Hoist {}

impl Recordable for Hoist {
    fn refuses(&self, window: Window, address: u64, bytes: usize, value: Option<u64>) -> Option<Error> {
        // What the profile says of a write is asked of a copy: the device is written when that is recorded.
        let asked = match value {
            Some(value) => self.clone().put(window, address, bytes, value).map(drop),
            None => self.get(window, address, bytes).map(drop),
        };
        asked.err().filter(|why| matches!(why, Error::Align | Error::Profile))
    }
}

/// A device whose calls are recorded as they are made, from reset on.
///
/// The calls are made as ever, whether they can be recorded or not: what the recorder cannot take stops the recording, and never the device. Then
/// [`stopped`](Recorded::stopped) says why, and what was recorded is the day up to there. Each call is recorded before it is made, so what is in a file says
/// what a host was at when it ended. [`Wires`](crate::Wires) takes it as it takes a [`PchPic`], and its sweeps and drains are recorded too.
///
/// ```
/// use pch_pic::{reg, Recorded, Width, Window, Wires};
///
/// let (mut day, mut wires, window) = (Recorded::new(), Wires::new(), Window::at(0x1000_0000));
/// day.write(window, window.base + reg::MASK, Width::Dword, 0)?;
/// wires.settle(&mut day, |change| println!("{change}"));
/// wires.line(&mut day, 5, true, |change| println!("{change}"))?;
/// assert!(day.stopped().is_none());
/// let trace = day.recorder().finish()?;
/// assert_eq!(trace.play().pic(), *day.pic());
/// # Ok::<(), Box<dyn std::error::Error>>(())
/// ```
///
/// # A hoist guest's day
///
/// [`Recorded::hoist`] is the same of a [`Hoist`]. A call that the profile refuses changes nothing, and is no record: a trace is played on a plain device, which would
/// carry it out. So the trace has what passed, and plays to the same image. The phase is no part of an image, and the end of start-up is no record either.
///
/// ```
/// use pch_pic::{reg, Error, Record, Recorded, Recorder, Width, Window};
///
/// let (mut day, window) = (Recorded::hoist(Recorder::new())?, Window::at(0x1000_0000));
/// day.write(window, window.base + reg::MASK, Width::Dword, 0)?;
/// assert_eq!(day.write(window, window.base + reg::ISR, Width::Dword, 1), Err(Error::Profile));
/// day.end_startup()?;
/// let trace = day.recorder().finish()?;
/// assert!(trace.records().eq([Record::Write { offset: reg::MASK as u16, width: 4, value: 0 }]));
/// assert_eq!(trace.play().pic(), *day.pic());
/// # Ok::<(), Box<dyn std::error::Error>>(())
/// ```
///
/// # A day of any length
///
/// By a [`DayRecorder`] it goes on past 4,000 records, in a folder of traces.
#[derive(Debug)]
pub struct Recorded<D = PchPic, R = Recorder> {
    device: D,
    recorder: R,
    stopped: Option<RecordError>,
}

impl Default for Recorded {
    fn default() -> Self {
        Recorded::new()
    }
}

impl Recorded {
    /// The device after reset, recorded from there on.
    pub fn new() -> Self {
        Recorded { device: PchPic::new(), recorder: Recorder::new(), stopped: None }
    }
}

impl<R: Recording> Recorded<PchPic, R> {
    /// The device after reset, recorded by this recorder: a planned one, one that keeps a file, or a [`DayRecorder`].
    ///
    /// # Errors
    ///
    /// [`RecordError::Started`] where the recorder has records already.
    pub fn with_recorder(recorder: R) -> Result<Self, RecordError> {
        Recorded::from_reset(recorder)
    }

    /// As [`PchPic::table_read`]; the record is that of a read, which answers the same.
    ///
    /// # Errors
    ///
    /// [`Error::Outside`] where the access is not wholly inside the window.
    pub fn table_read(&mut self, window: Window, address: u64, width: Width) -> Result<u64, Error> {
        self.access(window, address, width.bytes(), None)?;
        self.device.table_read(window, address, width)
    }

    /// As [`PchPic::table_write`]; the record is that of a write, which does the same.
    ///
    /// # Errors
    ///
    /// [`Error::Outside`] where the access is not wholly inside the window.
    pub fn table_write(&mut self, window: Window, address: u64, width: Width, value: u64) -> Result<u32, Error> {
        self.access(window, address, width.bytes(), Some(value))?;
        self.device.table_write(window, address, width, value)
    }
}

impl<R: Recording> Recorded<Hoist, R> {
    /// A hoist guest's device after reset and in start-up, recorded by this recorder.
    ///
    /// # Errors
    ///
    /// [`RecordError::Started`] where the recorder has records already.
    pub fn hoist(recorder: R) -> Result<Self, RecordError> {
        Recorded::from_reset(recorder)
    }

    /// As [`Hoist::end_startup`]. It is no record.
    ///
    /// # Errors
    ///
    /// [`Error::Profile`] while an input is in service, masked or not, and the second time.
    pub fn end_startup(&mut self) -> Result<(), Error> {
        self.device.end_startup()
    }
}

impl<D: Recordable> Recorded<D, DayRecorder> {
    /// Ends the open trace of the day: the next record begins another.
    ///
    /// # Errors
    ///
    /// Those of [`DayRecorder::next_trace`].
    pub fn next_trace(&mut self) -> Result<(), RecordError> {
        self.recorder.next_trace()
    }

    /// Ends the day, with what was recorded so far. The device goes on, unrecorded.
    ///
    /// # Errors
    ///
    /// Those of [`DayRecorder::end`].
    pub fn end(&mut self) -> Result<(), RecordError> {
        self.recorder.end()
    }
}

impl<D: Recordable, R: Recording> Recorded<D, R> {
    fn from_reset(recorder: R) -> Result<Self, RecordError> {
        if recorder.is_empty() {
            Ok(Recorded { device: D::default(), recorder, stopped: None })
        } else {
            Err(RecordError::Started)
        }
    }

    /// The device, to be looked at. What is read there is not recorded.
    pub fn pic(&self) -> &PchPic {
        self.device.pic()
    }

    /// The same, as what it is: a [`Hoist`] tells its phase.
    pub fn device(&self) -> &D {
        &self.device
    }

    /// The recorder, with what it has taken so far.
    pub fn recorder(&self) -> &R {
        &self.recorder
    }

    /// Why the recording stopped; none while it goes on.
    pub fn stopped(&self) -> Option<&RecordError> {
        self.stopped.as_ref()
    }

    /// The device, which goes on unrecorded, and the recorder.
    pub fn into_parts(self) -> (D, R) {
        (self.device, self.recorder)
    }

    /// A call that is left out would make all that follows play otherwise, so the first that is not taken is the end.
    fn note(&mut self, taken: impl FnOnce(&mut R) -> Result<(), RecordError>) {
        if self.stopped.is_none() {
            self.stopped = taken(&mut self.recorder).err();
        }
    }

    /// Takes down an access, which has a value where it is a write. One that the profile refuses is none: a plain play would carry it out.
    fn access(&mut self, window: Window, address: u64, bytes: usize, value: Option<u64>) -> Result<(), Error> {
        if let Some(why) = self.device.refuses(window, address, bytes, value) {
            return Err(why);
        }
        self.note(|recorder| match value {
            Some(value) => recorder.write(window, address, bytes as u64, value),
            None => recorder.read(window, address, bytes as u64),
        });
        Ok(())
    }

    /// Ends the block that is open, unless the recording has stopped.
    ///
    /// # Errors
    ///
    /// Those of [`Recorder::close_block`].
    pub fn close_block(&mut self) -> Result<(), RecordError> {
        if self.stopped.is_some() {
            return Ok(());
        }
        self.recorder.close_block()
    }

    /// As [`PchPic::read`], or [`Hoist::read`].
    ///
    /// # Errors
    ///
    /// [`Error::Outside`] where the access is not wholly inside the window; of a [`Hoist`] also [`Error::Align`].
    pub fn read(&mut self, window: Window, address: u64, width: Width) -> Result<u64, Error> {
        self.access(window, address, width.bytes(), None)?;
        self.device.read(window, address, width)
    }

    /// As [`PchPic::write`], or [`Hoist::write`].
    ///
    /// # Errors
    ///
    /// [`Error::Outside`] where the access is not wholly inside the window; of a [`Hoist`] also [`Error::Align`] and [`Error::Profile`].
    pub fn write(&mut self, window: Window, address: u64, width: Width, value: u64) -> Result<u32, Error> {
        self.access(window, address, width.bytes(), Some(value))?;
        self.device.write(window, address, width, value)
    }

    /// As [`PchPic::mmio_read`]. A width that is refused is recorded too.
    ///
    /// # Errors
    ///
    /// [`Error::Width`] where `data` has not 1, 2, 4 or 8 bytes, else as [`Recorded::read`].
    pub fn mmio_read(&mut self, window: Window, address: u64, data: &mut [u8]) -> Result<(), Error> {
        self.access(window, address, data.len(), None)?;
        self.device.mmio_read(window, address, data)
    }

    /// As [`PchPic::mmio_write`]. A width that is refused is recorded too.
    ///
    /// # Errors
    ///
    /// [`Error::Width`] where `data` has not 1, 2, 4 or 8 bytes, else as [`Recorded::write`].
    pub fn mmio_write(&mut self, window: Window, address: u64, data: &[u8]) -> Result<u32, Error> {
        let value = data.iter().take(8).rev().fold(0, |value, byte| value << 8 | u64::from(*byte));
        self.access(window, address, data.len(), Some(value))?;
        self.device.mmio_write(window, address, data)
    }

    /// As [`PchPic::set_level`].
    ///
    /// # Errors
    ///
    /// [`Error::Input`] where the input is 64 or more.
    pub fn set_level(&mut self, input: u64, level: bool) -> Result<Returned, Error> {
        self.note(|recorder| if level { recorder.raise(input) } else { recorder.lower(input) });
        self.device.set_level(input, level)
    }

    /// As [`PchPic::poll`].
    ///
    /// # Errors
    ///
    /// [`Error::Input`] where the input is 64 or more.
    pub fn poll(&mut self, input: u64) -> Result<Returned, Error> {
        self.note(|recorder| recorder.poll(input));
        self.device.poll(input)
    }

    /// As [`PchPic::drain`]. With room for less than [`EVENTS`](crate::EVENTS) it stops the recording.
    #[must_use = "the events are out of the device, and the count says how many there are"]
    pub fn drain(&mut self, events: &mut [Event]) -> usize {
        self.note(|recorder| recorder.drain(events.len()));
        self.device.drain(events)
    }

    /// As [`PchPic::reset`]. It stops the recording.
    pub fn reset(&mut self) {
        self.note(|_| Err(RecordError::Again));
        self.device.reset();
    }

    /// Another device takes the place of this one, as after a load. It stops the recording.
    pub fn replace(&mut self, device: D) {
        self.note(|_| Err(RecordError::Loaded));
        self.device = device;
    }
}

impl<D: Recordable, R: Recording> Device for Recorded<D, R> {
    fn pic(&self) -> &PchPic {
        Recorded::pic(self)
    }

    fn set_level(&mut self, input: u64, level: bool) -> Result<Returned, Error> {
        Recorded::set_level(self, input, level)
    }

    fn poll(&mut self, input: u64) -> Result<Returned, Error> {
        Recorded::poll(self, input)
    }

    fn drain(&mut self, events: &mut [Event]) -> usize {
        Recorded::drain(self, events)
    }
}

impl<D: Recordable, R: Recording> GuestDevice for Recorded<D, R> {
    fn read(&mut self, window: Window, address: u64, width: Width) -> Result<u64, Error> {
        Recorded::read(self, window, address, width)
    }

    fn write(&mut self, window: Window, address: u64, width: Width, value: u64) -> Result<u32, Error> {
        Recorded::write(self, window, address, width, value)
    }

    fn mmio_read(&mut self, window: Window, address: u64, data: &mut [u8]) -> Result<(), Error> {
        Recorded::mmio_read(self, window, address, data)
    }

    fn mmio_write(&mut self, window: Window, address: u64, data: &[u8]) -> Result<u32, Error> {
        Recorded::mmio_write(self, window, address, data)
    }

    fn reset(&mut self) {
        Recorded::reset(self);
    }

    fn end_startup(&mut self) -> Result<(), Error> {
        self.device.end_startup()
    }
}
