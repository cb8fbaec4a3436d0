//! The device: an image of its own, and the calls on it.

use crate::{
    contents, event, outcome, reg, Board, Error, Event, Events, Form, Image, Returned, Width, Window, EVENTS, EVENT_LEN,
    IMAGE2_NUMBERED_LEN,
};
use core::fmt;

/// A LoongArch PCH-PIC.
///
/// It owns its image, so a clone is a snapshot, and devices are equal just where their images are, numbers of events and drop count included. Beside the image
/// it keeps a [`Board`], which says which vectors are on. It is `Send` and `Sync`: reads of one device may run side by side, since they only load from its image; all else takes `&mut`.
///
/// ```
/// fn shared<T: Send + Sync>(_: &T) {}
/// shared(&pch_pic::PchPic::new());
/// ```
#[derive(Clone, PartialEq, Eq, Hash)]
pub struct PchPic {
    /// An accepted image of form 2 with numbers: made by reset or tested by load, and every call keeps it so.
    pub(crate) image: [u8; IMAGE2_NUMBERED_LEN],
    /// Which vectors are on: the counts of that image, after every call.
    board: Board,
}

impl Default for PchPic {
    fn default() -> Self {
        PchPic::new()
    }
}

impl fmt::Debug for PchPic {
    fn fmt(&self, f: &mut fmt::Formatter<'_>) -> fmt::Result {
        let register = |offset| self.read(Window::at(0), offset, Width::Qword).unwrap_or(0);
        f.debug_struct("PchPic")
            .field("mask", &format_args!("{:#018x}", register(reg::MASK)))
            .field("latched", &format_args!("{:#018x}", self.latched()))
            .field("in_service", &format_args!("{:#018x}", self.in_service()))
            .field("htmsi_en", &format_args!("{:#018x}", register(reg::HTMSI_EN)))
            .field("edge", &format_args!("{:#018x}", register(reg::EDGE)))
            .field("pol", &format_args!("{:#018x}", register(reg::POL)))
            .field("auto0", &format_args!("{:#018x}", register(reg::AUTO0)))
            .field("auto1", &format_args!("{:#018x}", register(reg::AUTO1)))
            .field("routes", &format_args!("{:02x?}", contents::body(&self.image, contents::ROUTES)))
            .field("vectors", &format_args!("{:02x?}", contents::body(&self.image, contents::VECTORS)))
            .field("waiting", &self.waiting())
            .field("drops", &self.drops())
            .field("next_number", &self.next_number())
            .finish()
    }
}

impl PchPic {
    /// The device after reset: every input masked, vector n for input n, nothing latched, nothing waiting, and number 0 for the next event.
    ///
    /// It is not `const`: the bytes come from the proved reset, which runs. A `static` takes a `LazyLock`.
    pub fn new() -> Self {
        let mut pic = PchPic::blank();
        outcome::reset(&mut pic.image, pic.board.bytes()).expect("a reset takes any 290 bytes");
        pic
    }

    /// Bytes that are no device yet.
    fn blank() -> Self {
        PchPic { image: [0; IMAGE2_NUMBERED_LEN], board: Board::new() }
    }

    /// Brings the board up to date after a call that was not lent it.
    pub(crate) fn count(&mut self) {
        outcome::count(&self.image, self.board.bytes()).expect("a device's image is accepted");
    }

    /// Back to the state after reset.
    pub fn reset(&mut self) {
        *self = PchPic::new();
    }

    /// What the guest reads at `address`; 0 where no register stands. A read changes nothing.
    ///
    /// ```
    /// use pch_pic::{reg, Error, PchPic, Width, Window};
    ///
    /// let (pic, window) = (PchPic::new(), Window::at(0x1000_0000));
    /// assert_eq!(pic.read(window, 0x1000_0000 + reg::MASK, Width::Dword), Ok(0xffff_ffff));
    /// assert_eq!(pic.read(window, 0x1000_0400, Width::Dword), Err(Error::Outside(0x1000_0400)));
    /// assert_eq!(pic.read(window, 0x1000_03fc, Width::Qword), Err(Error::Outside(0x1000_03fc)));
    /// ```
    ///
    /// # Errors
    ///
    /// [`Error::Outside`] where the access is not wholly inside the window.
    pub fn read(&self, window: Window, address: u64, width: Width) -> Result<u64, Error> {
        let value = outcome::read(&self.image, window, address, width.bytes())?;
        Ok(value.expect("a done read has a value"))
    }

    /// The guest writes at `address`; bits of `value` above the width are lost. Events that the write makes wait to be drained. The answer is how
    /// many of them were dropped, since 16 waited already: 0 on a day without trouble.
    ///
    /// ```
    /// use pch_pic::{reg, Event, PchPic, Width, Window};
    ///
    /// let (mut pic, window) = (PchPic::new(), Window::at(0));
    /// assert_eq!(pic.set_level(5, true)?, None); // masked: only latched
    /// pic.write(window, reg::MASK, Width::Dword, 0)?;
    /// assert_eq!(pic.drain_events().collect::<Vec<_>>(), [Event { vector: 5, asserted: true, number: 0 }]);
    /// # Ok::<(), pch_pic::Error>(())
    /// ```
    ///
    /// # Errors
    ///
    /// [`Error::Outside`] where the access is not wholly inside the window.
    pub fn write(&mut self, window: Window, address: u64, width: Width, value: u64) -> Result<u32, Error> {
        outcome::write(&mut self.image, self.board.bytes(), window, address, width.bytes(), value).map(lost)
    }

    /// As [`PchPic::read`], decoded by the table that `./run --map` prints: the same answer, in more time.
    ///
    /// ```
    /// use pch_pic::{reg, PchPic, Width, Window};
    ///
    /// let (pic, window) = (PchPic::new(), Window::at(0));
    /// assert_eq!(pic.table_read(window, reg::ID, Width::Qword), pic.read(window, reg::ID, Width::Qword));
    /// ```
    ///
    /// # Errors
    ///
    /// [`Error::Outside`] where the access is not wholly inside the window.
    pub fn table_read(&self, window: Window, address: u64, width: Width) -> Result<u64, Error> {
        let value = outcome::table_read(&self.image, window, address, width.bytes())?;
        Ok(value.expect("a done read has a value"))
    }

    /// As [`PchPic::write`], decoded by the table: the same image, events and answer.
    ///
    /// # Errors
    ///
    /// [`Error::Outside`] where the access is not wholly inside the window.
    pub fn table_write(&mut self, window: Window, address: u64, width: Width, value: u64) -> Result<u32, Error> {
        let dropped = outcome::table_write(&mut self.image, window, address, width.bytes(), value).map(lost)?;
        self.count();
        Ok(dropped)
    }

    /// An access as a bus hands it on: as many bytes as `data` has, little end first.
    ///
    /// ```
    /// use pch_pic::{reg, Error, PchPic, Window};
    ///
    /// let (pic, window) = (PchPic::new(), Window::at(0x1000_0000));
    /// let mut data = [0; 4];
    /// pic.mmio_read(window, 0x1000_0000 + reg::ID, &mut data)?;
    /// assert_eq!(data, [0, 0, 0, 7]);
    /// assert_eq!(pic.mmio_read(window, 0x1000_0000, &mut [0; 3]), Err(Error::Width));
    /// # Ok::<(), Error>(())
    /// ```
    ///
    /// # Errors
    ///
    /// [`Error::Width`] where `data` has not 1, 2, 4 or 8 bytes, else [`Error::Outside`]. `data` then stays as it was.
    pub fn mmio_read(&self, window: Window, address: u64, data: &mut [u8]) -> Result<(), Error> {
        let value = outcome::read(&self.image, window, address, data.len())?.expect("a done read has a value");
        data.copy_from_slice(&value.to_le_bytes()[..data.len()]);
        Ok(())
    }

    /// A write as a bus hands it on: as many bytes as `data` has, little end first. The answer is how many events were dropped.
    ///
    /// # Errors
    ///
    /// [`Error::Width`] where `data` has not 1, 2, 4 or 8 bytes, else [`Error::Outside`].
    pub fn mmio_write(&mut self, window: Window, address: u64, data: &[u8]) -> Result<u32, Error> {
        let mut bytes = [0; 8];
        for (to, from) in bytes.iter_mut().zip(data) {
            *to = *from;
        }
        let value = u64::from_le_bytes(bytes);
        outcome::write(&mut self.image, self.board.bytes(), window, address, data.len(), value).map(lost)
    }

    /// An input's line goes up (`true`) or down. The event, if there is one, is to be passed on at once; it does not wait.
    ///
    /// # Errors
    ///
    /// [`Error::Input`] where the input is 64 or more.
    pub fn set_level(&mut self, input: u64, level: bool) -> Result<Returned, Error> {
        let value = outcome::level(&mut self.image, self.board.bytes(), input, level)?;
        Ok(Returned(value.map(|value| event::returned(value, level))))
    }

    /// Asks for an input that was raised before: if it is latched, unmasked and not in service, it goes into service and is asserted.
    ///
    /// ```
    /// use pch_pic::{reg, PchPic, Width, Window};
    ///
    /// let (mut pic, window) = (PchPic::new(), Window::at(0));
    /// let _ = (pic.set_level(3, true)?, pic.set_level(9, true)?); // masked: only latched
    /// pic.write(window, reg::MASK, Width::Dword, 0)?; // announces 3 alone
    /// assert_eq!(pic.poll(9)?.event().map(|event| event.vector), Some(9));
    /// assert_eq!(pic.poll(9)?, None); // in service already
    /// # Ok::<(), pch_pic::Error>(())
    /// ```
    ///
    /// # Errors
    ///
    /// [`Error::Input`] where the input is 64 or more.
    pub fn poll(&mut self, input: u64) -> Result<Returned, Error> {
        let value = outcome::poll(&mut self.image, self.board.bytes(), input)?;
        Ok(Returned(value.map(|value| event::returned(value, true))))
    }

    /// Who waits: the inputs that a [`poll`](PchPic::poll) would bring into service, bit n for input n. They are latched, unmasked and not in service. A poll of
    /// any other input gives nothing and changes nothing.
    ///
    /// ```
    /// use pch_pic::{reg, PchPic, Width, Window};
    ///
    /// let (mut pic, window) = (PchPic::new(), Window::at(0));
    /// let _ = (pic.set_level(3, true)?, pic.set_level(9, true)?, pic.set_level(40, true)?); // masked: only latched
    /// assert_eq!(pic.waiting_inputs(), 0);
    /// pic.write(window, reg::MASK, Width::Dword, 0)?; // announces 3 alone; 40 is masked still
    /// assert_eq!(pic.waiting_inputs(), 1 << 9);
    /// # Ok::<(), pch_pic::Error>(())
    /// ```
    pub fn waiting_inputs(&self) -> u64 {
        let set = outcome::waiting(&self.image).expect("a device's image is accepted");
        set.expect("a done call has the set")
    }

    /// Moves waiting events to the front of `events`, oldest first, as many as wait or as fit, and says how many. The rest wait on.
    ///
    /// ```
    /// use pch_pic::{Event, PchPic, EVENTS};
    ///
    /// let mut events = [Event::default(); EVENTS]; // room for all
    /// assert_eq!(PchPic::new().drain(&mut events), 0);
    /// ```
    #[must_use = "the events are out of the device, and the count says how many there are"]
    pub fn drain(&mut self, events: &mut [Event]) -> usize {
        let mut drained = [0; EVENTS * EVENT_LEN];
        let room = events.len().min(EVENTS) * EVENT_LEN;
        let count = self.drain_bytes(&mut drained[..room], 0).expect("place 0 is in every buffer");
        for (event, bytes) in events.iter_mut().zip(drained.chunks_exact(EVENT_LEN)).take(count) {
            *event = event::drained(bytes);
        }
        count
    }

    /// Moves waiting events to `buffer` from byte `place` on, [`EVENT_LEN`] bytes each: the vector, then 1 for an assert or 0, then the number,
    /// little end first. It says how many it moved; all other bytes stay. 64 bytes have room for all, and 32 for eight.
    ///
    /// # Errors
    ///
    /// [`Error::Room`] where `place` is past the end of `buffer`.
    pub fn drain_bytes(&mut self, buffer: &mut [u8], place: usize) -> Result<usize, Error> {
        let count = outcome::drain(&mut self.image, self.board.bytes(), buffer, place)?;
        Ok(count.expect("a done drain has a count") as usize)
    }

    /// The waiting events, oldest first. Each is taken out as the iterator gives it; those that are not asked for wait on.
    pub fn drain_events(&mut self) -> Events<'_> {
        Events { pic: self }
    }

    /// How many events wait, 0 to [`EVENTS`].
    pub fn waiting(&self) -> usize {
        contents::body(&self.image, contents::EVENTS).get(contents::WAITING).copied().map_or(0, usize::from)
    }

    /// How many events were dropped since reset because [`EVENTS`] waited. It stops at `u32::MAX`.
    pub fn drops(&self) -> u32 {
        let bytes = contents::body(&self.image, contents::EVENTS).get(contents::DROPS..contents::DROPS + 4);
        bytes.map_or(0, contents::number) as u32
    }

    /// The number that the next event gets.
    ///
    /// ```
    /// use pch_pic::{reg, Form, PchPic, Width, Window};
    ///
    /// let mut pic = PchPic::new();
    /// pic.write(Window::at(0), reg::MASK, Width::Dword, 0)?;
    /// let _ = (pic.set_level(5, true)?, pic.set_level(5, false)?);
    /// assert_eq!(pic.next_number(), 2);
    /// assert_eq!(PchPic::from(pic.save(Form::Two)).next_number(), 0); // this form loses it
    /// # Ok::<(), pch_pic::Error>(())
    /// ```
    pub fn next_number(&self) -> u16 {
        let bytes = contents::body(&self.image, contents::NUMBERS).get(contents::NEXT..contents::NEXT + 2);
        bytes.map_or(0, contents::number) as u16
    }

    /// The inputs that are latched: bit n for input n.
    pub fn latched(&self) -> u64 {
        contents::register(&self.image, contents::IRR_BACK)
    }

    /// The inputs in service, masked ones too, which a read of [`reg::ISR`] leaves out: bit n for input n.
    pub fn in_service(&self) -> u64 {
        contents::register(&self.image, contents::ISR_BACK)
    }

    /// The vector of an input; none where it is 64 or more.
    pub fn vector(&self, input: usize) -> Option<u8> {
        contents::body(&self.image, contents::VECTORS).get(input).copied()
    }

    /// Which vectors are on: for each, how many inputs in service carry it, as it stands after the last call or the load.
    ///
    /// ```
    /// use pch_pic::{reg, Form, PchPic, Width, Window};
    ///
    /// let mut pic = PchPic::new();
    /// pic.write(Window::at(0), reg::VECTORS + 9, Width::Byte, 3)?;
    /// pic.write(Window::at(0), reg::ISR, Width::Dword, 1 << 3 | 1 << 9)?; // no event tells it
    /// assert_eq!(pic.board().count(3), 2);
    /// assert_eq!(PchPic::from(pic.save(Form::One)).board(), pic.board());
    /// # Ok::<(), pch_pic::Error>(())
    /// ```
    pub const fn board(&self) -> &Board {
        &self.board
    }

    /// The image in this form: the whole device as bytes, to be kept or sent elsewhere. Most images with one byte changed are those of another
    /// device and are loaded, so a checksum is kept beside it, as [`file`](crate::file) does.
    pub fn save(&self, form: Form) -> Image {
        Image::converted(&self.image, form).expect("a device's image is accepted")
    }

    /// The device of an image that was saved in this form. It answers every later call as the saved one would, but for the numbers of events where the
    /// form has none: then waiting events are numbered from 0, and the next number comes after them. Where the form is not known, the image's length says
    /// it: `PchPic::try_from` takes any form.
    ///
    /// ```
    /// use pch_pic::{reg, Error, Form, PchPic, Width, Window};
    ///
    /// let mut pic = PchPic::new();
    /// pic.write(Window::at(0), reg::VECTORS + 7, Width::Byte, 0x77)?;
    /// for form in [Form::One, Form::Two, Form::Numbered] {
    ///     let mut image = pic.save(form).to_vec();
    ///     assert_eq!(PchPic::load(form, &image)?, pic);
    ///     assert_eq!(PchPic::try_from(&image[..])?, pic);
    ///     image[0] = 9; // no such form
    ///     assert_eq!(PchPic::load(form, &image), Err(Error::Contents));
    /// }
    /// let other = Error::Form { found: Form::Two, named: Form::One };
    /// assert_eq!(PchPic::load(Form::One, &pic.save(Form::Two)), Err(other));
    /// # Ok::<(), Error>(())
    /// ```
    ///
    /// # Errors
    ///
    /// [`Error::Length`], [`Error::Form`], [`Error::Contents`], or, with the place of the byte that breaks a rule of the form, [`Error::Copy`],
    /// [`Error::Count`], [`Error::Flag`] or [`Error::Unused`].
    pub fn load(form: Form, image: &[u8]) -> Result<Self, Error> {
        match Form::of_len(image.len()) {
            Some(found) if found == form => PchPic::try_from(image),
            Some(found) => Err(Error::Form { found, named: form }),
            None => Err(Error::Length),
        }
    }
}

impl TryFrom<&[u8]> for PchPic {
    type Error = Error;

    /// As [`PchPic::load`], in the form that the image's length says.
    fn try_from(image: &[u8]) -> Result<Self, Error> {
        // A conversion tests the image.
        let mut pic = PchPic::blank();
        outcome::convert(image, &mut pic.image)?;
        pic.count();
        Ok(pic)
    }
}

impl From<Image> for PchPic {
    /// The device of an image that was accepted.
    fn from(image: Image) -> Self {
        PchPic::try_from(&image[..]).expect("an image is accepted")
    }
}

/// How many events a done write dropped; the library always tells it.
pub(crate) fn lost(value: Option<u64>) -> u32 {
    u32::try_from(value.expect("a done write has a value")).expect("a write drops few events")
}
