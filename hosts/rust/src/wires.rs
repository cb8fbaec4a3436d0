//! The wires of a device, and what a host does with them.

use crate::{event, reg, Board, Error, Event, PchPic, Returned, Width, Window, EVENTS, INPUTS, VECTORS};
use core::fmt;

/// What [`Wires`] asks of a device: the calls of a [`PchPic`], made on it alone or recorded too.
pub trait Device {
    /// The device, to be looked at.
    fn pic(&self) -> &PchPic;

    /// As [`PchPic::set_level`].
    ///
    /// # Errors
    ///
    /// [`Error::Input`] where the input is 64 or more.
    fn set_level(&mut self, input: u64, level: bool) -> Result<Returned, Error>;

    /// As [`PchPic::poll`].
    ///
    /// # Errors
    ///
    /// [`Error::Input`] where the input is 64 or more.
    fn poll(&mut self, input: u64) -> Result<Returned, Error>;

    /// As [`PchPic::drain`].
    #[must_use = "the events are out of the device, and the count says how many there are"]
    fn drain(&mut self, events: &mut [Event]) -> usize;
}

impl Device for PchPic {
    fn pic(&self) -> &PchPic {
        self
    }

    fn set_level(&mut self, input: u64, level: bool) -> Result<Returned, Error> {
        PchPic::set_level(self, input, level)
    }

    fn poll(&mut self, input: u64) -> Result<Returned, Error> {
        PchPic::poll(self, input)
    }

    fn drain(&mut self, events: &mut [Event]) -> usize {
        PchPic::drain(self, events)
    }
}

/// A vector goes on or off at the controller above.
#[derive(Clone, Copy, Debug, PartialEq, Eq, Hash)]
#[must_use = "a change that is not passed on leaves the controller above behind"]
pub struct Change {
    /// The vector.
    pub vector: u8,
    /// Whether it is to be asserted, or deasserted.
    pub asserted: bool,
    /// The number of the [`Event`] that told it; none where no event did, and it was counted afresh.
    pub number: Option<u16>,
}

impl From<Event> for Change {
    fn from(event: Event) -> Self {
        Change { vector: event.vector, asserted: event.asserted, number: Some(event.number) }
    }
}

impl fmt::Display for Change {
    fn fmt(&self, f: &mut fmt::Formatter<'_>) -> fmt::Result {
        event::write(f, self.vector, self.asserted)
    }
}

/// The wires of a device: which of its lines are high, and which vectors are on at the controller above.
///
/// Which vectors are on is read from the device's [`Board`] as it stands, so nothing that a guest does can make it wrong: after each call here
/// exactly the vectors of the inputs in service are on.
///
/// Each call takes a `route`, which is called for each vector that is to be asserted or deasserted above. An assert may come for a vector
/// that is on: another input that carries it wants service. A deassert comes only when no input carries it any more.
///
/// # Edges
///
/// The device keeps EDGE and knows levels alone; what an edge is, is made of them here. Of an input that the guest has in EDGE only the rise of its line is told, from
/// low to high, and once: neither its fall, nor a line that is high already. So it is latched from its rise until the guest clears it, and a second rise
/// before that adds nothing. A pulse is two calls of [`line`](Wires::line), high and low, and one interrupt. An edge that the guest makes a level follows its line
/// from then on. Which way a line turns (POL) is the host's to know: here high is active.
///
/// ```
/// use pch_pic::{reg, PchPic, Width, Window, Wires};
///
/// let (mut pic, mut wires, window) = (PchPic::new(), Wires::new(), Window::at(0));
/// pic.write(window, reg::EDGE, Width::Dword, 1 << 7)?;
/// pic.write(window, reg::MASK, Width::Dword, 0)?;
/// wires.settle(&mut pic, |_| unreachable!());
/// wires.line(&mut pic, 7, true, |change| println!("{change}"))?;
/// wires.line(&mut pic, 7, false, |_| unreachable!())?; // it stays until the guest clears it
/// assert!(wires.is_on(7));
/// pic.write(window, reg::CLEAR, Width::Dword, 1 << 7)?;
/// wires.settle(&mut pic, |change| println!("{change}"));
/// assert!(!wires.is_on(7));
/// # Ok::<(), pch_pic::Error>(())
/// ```
///
/// ```
/// use pch_pic::{reg, PchPic, Width, Window, Wires};
///
/// let (mut pic, mut wires) = (PchPic::new(), Wires::new());
/// pic.write(Window::at(0), reg::ISR, Width::Dword, 1)?; // no event tells it, and ISR reads 0: the input is masked
/// wires.settle(&mut pic, |change| println!("{change}"));
/// assert!(wires.is_on(0));
/// # Ok::<(), pch_pic::Error>(())
/// ```
#[derive(Clone, PartialEq, Eq, Hash)]
pub struct Wires {
    /// Bit n is set while a device of the host holds line n up.
    high: u64,
    /// The inputs that EDGE had when [`settle`](Wires::settle) last looked.
    edges: u64,
    /// What the controller above was told last.
    on: [bool; VECTORS],
}

impl Default for Wires {
    fn default() -> Self {
        Wires::new()
    }
}

impl fmt::Debug for Wires {
    fn fmt(&self, f: &mut fmt::Formatter<'_>) -> fmt::Result {
        /// A list of vectors.
        struct On<'a>(&'a Wires);
        impl fmt::Debug for On<'_> {
            fn fmt(&self, f: &mut fmt::Formatter<'_>) -> fmt::Result {
                f.debug_list().entries(self.0.vectors_on()).finish()
            }
        }
        f.debug_struct("Wires").field("high", &format_args!("{:#018x}", self.high)).field("on", &On(self)).finish()
    }
}

impl Wires {
    /// Every line low, every vector off.
    pub const fn new() -> Self {
        Wires { high: 0, edges: 0, on: [false; VECTORS] }
    }

    /// The lines that are high: bit n for input n.
    pub const fn high(&self) -> u64 {
        self.high
    }

    /// Whether a vector is on at the controller above.
    pub const fn is_on(&self, vector: u8) -> bool {
        self.on[vector as usize]
    }

    /// The vectors that are on, in rising order.
    pub fn vectors_on(&self) -> impl Iterator<Item = u8> + '_ {
        (0..=u8::MAX).filter(|vector| self.is_on(*vector))
    }

    /// Says what the controller above has on, without telling it. Needed before [`resume`](Wires::resume) where that controller was restored
    /// too.
    pub fn assume(&mut self, vector: u8, on: bool) {
        self.on[usize::from(vector)] = on;
    }

    /// Brings the wires in line with the device, whatever the guest did: drains and passes on, counts afresh which vectors are on and passes
    /// on what no event told, polls each input that waits, and raises each line again that is still high, no edge, and no longer latched. Then every
    /// latched and unmasked input is in service. To be called after each write and each reset. Where nobody waits and no line
    /// lacks its latch it is a drain, a look at who waits and a read of EDGE, of which the drain alone is a record of a day.
    ///
    /// ```
    /// use pch_pic::{reg, PchPic, Width, Window, Wires};
    ///
    /// let (mut pic, mut wires) = (PchPic::new(), Wires::new());
    /// let _ = (pic.set_level(3, true)?, pic.set_level(9, true)?, pic.set_level(40, true)?); // masked: only latched
    /// pic.write(Window::at(0), reg::MASK, Width::Qword, 0)?; // announces 3, and 40 in the other half
    /// wires.settle(&mut pic, |change| println!("{change}"));
    /// assert!(wires.vectors_on().eq([3, 9, 40]));
    /// # Ok::<(), pch_pic::Error>(())
    /// ```
    pub fn settle(&mut self, pic: &mut (impl Device + ?Sized), mut route: impl FnMut(Change)) {
        let edges = edge_inputs(pic.pic());
        let levels_again = self.edges & !edges;
        self.edges = edges;
        // Waiting events are older than those of the inputs. And a line that a CLEAR took goes off above before it goes on again.
        self.catch_up(pic, &mut route);
        // An edge whose line has fallen, and that is a level now, goes before the sweep would wake it.
        for input in inputs(levels_again & pic.pic().latched() & !self.high) {
            self.shift(pic, input, false, &mut route);
        }
        self.sweep(pic, &mut route);
        // A raise of one that is latched would do nothing now: it is in service, or masked.
        for input in inputs(self.high & !edges & !pic.pic().latched()) {
            self.shift(pic, input, true, &mut route);
        }
    }

    /// A device of the host moves a line, and what comes of it is passed on. Of an edge only the rise is told to the device.
    ///
    /// # Errors
    ///
    /// [`Error::Input`] where the input is 64 or more.
    pub fn line(&mut self, pic: &mut (impl Device + ?Sized), input: u64, high: bool, mut route: impl FnMut(Change)) -> Result<(), Error> {
        if input >= INPUTS as u64 {
            return Err(Error::Input);
        }
        let bit = 1 << input;
        let told = edge_inputs(pic.pic()) & bit == 0 || (high && self.high & bit == 0);
        self.high = if high { self.high | bit } else { self.high & !bit };
        self.catch_up(pic, &mut route);
        if told {
            self.shift(pic, input, high, &mut route);
        }
        Ok(())
    }

    /// After a load: the lines are as `high` says, bit n for input n, and the rest follows. Wires that are new say that the controller above
    /// has nothing on; see [`assume`](Wires::assume).
    ///
    /// An edge that was latched stays so, whatever its line, and one that is high makes no new edge. So `high` is best the lines as they were at the save: those
    /// that moved since are then moved by [`line`](Wires::line), and a rise among them is told.
    pub fn resume(&mut self, pic: &mut (impl Device + ?Sized), high: u64, route: impl FnMut(Change)) {
        // A line that was high when the device was saved may have gone low since: then its input is still latched. Not so an edge: it stays until it is cleared.
        for input in inputs(pic.pic().latched() & !high & !edge_inputs(pic.pic())) {
            // What it returns is left to the count.
            let _ = pic.set_level(input, false);
        }
        self.high = high;
        self.settle(pic, route);
    }

    /// Passes on what waits, and then what no event told: a drop, a vector changed in service, a write of ISR, a load.
    fn catch_up(&mut self, pic: &mut (impl Device + ?Sized), route: &mut impl FnMut(Change)) {
        let mut events = [Event::default(); EVENTS];
        let count = pic.drain(&mut events);
        let board = pic.pic().board();
        for event in events.iter().take(count) {
            self.pass_on(board, *event, route);
        }
        for vector in 0..=u8::MAX {
            let asserted = board.is_on(vector);
            if self.is_on(vector) != asserted {
                self.tell(Change { vector, asserted, number: None }, route);
            }
        }
    }

    /// One sweep: each input that waits is polled, lowest first. Whatever the guest did, every latched and unmasked input is in service then, and each was
    /// asserted at most once; polls of all 64 would come to the same.
    fn sweep(&mut self, pic: &mut (impl Device + ?Sized), route: &mut impl FnMut(Change)) {
        for input in inputs(pic.pic().waiting_inputs()) {
            for event in pic.poll(input).into_iter().flatten() {
                self.pass_on(pic.pic().board(), event, route);
            }
        }
    }

    fn shift(&mut self, pic: &mut (impl Device + ?Sized), input: u64, high: bool, route: &mut impl FnMut(Change)) {
        for event in pic.set_level(input, high).into_iter().flatten() {
            self.pass_on(pic.pic().board(), event, route);
        }
    }

    /// An event is passed on where the device, as it stands now, agrees with it. A deassert is not where another input still carries the
    /// vector; an assert is not where the input has left service since.
    fn pass_on(&mut self, board: &Board, event: Event, route: &mut impl FnMut(Change)) {
        let on = board.is_on(event.vector);
        if event.asserted == on && (on || self.is_on(event.vector)) {
            self.tell(event.into(), route);
        }
    }

    fn tell(&mut self, change: Change, route: &mut impl FnMut(Change)) {
        self.on[usize::from(change.vector)] = change.asserted;
        route(change);
    }
}

/// The inputs that the guest has made edge-triggered. A host's own look at its device: no record of a day has it.
fn edge_inputs(pic: &PchPic) -> u64 {
    pic.read(Window::at(0), reg::EDGE, Width::Qword).unwrap_or(0)
}

/// The inputs of a set, lowest first.
fn inputs(mut set: u64) -> impl Iterator<Item = u64> {
    core::iter::from_fn(move || {
        let lowest = (set != 0).then(|| u64::from(set.trailing_zeros()))?;
        set &= set - 1;
        Some(lowest)
    })
}
