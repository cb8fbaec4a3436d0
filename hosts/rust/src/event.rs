//! What comes out of the device.

use crate::{calls, PchPic};
use core::fmt;

/// A vector to assert or to deassert at the interrupt controller above.
///
/// It is not `Ord`: numbers go round, so of 0, 30,000 and 60,000 each is ahead of the one before it, and 0 of 60,000 too. That is no order that could be
/// sorted by. Events of one stretch have an order, and [`Event::since`] and [`Event::sort`] tell it.
#[derive(Clone, Copy, Debug, Default, PartialEq, Eq, Hash)]
#[must_use = "an event that is not passed on is lost"]
pub struct Event {
    /// The vector of the input, as it was when the event was made.
    pub vector: u8,
    /// Whether it is to be asserted, or deasserted.
    pub asserted: bool,
    /// Each event that is made gets the next number, whether it is returned, waits or is dropped: 0 after reset, and after 65,535 comes 0.
    pub number: u16,
}

impl Event {
    /// How many events after `earlier` this one was made; below 0 where it was made before. It is right where they are no further apart than 32,767.
    ///
    /// ```
    /// use pch_pic::Event;
    ///
    /// let numbered = |number| Event { number, ..Event::default() };
    /// assert_eq!(numbered(3).since(numbered(65_534)), 5);
    /// assert_eq!(numbered(65_534).since(numbered(3)), -5);
    /// ```
    #[must_use]
    pub fn since(self, earlier: Event) -> i16 {
        difference(self.number, earlier.number)
    }

    /// Puts returned and drained events into the order in which the device made them. At most 32,768 may have been made from the oldest of them to the
    /// newest, dropped ones counted.
    ///
    /// ```
    /// use pch_pic::{reg, Event, PchPic, Width, Window};
    ///
    /// let (mut pic, mut kept) = (PchPic::new(), Vec::new());
    /// kept.extend(pic.set_level(5, true)?); // masked: only latched
    /// pic.write(Window::at(0), reg::MASK, Width::Dword, 0)?; // the assert waits
    /// kept.extend(pic.set_level(5, false)?); // the deassert is returned at once
    /// kept.extend(pic.drain_events());
    /// assert_eq!(kept.iter().map(|event| event.number).collect::<Vec<_>>(), [1, 0]);
    /// Event::sort(&mut kept);
    /// assert_eq!(kept[0], Event { vector: 5, asserted: true, number: 0 });
    /// # Ok::<(), pch_pic::Error>(())
    /// ```
    pub fn sort(events: &mut [Event]) {
        // The distance from one of them is a number that does not go round.
        if let Some(&one) = events.first() {
            events.sort_unstable_by_key(|event| event.since(one));
        }
    }

    /// The same of events since a reset, of which at most 65,536 were made, dropped ones counted: by rising number, as a [`Board`](crate::Board) is to hear them.
    pub fn sort_from_reset(events: &mut [Event]) {
        events.sort_unstable_by_key(|event| event.number);
    }
}

/// How far `later` is ahead of `earlier`, both numbers of events: the only difference from -32,768 to 32,767 that is congruent to `later - earlier`
/// modulo 65,536. So 32,768 ahead reads as -32,768. The library does it, as `pch_pic_difference`.
///
/// ```
/// assert_eq!(pch_pic::difference(3, 65_534), 5);
/// assert_eq!(pch_pic::difference(40_000, 7_232), -32_768);
/// ```
#[must_use]
pub fn difference(later: u16, earlier: u16) -> i16 {
    calls::pch_pic_difference(later, earlier)
}

impl fmt::Display for Event {
    fn fmt(&self, f: &mut fmt::Formatter<'_>) -> fmt::Result {
        write(f, self.vector, self.asserted)
    }
}

/// What is to be done to a vector, in words.
pub(crate) fn write(f: &mut fmt::Formatter<'_>, vector: u8, asserted: bool) -> fmt::Result {
    write!(f, "{} vector {vector:#04x}", if asserted { "assert" } else { "deassert" })
}

/// The event of a returned value: the vector is its low byte, the number its bits 16 to 31.
pub(crate) fn returned(value: u64, asserted: bool) -> Event {
    Event { vector: value as u8, asserted, number: (value >> 16) as u16 }
}

/// The event of the bytes that a drain writes: vector, flag, number.
pub(crate) fn drained(bytes: &[u8]) -> Event {
    Event { vector: bytes[0], asserted: bytes[1] == 1, number: u16::from_le_bytes([bytes[2], bytes[3]]) }
}

/// What [`PchPic::set_level`] and [`PchPic::poll`] return: one event, or none. It is an `Option` that is not overlooked.
///
/// ```compile_fail
/// #![deny(unused_must_use)]
/// fn raise(pic: &mut pch_pic::PchPic) -> Result<(), pch_pic::Error> {
///     pic.set_level(5, true)?; // the event is lost
///     Ok(())
/// }
/// ```
///
/// ```
/// # let mut pic = pch_pic::PchPic::new();
/// for event in pic.set_level(5, true)? {
///     println!("{event}");
/// }
/// # Ok::<(), pch_pic::Error>(())
/// ```
#[derive(Clone, Copy, Debug, Default, PartialEq, Eq, Hash)]
#[must_use = "an event that is not passed on is lost: it does not wait in the device"]
pub struct Returned(pub(crate) Option<Event>);

impl Returned {
    /// The event, if there is one.
    #[must_use = "an event that is not passed on is lost: it does not wait in the device"]
    pub const fn event(self) -> Option<Event> {
        self.0
    }
}

impl From<Returned> for Option<Event> {
    fn from(returned: Returned) -> Self {
        returned.0
    }
}

impl PartialEq<Option<Event>> for Returned {
    fn eq(&self, other: &Option<Event>) -> bool {
        self.0 == *other
    }
}

impl IntoIterator for Returned {
    type Item = Event;
    type IntoIter = core::option::IntoIter<Event>;

    fn into_iter(self) -> Self::IntoIter {
        self.0.into_iter()
    }
}

/// The waiting events, oldest first, each taken out of the device as the iterator gives it. [`PchPic::drain_events`] makes it.
#[derive(Debug)]
#[must_use = "events wait on until the iterator gives them"]
pub struct Events<'a> {
    pub(crate) pic: &'a mut PchPic,
}

impl Iterator for Events<'_> {
    type Item = Event;

    fn next(&mut self) -> Option<Event> {
        let mut one = [Event::default()];
        (self.pic.drain(&mut one) == 1).then_some(one[0])
    }

    fn size_hint(&self) -> (usize, Option<usize>) {
        (self.pic.waiting(), Some(self.pic.waiting()))
    }
}

impl ExactSizeIterator for Events<'_> {}

impl core::iter::FusedIterator for Events<'_> {}
