//! Which vectors are on.

use crate::{outcome, Event, VECTORS};
use core::fmt;

/// A board: for each vector how many inputs in service carry it, masked ones too. A vector is on while its count is not 0.
///
/// Each [`PchPic`](crate::PchPic) keeps one, which is right after every call and every load. A second board, for who has the events and not the device,
/// begins with no vector on and [hears](Board::hear) them. At the end it is the first one if it heard all events since a reset in the order in which they
/// were made, none was dropped or waits, nothing was loaded, no write reached ISR, and no vector byte changed while its input was in service. While at most
/// 65,536 events were made since that reset, the order is that of rising [numbers](Event::number).
///
/// ```
/// use pch_pic::{reg, Board, Event, PchPic, Width, Window};
///
/// let (mut pic, mut kept) = (PchPic::new(), Vec::new());
/// kept.extend(pic.set_level(5, true)?); // masked: only latched
/// pic.write(Window::at(0), reg::MASK, Width::Dword, 0)?; // the assert of 5 waits
/// kept.extend(pic.set_level(5, false)?); // its deassert is returned before that
/// kept.extend(pic.set_level(9, true)?);
/// kept.extend(pic.drain_events());
/// Event::sort_from_reset(&mut kept);
/// let mut second = Board::new();
/// for event in kept {
///     second.hear(event);
/// }
/// assert!(second.vectors_on().eq([9]));
/// assert_eq!(&second, pic.board());
/// # Ok::<(), pch_pic::Error>(())
/// ```
#[derive(Clone, PartialEq, Eq, Hash)]
pub struct Board([u8; VECTORS]);

impl Default for Board {
    fn default() -> Self {
        Board::new()
    }
}

impl fmt::Debug for Board {
    fn fmt(&self, f: &mut fmt::Formatter<'_>) -> fmt::Result {
        f.debug_map().entries(self.vectors_on().map(|vector| (vector, self.count(vector)))).finish()
    }
}

impl Board {
    /// No vector is on.
    pub const fn new() -> Self {
        Board([0; VECTORS])
    }

    /// An event moves the count of its vector, by one, within 0 and 255. The answer is the count after.
    pub fn hear(&mut self, event: Event) -> u8 {
        let count = outcome::hear(&mut self.0, event.vector, u8::from(event.asserted)).expect("a board has 256 bytes");
        count.expect("an event that is heard has a count") as u8
    }

    /// How many inputs in service carry the vector.
    pub const fn count(&self, vector: u8) -> u8 {
        self.0[vector as usize]
    }

    /// Whether the vector is on.
    pub const fn is_on(&self, vector: u8) -> bool {
        self.count(vector) != 0
    }

    /// The vectors that are on, in rising order.
    pub fn vectors_on(&self) -> impl Iterator<Item = u8> + '_ {
        (0..=u8::MAX).filter(|vector| self.is_on(*vector))
    }

    /// All counts, that of vector v at v.
    pub const fn counts(&self) -> &[u8; VECTORS] {
        &self.0
    }

    /// To be lent to a call.
    pub(crate) fn bytes(&mut self) -> &mut [u8] {
        &mut self.0
    }
}
