//! What is expected: the published module's own answer, but in two places.

use crate::module::{Event, Module, Refused};
use pch_pic::axdevice::AccessWidth;

/// Which accesses are answered, and where.
#[derive(Clone, Copy, Debug)]
pub struct Window {
    pub base: usize,
    pub size: usize,
    /// Whether an access has to lie wholly inside, which the published module does not ask.
    pub whole: bool,
}

impl Window {
    /// Whether an access that begins inside goes over the window's end.
    fn overhangs(self, addr: usize, width: AccessWidth) -> bool {
        let last = addr as u128 + width.bytes() as u128 - 1;
        self.contains(addr) && last >= self.base.saturating_add(self.size) as u128
    }

    fn contains(self, addr: usize) -> bool {
        self.base <= addr && addr < self.base.saturating_add(self.size)
    }

    /// Where the published text has no answer of its own: the offset of a Qword's second half passes 2^64. A debug build panics, a release build goes round.
    fn has_no_answer(self, addr: usize, width: AccessWidth) -> bool {
        self.contains(addr) && width == AccessWidth::Qword && (addr - self.base).checked_add(4).is_none()
    }
}

pub struct Expected<M> {
    pub published: M,
    pub window: Window,
}

impl<M: Module> Module for Expected<M> {
    fn set_irq_level(&self, irq: usize, level: bool) -> Option<usize> {
        self.published.set_irq_level(irq, level)
    }

    fn pending_vector(&self, irq: usize) -> Option<usize> {
        self.published.pending_vector(irq)
    }

    fn drain_output_events(&self, f: impl FnMut(Event)) {
        self.published.drain_output_events(f);
    }

    fn take_output_event(&self) -> Option<Event> {
        self.published.take_output_event()
    }

    fn read_register(&self, addr: usize, width: AccessWidth) -> Result<usize, Refused> {
        if self.window.whole && self.window.overhangs(addr, width) {
            Err(Refused::OutOfRange(addr as u64))
        } else if self.window.has_no_answer(addr, width) {
            Ok(0)
        } else {
            self.published.read_register(addr, width)
        }
    }

    fn write_register(&self, addr: usize, width: AccessWidth, val: usize) -> Result<(), Refused> {
        if self.window.whole && self.window.overhangs(addr, width) {
            Err(Refused::OutOfRange(addr as u64))
        } else if self.window.has_no_answer(addr, width) {
            Ok(())
        } else {
            self.published.write_register(addr, width, val)
        }
    }

    fn drops(&self) -> u64 {
        self.published.drops()
    }
}
