//! The numbers of events, a layer beside the published Rust, which knows none. Written from the text of 02, C-19, apart from the code under test.

use std::collections::VecDeque;

/// The number that the next event gets, and those of the events that wait, oldest first.
#[derive(Clone, Debug, PartialEq, Eq)]
pub struct Numbers {
    pub next: u16,
    pub waiting: VecDeque<u16>,
}

impl Numbers {
    /// Those with which an image without the fifth body loads: waiting events from 0 on, and the next after them.
    pub fn from_0(count: usize) -> Self {
        let mut numbers = Numbers { next: 0, waiting: VecDeque::with_capacity(16) };
        numbers.offered(count, 0);
        numbers
    }

    /// An event is made, and this is its number; after 65,535 comes 0.
    pub fn made(&mut self) -> u16 {
        let number = self.next;
        self.next = if number == 65_535 { 0 } else { number + 1 };
        number
    }

    /// A write made events: so many were kept, and then, with the ring full, so many dropped. All have a number.
    pub fn offered(&mut self, kept: usize, dropped: u64) {
        for _ in 0..kept {
            let number = self.made();
            self.waiting.push_back(number);
        }
        for _ in 0..dropped {
            self.made();
        }
    }

    /// The oldest waiting event is drained, and this is its number.
    pub fn drained(&mut self) -> u16 {
        self.waiting.pop_front().expect("what is drained has waited")
    }
}

/// The difference that 02 asks for: one alone is in range.
#[allow(dead_code)]
pub fn difference(later: u16, earlier: u16) -> i16 {
    (i16::MIN..=i16::MAX)
        .find(|&difference| is_difference(later, earlier, difference))
        .expect("one of 65,536 numbers in a row is congruent")
}

/// Whether a difference is the one that 02 asks for; its type has the range from -32,768 to 32,767.
pub fn is_difference(later: u16, earlier: u16, difference: i16) -> bool {
    (i32::from(later) - i32::from(earlier) - i32::from(difference)) % 65_536 == 0
}
