// Made from crates/answer/src/refusals.rt by tools/portable: do not change it here.
//! Why a call is refused: 01's and 02's numbers, and the value that goes with each. Which refusal comes first is known above.

use super::super::image::faults::Broken;
use super::super::image::faults::Fault;
use super::super::image::head::HeadFault;

/// What an exported call hands back where what it was lent has no room: nothing is told then.
pub const NO_ROOM: u8 = 7;

/// In the order of their numbers.
#[derive(Clone, Copy)]
pub enum Refusal {
    /// The access at this address is not wholly inside the window.
    Outside(u64),
    NoWidth,
    NoInput,
    WrongLength,
    WrongContents,
    NoRoom,
    /// A body of the image breaks a rule: which, and where.
    Body(Broken),
    TraceContents,
    /// The first bad record of a trace, counted from 0.
    BadRecord(usize),
    Unaligned,
    Unfit,
    NothingLeft,
    /// Where the first wrong number of a tally stands.
    WrongTally(u64),
}

impl Refusal {
    /// The number that is handed back.
    ///
    /// ```text
    /// ensures { result ≡ refusal_number self }
    /// ```
    pub fn number(self) -> u8 {
        match self {
            Refusal::Outside(_) => 1,
            Refusal::NoWidth => 2,
            Refusal::NoInput => 3,
            Refusal::WrongLength => 4,
            Refusal::WrongContents => 5,
            Refusal::NoRoom => NO_ROOM,
            Refusal::Body(broken) => fault_number(broken.rule),
            Refusal::TraceContents => 12,
            Refusal::BadRecord(_) => 13,
            Refusal::Unaligned => 14,
            Refusal::Unfit => 15,
            Refusal::NothingLeft => 16,
            Refusal::WrongTally(_) => 17,
        }
    }

    /// The value that goes with it.
    ///
    /// ```text
    /// ensures { value_view result ≡ refusal_value self }
    /// ```
    pub fn value(self) -> Option<u64> {
        match self {
            Refusal::Outside(address) => Some(address),
            Refusal::Body(broken) => Some(broken.place as u64),
            Refusal::BadRecord(k) => Some(k as u64),
            Refusal::WrongTally(at) => Some(at),
            _ => None,
        }
    }
}

/// ```text
/// ensures { result ≡ fault_number (fault_view fault) }
/// ```
fn fault_number(fault: Fault) -> u8 {
    match fault {
        Fault::Copy => 8,
        Fault::Count => 9,
        Fault::Flag => 10,
        Fault::Unused => 11,
    }
}

impl From<HeadFault> for Refusal {
    fn from(fault: HeadFault) -> Refusal {
        match fault {
            HeadFault::WrongLength => Refusal::WrongLength,
            HeadFault::WrongContents => Refusal::WrongContents,
        }
    }
}

impl From<Broken> for Refusal {
    fn from(broken: Broken) -> Refusal {
        Refusal::Body(broken)
    }
}
