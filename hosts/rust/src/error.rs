//! Why a call is refused.

use crate::Form;
use core::fmt;

/// Why a call was refused. A refused call changes neither the device nor a lent buffer.
///
/// Each case has a [number](Error::number), the same as in C. Later versions add cases.
///
/// ```
/// use pch_pic::{Error, Form, PchPic};
///
/// assert_eq!(PchPic::load(Form::One, &[0; 100]), Err(Error::Length));
/// assert_eq!(Error::Length.number(), 4);
/// assert_eq!(Error::Length.to_string(), "an image is not 290, 259 or 251 bytes long");
/// let other = PchPic::load(Form::One, &PchPic::new().save(Form::Two)).unwrap_err();
/// assert_eq!(other.to_string(), "the image is as long as one of form 2, and form 1 was named");
/// ```
#[derive(Clone, Copy, Debug, PartialEq, Eq, Hash)]
#[non_exhaustive]
pub enum Error {
    /// 1: an access at this address is not wholly inside the window.
    Outside(u64),
    /// 2: the width is not 1, 2, 4 or 8.
    Width,
    /// 3: the input is 64 or more.
    Input,
    /// 4: an image is not 290, 259 or 251 bytes long.
    Length,
    /// 4: the image that is loaded is as long as one of another form than was named. C names no form, and has no such case.
    Form {
        /// The form that the image has by its length.
        found: Form,
        /// The form that was named.
        named: Form,
    },
    /// 5: the image's first bytes, 27 of 290 or else 22, are not those of the form that its length says.
    Contents,
    /// 7: the place of a drain is past the end of its buffer. (A play and a salvage lend room enough.)
    Room,
    /// 8: the image, of form 1, has a copy of IRR that differs from IRR; the place of its first byte.
    Copy(u64),
    /// 9: the image says that more than 16 events wait; the place of the count.
    Count(u64),
    /// 10: the flag of a waiting event is neither 0 nor 1; the place of the first such flag.
    Flag(u64),
    /// 11: a byte behind the waiting events is not 0, or then one behind their numbers; the place of the first such byte.
    Unused(u64),
    /// 12: a trace's contents are wrong, it has another length than they say, or more than 4,000 records.
    Trace,
    /// 13: a record of a trace is bad; the number of the first, counted from 0 over the trace.
    Record(u64),
    /// 14: an access under the hoist profile is no Dword at an offset that 4 divides.
    Align,
    /// 15: a write that the hoist profile does not allow, or a start-up that cannot end.
    Profile,
    /// 16: of a trace that is salvaged every block has a bad record, so that none is left.
    Empty,
    /// 17: a tally has a number of 2^63 or more, or an open wait above its number of records; the place of that number's first byte.
    Tally(u64),
}

impl Error {
    /// The number that the library hands back for it.
    pub const fn number(&self) -> u8 {
        match self {
            Error::Outside(_) => 1,
            Error::Width => 2,
            Error::Input => 3,
            Error::Length | Error::Form { .. } => 4,
            Error::Contents => 5,
            Error::Room => 7,
            Error::Copy(_) => 8,
            Error::Count(_) => 9,
            Error::Flag(_) => 10,
            Error::Unused(_) => 11,
            Error::Trace => 12,
            Error::Record(_) => 13,
            Error::Align => 14,
            Error::Profile => 15,
            Error::Empty => 16,
            Error::Tally(_) => 17,
        }
    }

    /// The value that goes with the number: of 1 the address, of 8 to 11 the place in the image, of 13 the number of the record, of 17 the place in the tally.
    pub const fn value(&self) -> Option<u64> {
        match self {
            Error::Outside(value)
            | Error::Copy(value)
            | Error::Count(value)
            | Error::Flag(value)
            | Error::Unused(value)
            | Error::Record(value)
            | Error::Tally(value) => Some(*value),
            _ => None,
        }
    }

    /// The error that a number and its value tell; none for 0 and for numbers that the library does not have.
    pub(crate) fn from_answer(number: u8, value: Option<u64>) -> Option<Error> {
        match (number, value) {
            (1, Some(address)) => Some(Error::Outside(address)),
            (2, None) => Some(Error::Width),
            (3, None) => Some(Error::Input),
            (4, None) => Some(Error::Length),
            (5, None) => Some(Error::Contents),
            (7, None) => Some(Error::Room),
            (8, Some(place)) => Some(Error::Copy(place)),
            (9, Some(place)) => Some(Error::Count(place)),
            (10, Some(place)) => Some(Error::Flag(place)),
            (11, Some(place)) => Some(Error::Unused(place)),
            (12, None) => Some(Error::Trace),
            (13, Some(record)) => Some(Error::Record(record)),
            (14, None) => Some(Error::Align),
            (15, None) => Some(Error::Profile),
            (16, None) => Some(Error::Empty),
            (17, Some(place)) => Some(Error::Tally(place)),
            _ => None,
        }
    }
}

impl fmt::Display for Error {
    fn fmt(&self, f: &mut fmt::Formatter<'_>) -> fmt::Result {
        match self {
            Error::Outside(address) => write!(f, "the access at {address:#x} is not wholly inside the window"),
            Error::Width => f.write_str("the width is not 1, 2, 4 or 8"),
            Error::Input => f.write_str("the input is 64 or more"),
            Error::Length => f.write_str("an image is not 290, 259 or 251 bytes long"),
            Error::Form { found, named } => write!(f, "the image is as long as one of {found}, and {named} was named"),
            Error::Contents => f.write_str("the image does not begin as one of its length does"),
            Error::Room => f.write_str("a buffer is too short"),
            Error::Copy(place) => write!(f, "the image's copy of IRR differs from IRR, at byte {place}"),
            Error::Count(place) => write!(f, "the image says that more than 16 events wait, at byte {place}"),
            Error::Flag(place) => write!(f, "the flag of a waiting event in the image is neither 0 nor 1, at byte {place}"),
            Error::Unused(place) => {
                write!(f, "the image has a byte that is not 0 behind its waiting events or their numbers, at byte {place}")
            }
            Error::Trace => f.write_str("the trace's contents or length are wrong, or it has more than 4000 records"),
            Error::Record(record) => write!(f, "the trace has a bad record, number {record} from 0 on"),
            Error::Align => f.write_str("the access is no aligned Dword"),
            Error::Profile => f.write_str("the profile does not allow the write, or start-up cannot end"),
            Error::Empty => f.write_str("the trace has no block without a bad record"),
            Error::Tally(place) => write!(f, "the tally has a number that none can have, at byte {place}"),
        }
    }
}

impl core::error::Error for Error {}

#[cfg(test)]
mod tests {
    use super::*;

    #[test]
    fn a_number_and_its_value_come_back() {
        for number in [1, 2, 3, 4, 5, 7, 8, 9, 10, 11, 12, 13, 14, 15, 16, 17] {
            let value = [1, 8, 9, 10, 11, 13, 17].contains(&number).then_some(0x1234);
            let error = Error::from_answer(number, value).unwrap();
            assert_eq!((error.number(), error.value()), (number, value));
        }
    }

    #[test]
    fn other_answers_are_no_error() {
        for number in [0, 6, 8, 13, 17, 255] {
            assert_eq!(Error::from_answer(number, None), None);
        }
        assert_eq!(Error::from_answer(1, None), None);
        assert_eq!(Error::from_answer(4, Some(0)), None);
    }
}
