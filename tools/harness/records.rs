//! The file of recorded answers: calls, and what the published Rust answered, for tests that have no Rust source at hand.
//!
//! Every number has its little end first. The file is a row of records of 64 bytes. The first is the header:
//!
//!   0..8    the letters PCHPICA1
//!   8..12   the number of records after the header
//!   12..16  of these, how many are calls
//!   16..64  zero
//!
//! Whoever replays the file keeps three areas: an image buffer of 300 bytes, zero at the start; an answer area of 32 bytes; an event
//! buffer of 64 bytes. Before every call all bytes of the answer area become 0xee, and all of the event buffer 0xdd. A call is lent the
//! first bytes of each area, as many as its record says; all other bytes must stay. The records are taken one after another. By its first
//! byte, the kind, a record is:
//!
//!   1 reset, 2 read, 3 write, 4 level, 5 poll, 6 drain: make this call. Then hold against the record:
//!     1       the number handed back
//!     2       1 where a value is present, else 0
//!     3       (lent) the length of the answer area
//!     4..8    the checksum of the image buffer's 300 bytes after the call
//!     8..16   the value, 0 where none is present
//!     16..24  (lent) base, or the input, or a drain's place
//!     24..32  (lent) size, or the level, or the length of a drain's event buffer
//!     32..40  (lent) the address of a read or write
//!     40..48  (lent) its width
//!     48..56  (lent) the value that is written
//!     56..60  of a drain: the checksum of the event buffer's 64 bytes after the call
//!     60..62  (lent) the length of the image
//!     62..64  zero; so is every field that the call has no use for
//!   The answer area follows from it. After number 7 all its bytes are 0xee still. Else byte 0 is the number, 1 as field 2, 2..7 are zero,
//!   8..15 are the value, and the rest are 0xee.
//!   7 image: the next five records are 320 bytes; the first 290 become the first 290 of the image buffer, whose others become zero. An image of
//!     259 or 251 bytes has zeros behind them.
//!   8 whole: the next five records are 320 bytes; the first 300 must equal the image buffer.
//!   9 byte: the byte of the image buffer at the place in 16..24 becomes the number in 24..32. So damage is done and undone.
//!
//! The checksum of bytes b: start with 0; for each byte, in order, take (257 h + b + 1) modulo 4,294,967,291.

use crate::call::Call;

pub const RECORD: usize = 64;
pub const MAGIC: &[u8; 8] = b"PCHPICA1";
pub const IMAGE_BUFFER: usize = 300;
pub const ANSWER_AREA: usize = 32;
pub const EVENT_BUFFER: usize = 64;
pub const ANSWER_FILL: u8 = 0xee;
pub const EVENT_FILL: u8 = 0xdd;
/// How many records the bytes of an image take.
pub const IMAGE_RECORDS: usize = 5;

pub const IMAGE: u8 = 7;
pub const WHOLE: u8 = 8;
pub const BYTE: u8 = 9;

/// A call, what is lent to it, and what was answered.
#[derive(Clone, Copy, Debug, PartialEq, Eq)]
pub struct Answered {
    pub call: Call,
    pub image: usize,
    pub answer: usize,
    pub events: usize,
    pub number: u8,
    pub value: Option<u64>,
    pub image_sum: u32,
    pub event_sum: u32,
}

pub fn checksum(bytes: &[u8]) -> u32 {
    bytes.iter().fold(0u64, |h, &b| (257 * h + u64::from(b) + 1) % 4_294_967_291) as u32
}

impl Answered {
    pub fn write(&self) -> [u8; RECORD] {
        let (kind, mut numbers) = self.call.coded();
        if let Call::Drain { .. } = self.call {
            numbers.push(self.events as u64);
        }
        let mut record = [0; RECORD];
        record[0] = kind;
        record[1] = self.number;
        record[2] = self.value.is_some() as u8;
        record[3] = self.answer as u8;
        record[4..8].copy_from_slice(&self.image_sum.to_le_bytes());
        record[8..16].copy_from_slice(&self.value.unwrap_or(0).to_le_bytes());
        for (k, number) in numbers.iter().enumerate() {
            record[16 + 8 * k..24 + 8 * k].copy_from_slice(&number.to_le_bytes());
        }
        record[56..60].copy_from_slice(&self.event_sum.to_le_bytes());
        record[60..62].copy_from_slice(&(self.image as u16).to_le_bytes());
        record
    }

    /// A record of a call, or none where it is of no such kind.
    pub fn read(record: &[u8]) -> Option<Answered> {
        let numbers: [u64; 5] = std::array::from_fn(|k| u64::from_le_bytes(record[16 + 8 * k..24 + 8 * k].try_into().unwrap()));
        Some(Answered {
            call: Call::decoded(record[0], &numbers)?,
            image: u16::from_le_bytes([record[60], record[61]]) as usize,
            answer: record[3] as usize,
            events: if record[0] == 6 { numbers[1] as usize } else { 0 },
            number: record[1],
            value: (record[2] == 1).then(|| u64::from_le_bytes(record[8..16].try_into().unwrap())),
            image_sum: u32::from_le_bytes(record[4..8].try_into().unwrap()),
            event_sum: u32::from_le_bytes(record[56..60].try_into().unwrap()),
        })
    }
}
