//! A trace as 02, C-11, tells it: its bytes made and tested, and each record as a call. Written from that text, apart from the code under test.

use crate::call::Call;

pub type Record = [u8; 16];

pub const RAISE: u8 = 1;
pub const LOWER: u8 = 2;
pub const POLL: u8 = 3;
pub const READ: u8 = 4;
pub const WRITE: u8 = 5;
pub const DRAIN: u8 = 6;

/// The window of the calls.
pub const BASE: u64 = 0;
pub const SIZE: u64 = 65_536;

/// Bytes that have room for all events that can wait: 16, of four bytes each by C-19.
pub const ROOM: usize = 64;

/// A trace that has these records in blocks of so many: contents first, then the blocks back to back.
pub fn bytes(records: &[Record], blocks: &[usize]) -> Vec<u8> {
    assert_eq!(blocks.iter().sum::<usize>(), records.len(), "each record is in a block");
    [contents(blocks), records.concat()].concat()
}

/// The contents for blocks of so many records: how many blocks, and for each its offset and how many records. Numbers that are too large for two bytes are cut.
pub fn contents(blocks: &[usize]) -> Vec<u8> {
    let mut bytes = (blocks.len() as u16).to_le_bytes().to_vec();
    let mut offset = 2 + 4 * blocks.len();
    for count in blocks {
        bytes.extend((offset as u16).to_le_bytes());
        bytes.extend((*count as u16).to_le_bytes());
        offset += 16 * count;
    }
    bytes
}

/// The records, or the refusal with its value: 12 for wrong contents, a wrong length or more than 4,000 records, then 13 with the number of the first bad one.
pub fn test(trace: &[u8]) -> Result<Vec<Record>, (u8, Option<u64>)> {
    let records = blocks(trace).ok_or((12, None))?.concat();
    match records.iter().position(is_bad) {
        Some(number) => Err((13, Some(number as u64))),
        None => Ok(records),
    }
}

/// The records of each block, good or bad, where contents and length are right.
pub fn blocks(trace: &[u8]) -> Option<Vec<Vec<Record>>> {
    let number = |place: usize| Some(usize::from(u16::from_le_bytes([*trace.get(place)?, *trace.get(place + 1)?])));
    let blocks = number(0)?;
    if !(1..=64).contains(&blocks) {
        return None;
    }
    let first = 2 + 4 * blocks;
    let mut end = first;
    let mut counts = Vec::new();
    for block in 0..blocks {
        let (offset, count) = (number(2 + 4 * block)?, number(4 + 4 * block)?);
        // back to back in that order, none empty
        if offset != end || count == 0 {
            return None;
        }
        end += 16 * count;
        counts.push(count);
    }
    if end != trace.len() || end - first > 16 * 4000 {
        return None;
    }
    let mut records = trace[first..].chunks(16).map(|bytes| bytes.try_into().expect("a record has 16 bytes"));
    Some(counts.into_iter().map(|count| records.by_ref().take(count).collect()).collect())
}

/// A record is bad if its kind is not 1 to 6 or an unused field or zero byte is not zero.
pub fn is_bad(record: &Record) -> bool {
    let zeros = 4..8;
    let (byte, offset, value) = (1..2, 2..4, 8..16);
    let unused = match record[0] {
        RAISE | LOWER | POLL => vec![zeros, offset, value],
        READ => vec![zeros, value],
        WRITE => vec![zeros],
        DRAIN => vec![zeros, byte, offset, value],
        _ => return true,
    };
    unused.into_iter().any(|field| record[field].iter().any(|&byte| byte != 0))
}

/// The call of a good record; a drain's events go to this place.
pub fn call(record: &Record, place: usize) -> Call {
    let byte = u64::from(record[1]);
    let address = u64::from(u16::from_le_bytes([record[2], record[3]]));
    let value = u64::from_le_bytes(record[8..].try_into().expect("a value has 8 bytes"));
    match record[0] {
        RAISE => Call::Level { input: byte, level: 1 },
        LOWER => Call::Level { input: byte, level: 0 },
        POLL => Call::Poll { input: byte },
        READ => Call::Read { base: BASE, size: SIZE, address, width: byte },
        WRITE => Call::Write { base: BASE, size: SIZE, address, width: byte, value },
        DRAIN => Call::Drain { place: place as u64 },
        _ => unreachable!("a good record has one of six kinds"),
    }
}

/// The record of a call; what is too large for its field is cut. There is none of a reset or a conversion.
pub fn record(call: &Call) -> Option<Record> {
    let (kind, byte, offset, value) = match *call {
        Call::Level { input, level } => (if level == 0 { LOWER } else { RAISE }, input, 0, 0),
        Call::Poll { input } => (POLL, input, 0, 0),
        Call::Read { address, width, .. } => (READ, width, address, 0),
        Call::Write { address, width, value, .. } => (WRITE, width, address, value),
        Call::Drain { .. } => (DRAIN, 0, 0, 0),
        Call::Reset | Call::Convert { .. } => return None,
    };
    let mut record = [0; 16];
    record[0] = kind;
    record[1] = byte as u8;
    record[2..4].copy_from_slice(&(offset as u16).to_le_bytes());
    record[8..].copy_from_slice(&value.to_le_bytes());
    Some(record)
}
