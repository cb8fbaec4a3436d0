//! The file of recorded answers, crates/replay/data/answers.bin; its form is told at the top of tools/harness/records.rs.

use crate::Score;
use crate::areas::{ANSWER, Area, Areas, EVENTS, IMAGE, TARGET, TRACE};
use crate::bytes::Bytes;
use crate::library::*;

pub const MAGIC: &[u8; 8] = b"PCHPICA1";
const RECORD: usize = 64;
const IMAGE_BUFFER: usize = 300;
const ANSWER_AREA: usize = 32;
const EVENT_BUFFER: usize = 64;
const ANSWER_FILL: u8 = 0xee;
const EVENT_FILL: u8 = 0xdd;
/// The records that the bytes of an image take.
const IMAGE_RECORDS: usize = 5;
/// No plain call has use for these two: they hold image and answer area for the same call by the table.
const IMAGE_TWIN: usize = TRACE;
const ANSWER_TWIN: usize = TARGET;

/// Replays all records; what is wrong with the file, where something is.
pub fn replay(file: &[u8], areas: &mut Areas, score: &mut Score) -> Result<(), &'static str> {
    let header = file.first_chunk::<RECORD>().ok_or("the file is cut off")?;
    let told = |at: usize| Bytes(&header[at..]).number(4).unwrap_or(0) as usize;
    let records = &file[RECORD..];
    if records.len() != told(8) * RECORD {
        return Err("the header tells of another number of records");
    }
    lay_out(areas);
    let (mut calls, mut number, mut left) = (0, 0, Bytes(records));
    while let Some(record) = left.take(RECORD).and_then(|bytes| bytes.first_chunk()) {
        match record[0] {
            1..=6 => {
                calls += 1;
                score.count(number, held(record, areas));
            }
            7 | 8 => {
                let bytes = left.take(IMAGE_RECORDS * RECORD).ok_or("an image is cut off")?;
                let (image, bytes) = (areas.0[IMAGE].bytes(), &bytes[..IMAGE_BUFFER]);
                if record[0] == 8 {
                    score.count(number, if image == bytes { Ok(()) } else { Err("the image is another") });
                }
                image.copy_from_slice(bytes);
                number += IMAGE_RECORDS;
            }
            9 => {
                let [place, byte, ..] = numbers(record);
                *areas.0[IMAGE].bytes().get_mut(place as usize).ok_or("a byte past the image is to be changed")? = byte as u8;
            }
            _ => return Err("a record is of no known kind"),
        }
        number += 1;
    }
    if calls == told(12) { Ok(()) } else { Err("the header tells of another number of calls") }
}

/// The areas as whoever replays the file has them at the start.
fn lay_out(areas: &mut Areas) {
    for (name, length) in
        [(IMAGE, IMAGE_BUFFER), (IMAGE_TWIN, IMAGE_BUFFER), (ANSWER, ANSWER_AREA), (ANSWER_TWIN, ANSWER_AREA), (EVENTS, EVENT_BUFFER)]
    {
        areas.0[name].length = length;
        areas.0[name].bytes().fill(0);
        areas.0[name].put_edges();
    }
}

fn numbers(record: &[u8; RECORD]) -> [u64; 5] {
    core::array::from_fn(|k| Bytes(&record[16 + 8 * k..]).number(8).unwrap_or(0))
}

fn checksum(bytes: &[u8]) -> u64 {
    bytes.iter().fold(0, |h, &b| (257 * h + u64::from(b) + 1) % 4_294_967_291)
}

/// Makes a call and holds all that it left against the record. A read or a write is made a second time by the table, on areas that held the same.
fn held(record: &[u8; RECORD], areas: &mut Areas) -> Result<(), &'static str> {
    areas.0[ANSWER].bytes().fill(ANSWER_FILL);
    areas.0[EVENTS].bytes().fill(EVENT_FILL);
    let twin = matches!(record[0], 2 | 3);
    if twin {
        let [image, _, answer, answer_twin, _, image_twin, ..] = &mut areas.0;
        image_twin.bytes().copy_from_slice(image.bytes());
        answer_twin.bytes().copy_from_slice(answer.bytes());
    }
    let number = make(record, &mut areas.0)?;
    let sum = |at: usize| Bytes(&record[at..]).number(4).unwrap_or(0);
    if number != record[1] {
        return Err("another number is handed back");
    }
    if areas.0[ANSWER].bytes() != wanted_answer(record) {
        return Err("the answer area is another");
    }
    if checksum(areas.0[IMAGE].bytes()) != sum(4) {
        return Err("the image's checksum is another");
    }
    if record[0] == 6 && checksum(areas.0[EVENTS].bytes()) != sum(56) {
        return Err("the event buffer's checksum is another");
    }
    if ![IMAGE, ANSWER, EVENTS].iter().all(|&name| areas.0[name].edges_stand()) {
        return Err("a byte beside an area was written");
    }
    if twin {
        return by_table(record, &mut areas.0);
    }
    Ok(())
}

/// What the answer area has to hold.
fn wanted_answer(record: &[u8; RECORD]) -> [u8; ANSWER_AREA] {
    let mut wanted = [ANSWER_FILL; ANSWER_AREA];
    if record[1] != 7 {
        wanted[..8].copy_from_slice(&[record[1], record[2], 0, 0, 0, 0, 0, 0]);
        wanted[8..16].copy_from_slice(&record[8..16]);
    }
    wanted
}

/// How many bytes of image and answer area are lent.
fn lengths(record: &[u8; RECORD]) -> Result<(usize, usize), &'static str> {
    let (image, answer) = (usize::from(u16::from_le_bytes([record[60], record[61]])), usize::from(record[3]));
    if image <= IMAGE_BUFFER && answer <= ANSWER_AREA { Ok((image, answer)) } else { Err("more is lent than there is") }
}

fn make(record: &[u8; RECORD], areas: &mut [Area]) -> Result<u8, &'static str> {
    let [one, two, three, four, five] = numbers(record);
    let (image, answer) = lengths(record)?;
    let ((i, il), (a, al)) = (areas[IMAGE].lent_first(image), areas[ANSWER].lent_first(answer));
    if record[0] == 6 && two > EVENT_BUFFER as u64 {
        return Err("more is lent than there is");
    }
    let (e, el) = areas[EVENTS].lent_first(two as usize);
    // SAFETY: each pointer is that of an area of its own, with at least as many bytes.
    Ok(unsafe {
        match record[0] {
            1 => pch_pic_reset(i, il, a, al),
            2 => pch_pic_read(i, il, one, two, three, four, a, al),
            3 => pch_pic_write(i, il, one, two, three, four, five, a, al),
            4 => pch_pic_level(i, il, one, two, a, al),
            5 => pch_pic_poll(i, il, one, a, al),
            _ => pch_pic_drain(i, il, e, el, usize::try_from(one).unwrap_or(usize::MAX), a, al),
        }
    })
}

/// The same read or write by the table leaves the same.
fn by_table(record: &[u8; RECORD], areas: &mut [Area]) -> Result<(), &'static str> {
    let [one, two, three, four, five] = numbers(record);
    let (image, answer) = lengths(record)?;
    let ((i, il), (a, al)) = (areas[IMAGE_TWIN].lent_first(image), areas[ANSWER_TWIN].lent_first(answer));
    // SAFETY: as above.
    let number = unsafe {
        match record[0] {
            2 => pch_pic_table_read(i, il, one, two, three, four, a, al),
            _ => pch_pic_table_write(i, il, one, two, three, four, five, a, al),
        }
    };
    let [image, _, answer, answer_twin, _, image_twin, ..] = areas else { return Err("there are too few areas") };
    let same = image.bytes() == image_twin.bytes() && answer.bytes() == answer_twin.bytes();
    if number == record[1] && same && image_twin.edges_stand() && answer_twin.edges_stand() {
        Ok(())
    } else {
        Err("by the table it is another")
    }
}
