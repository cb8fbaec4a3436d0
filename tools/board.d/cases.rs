//! The files of recorded cases, tests/recorded; their form is told at the top of tools/harness/case_records.rs.

use crate::Score;
use crate::areas::{
    ANSWER, ANSWERS, Area, Areas, BOARD, DIFFERENCE, EVENTS, IMAGE, KEPT, LIST, LONGEST, PHASE, SHEET, TALLY, TARGET, TRACE,
};
use crate::bytes::Bytes;
use crate::library::*;

pub const MAGIC: &[u8; 8] = b"PCHPICC1";
const HEADER: usize = 16;
/// A case that is cut off, or whose bytes say what none can.
const BAD: &str = "a case is cut off, or is none";

/// Replays all cases; what is wrong with the file, where something is.
pub fn replay(file: &[u8], areas: &mut Areas, score: &mut Score) -> Result<(), &'static str> {
    let mut bytes = Bytes(file);
    let header = bytes.take(HEADER).ok_or(BAD)?;
    let told = Bytes(&header[8..]).number(4).ok_or(BAD)?;
    let mut number = 0;
    while !bytes.0.is_empty() {
        let case = Case::read(&mut bytes, areas).ok_or(BAD)?;
        let handed_back = case.make(areas).ok_or(BAD)?;
        score.count(number, case.holds(handed_back, areas));
        number += 1;
    }
    if told == number as u64 { Ok(()) } else { Err("the header tells of another number of cases") }
}

/// A call of a front. Its bytes stand in the areas of its names.
struct Case {
    front: u8,
    call: u8,
    numbers: [u64; 5],
    wanted: u8,
}

/// The areas that a front is lent, in the order of the file.
fn names(front: u8) -> Option<&'static [usize]> {
    Some(match front {
        1 => &[IMAGE, EVENTS, ANSWER],
        2 => &[IMAGE, TARGET, ANSWER],
        3 => &[DIFFERENCE],
        4 => &[TRACE, IMAGE, ANSWERS, EVENTS, ANSWER],
        5 => &[TRACE, KEPT, LIST, ANSWER],
        6 => &[IMAGE, EVENTS, ANSWER, BOARD],
        7 => &[BOARD, ANSWER],
        8 | 9 => &[IMAGE, PHASE, ANSWER],
        10 => &[TRACE, SHEET, ANSWER],
        11 => &[IMAGE, ANSWER],
        12 => &[TRACE, IMAGE, ANSWERS, EVENTS, ANSWER],
        13 => &[TALLY, ANSWER],
        14 => &[TRACE, IMAGE, TALLY, ANSWER],
        15 => &[TALLY, SHEET, ANSWER],
        _ => return None,
    })
}

/// How many numbers a call of each kind has; there is no kind 0.
const NUMBERS: [usize; 7] = [0, 0, 4, 5, 2, 1, 1];

impl Case {
    /// The next case, its bytes put into the areas.
    fn read(bytes: &mut Bytes, areas: &mut Areas) -> Option<Case> {
        let &[front, call, wanted, null @ (0 | 1)] = bytes.take(4)? else { return None };
        let count = match front {
            1 | 6 | 8 => *NUMBERS.get(usize::from(call))?,
            3 | 7 => 2,
            _ => 0,
        };
        let mut numbers = [0; 5];
        for number in &mut numbers[..count] {
            *number = bytes.number(8)?;
        }
        for &name in names(front)? {
            before(bytes, &mut areas.0[name])?;
            areas.0[name].null = null == 1;
        }
        for &name in names(front)? {
            after(bytes, &mut areas.0[name])?;
        }
        Some(Case { front, call, numbers, wanted })
    }

    /// Makes the call; the number that is handed back.
    fn make(&self, areas: &mut Areas) -> Option<u8> {
        Some(match self.front {
            1 => plain(self, areas)?,
            2 => {
                let [(i, il), (t, tl), (a, al)] = areas.lent([IMAGE, TARGET, ANSWER]);
                // SAFETY, here and below: each pointer is that of an area of its own with as many bytes; an empty one may be null, as the header says.
                unsafe { pch_pic_convert(i, il, t, tl, a, al) }
            }
            3 => {
                let [later, earlier] = [self.numbers[0].try_into().ok()?, self.numbers[1].try_into().ok()?];
                // SAFETY: it is lent nothing.
                let difference = unsafe { pch_pic_difference(later, earlier) };
                areas.0[DIFFERENCE].bytes().copy_from_slice(&difference.to_le_bytes());
                0
            }
            4 => {
                let [(t, tl), (i, il), (s, sl), (e, el), (a, al)] = areas.lent([TRACE, IMAGE, ANSWERS, EVENTS, ANSWER]);
                unsafe { pch_pic_play(t, tl, i, il, s, sl, e, el, a, al) }
            }
            5 => {
                let [(t, tl), (k, kl), (l, ll), (a, al)] = areas.lent([TRACE, KEPT, LIST, ANSWER]);
                unsafe { pch_pic_salvage(t, tl, k, kl, l, ll, a, al) }
            }
            6 | 7 => with_board(self, areas)?,
            8 | 9 => under_profile(self, areas)?,
            12 => {
                let [(t, tl), (i, il), (s, sl), (e, el), (a, al)] = areas.lent([TRACE, IMAGE, ANSWERS, EVENTS, ANSWER]);
                unsafe { pch_pic_play_on(t, tl, i, il, s, sl, e, el, a, al) }
            }
            10 => {
                let [(t, tl), (s, sl), (a, al)] = areas.lent([TRACE, SHEET, ANSWER]);
                unsafe { pch_pic_sheet(t, tl, s, sl, a, al) }
            }
            11 => {
                let [(i, il), (a, al)] = areas.lent([IMAGE, ANSWER]);
                unsafe { pch_pic_waiting(i, il, a, al) }
            }
            13 => {
                let [(t, tl), (a, al)] = areas.lent([TALLY, ANSWER]);
                unsafe { pch_pic_tally_begin(t, tl, a, al) }
            }
            14 => {
                let [(r, rl), (i, il), (t, tl), (a, al)] = areas.lent([TRACE, IMAGE, TALLY, ANSWER]);
                unsafe { pch_pic_tally_add(r, rl, i, il, t, tl, a, al) }
            }
            _ => {
                let [(t, tl), (s, sl), (a, al)] = areas.lent([TALLY, SHEET, ANSWER]);
                unsafe { pch_pic_tally_sheet(t, tl, s, sl, a, al) }
            }
        })
    }

    /// What differs from what was recorded.
    fn holds(&self, handed_back: u8, areas: &mut Areas) -> Result<(), &'static str> {
        if handed_back != self.wanted {
            return Err("another number is handed back");
        }
        let as_wanted = names(self.front).unwrap_or(&[]).iter().all(|&name| areas.0[name].is_as_wanted());
        if as_wanted { Ok(()) } else { Err("an area, or an edge beside one, is another") }
    }
}

/// The bytes of an area before the call: told from what the last case of its name left, or from one byte.
fn before(bytes: &mut Bytes, area: &mut Area) -> Option<()> {
    let stood = area.wanted_length;
    let (all, wanted) = area.both();
    area.length = told(bytes, &wanted[..stood], all)?;
    area.put_edges();
    Some(())
}

/// And those after it: told from what it held before, or from one byte.
fn after(bytes: &mut Bytes, area: &mut Area) -> Option<()> {
    let held = area.length;
    let (all, wanted) = area.both();
    area.wanted_length = told(bytes, &all[..held], wanted)?;
    Some(())
}

/// Bytes told by their runs; how many they are.
fn told(bytes: &mut Bytes, stood: &[u8], into: &mut [u8]) -> Option<usize> {
    let (from, byte) = (bytes.number(1)?, bytes.number(1)? as u8);
    let length = bytes.number(4)? as usize;
    let runs = bytes.number(2)?;
    let into = into.get_mut(..length.min(LONGEST + 1))?;
    let known = match from {
        0 => 0,
        1 => stood.len().min(length),
        _ => return None,
    };
    into[..known].copy_from_slice(&stood[..known]);
    into[known..].fill(byte);
    let mut at = 0;
    for _ in 0..runs {
        at += bytes.number(2)? as usize;
        let run = bytes.number(2)? as usize;
        into.get_mut(at..at + run)?.copy_from_slice(bytes.take(run)?);
        at += run;
    }
    Some(length)
}

/// A place in the room for events. What is no usize on this machine is a place that no room has.
fn place(number: u64) -> usize {
    usize::try_from(number).unwrap_or(usize::MAX)
}

fn plain(case: &Case, areas: &mut Areas) -> Option<u8> {
    let [(i, il), (e, el), (a, al)] = areas.lent([IMAGE, EVENTS, ANSWER]);
    let [one, two, three, four, five] = case.numbers;
    // SAFETY: as above.
    Some(unsafe {
        match case.call {
            1 => pch_pic_reset(i, il, a, al),
            2 => pch_pic_read(i, il, one, two, three, four, a, al),
            3 => pch_pic_write(i, il, one, two, three, four, five, a, al),
            4 => pch_pic_level(i, il, one, two, a, al),
            5 => pch_pic_poll(i, il, one, a, al),
            6 => pch_pic_drain(i, il, e, el, place(one), a, al),
            _ => return None,
        }
    })
}

fn with_board(case: &Case, areas: &mut Areas) -> Option<u8> {
    let [(i, il), (e, el), (a, al), (b, bl)] = areas.lent([IMAGE, EVENTS, ANSWER, BOARD]);
    let [one, two, three, four, five] = case.numbers;
    // SAFETY: as above.
    Some(unsafe {
        match (case.front, case.call) {
            (7, 0) => pch_pic_board_event(b, bl, one.try_into().ok()?, two.try_into().ok()?, a, al),
            (6, 1) => pch_pic_board_reset(i, il, b, bl, a, al),
            (6, 2) => pch_pic_board_read(i, il, b, bl, one, two, three, four, a, al),
            (6, 3) => pch_pic_board_write(i, il, b, bl, one, two, three, four, five, a, al),
            (6, 4) => pch_pic_board_level(i, il, b, bl, one, two, a, al),
            (6, 5) => pch_pic_board_poll(i, il, b, bl, one, a, al),
            (6, 6) => pch_pic_board_drain(i, il, b, bl, e, el, place(one), a, al),
            _ => return None,
        }
    })
}

fn under_profile(case: &Case, areas: &mut Areas) -> Option<u8> {
    let [(i, il), (p, pl), (a, al)] = areas.lent([IMAGE, PHASE, ANSWER]);
    let [one, two, three, four, five] = case.numbers;
    // SAFETY: as above.
    Some(unsafe {
        match (case.front, case.call) {
            (9, 0) => pch_pic_hoist_end_startup(i, il, p, pl, a, al),
            (8, 1) => pch_pic_hoist_reset(i, il, p, pl, a, al),
            (8, 2) => pch_pic_hoist_read(i, il, one, two, three, four, a, al),
            (8, 3) => pch_pic_hoist_write(i, il, p, pl, one, two, three, four, five, a, al),
            _ => return None,
        }
    })
}
