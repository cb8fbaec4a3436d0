//! Traces that are played in one call (02, C-11), and the same calls made one by one; and traces that are salvaged (02, C-23) or summed up in a sheet (02,
//! C-21), or added to a tally. They are of the mixed day: of 4,000 records its beginning; of 100 what comes behind the vector and route bytes of its start-up; of one a raise.

use crate::call::Call;
use crate::chance::Chance;
use crate::day::{self, DAYS};
use crate::kinds::{BASE, LENGTHS, NUMBERED, Prepared, SIZE};

/// The window that a trace is played with.
const WINDOW: u64 = 0x1_0000;
/// The most blocks of a trace, the most records, and so many that those fit.
const BLOCKS: usize = 64;
pub const RECORDS: usize = 4000;
/// The bytes of a sheet, of a tally, and of the sheet of one.
pub const SHEET: usize = 2600;
pub const TALLY: usize = 5200;
const IN_BLOCK: usize = RECORDS.div_ceil(BLOCKS);

/// What is done with a trace.
#[derive(Clone, Copy, PartialEq, Eq)]
pub enum Way {
    Played,
    PlayedOn,
    OneByOne,
    Salvaged,
    Summed,
    /// Added to a tally; and the sheet of one.
    Added,
    Totalled,
}

pub struct Play {
    pub name: String,
    pub title: String,
    pub trace: Vec<u8>,
    /// The call of each record.
    pub calls: Vec<Call>,
    pub image_len: usize,
    pub way: Way,
}

/// What is lent to a play, a salvage or a sheet, beside the trace.
#[derive(Clone, PartialEq, Eq)]
pub struct Lent {
    pub image: Vec<u8>,
    pub answers: Vec<u8>,
    pub events: Vec<u8>,
    /// The new trace of a salvage, and its list.
    pub kept: Vec<u8>,
    pub list: Vec<u8>,
    pub sheet: Vec<u8>,
    pub tally: Vec<u8>,
    pub answer: Vec<u8>,
}

impl Lent {
    /// Room for so many records and drains, and an image of so many bytes.
    pub fn new(image_len: usize, records: usize, drains: usize) -> Self {
        Lent {
            image: vec![0xcc; image_len],
            answers: vec![0xee; 16 * records],
            events: vec![0xdd; 64 * drains],
            kept: Vec::new(),
            list: Vec::new(),
            sheet: Vec::new(),
            tally: Vec::new(),
            answer: vec![0xee; 16],
        }
    }

    /// So many bytes for the new trace and for the list.
    pub fn for_salvage(kept: usize, list: usize) -> Self {
        Lent { kept: vec![0xbb; kept], list: vec![0xaa; list], ..Lent::new(0, 0, 0) }
    }

    /// So many bytes for the sheet.
    pub fn for_sheet(length: usize) -> Self {
        Lent { sheet: vec![0x99; length], ..Lent::new(0, 0, 0) }
    }

    /// A tally of these bytes, a sheet for it, and an image.
    pub fn for_tally(tally: Vec<u8>, sheet: usize, image: &[u8]) -> Self {
        Lent { tally, sheet: vec![0x99; sheet], image: image.to_vec(), ..Lent::new(0, 0, 0) }
    }

    pub fn of(play: &Play) -> Self {
        match play.way {
            Way::Added | Way::Totalled => Lent::for_tally(vec![0; TALLY], TALLY, &Prepared::new().mask(!0).0),
            Way::Salvaged => Lent::for_salvage(play.trace.len(), 4 * BLOCKS),
            Way::Summed => Lent::for_sheet(SHEET),
            Way::Played | Way::OneByOne => Lent::new(play.image_len, play.calls.len(), drains(&play.calls)),
            Way::PlayedOn => {
                let mut lent = Lent::new(play.image_len, play.calls.len(), drains(&play.calls));
                plain::reset(&mut lent.image, &mut [0; 16]);
                lent
            }
        }
    }
}

pub fn drains(calls: &[Call]) -> usize {
    calls.iter().filter(|call| matches!(call, Call::Drain { .. })).count()
}

/// The call of the day as one of a trace; what is outside there is outside here.
fn moved(call: &Call) -> Call {
    let at = |address: u64| if address < BASE + SIZE { address - BASE } else { WINDOW - 1 };
    match *call {
        Call::Read { address, width, .. } => Call::Read { base: 0, size: WINDOW, address: at(address), width },
        Call::Write { address, width, value, .. } => Call::Write { base: 0, size: WINDOW, address: at(address), width, value },
        other => other,
    }
}

pub fn record(call: &Call) -> [u8; 16] {
    let (kind, byte, offset, value) = match *call {
        Call::Level { input, level: 1.. } => (1, input, 0, 0),
        Call::Level { input, .. } => (2, input, 0, 0),
        Call::Poll { input } => (3, input, 0, 0),
        Call::Read { address, width, .. } => (4, width, address, 0),
        Call::Write { address, width, value, .. } => (5, width, address, value),
        _ => (6, 0, 0, 0),
    };
    let head = kind | byte << 8 | offset << 16;
    let mut record = [0; 16];
    record[..8].copy_from_slice(&head.to_le_bytes());
    record[8..].copy_from_slice(&value.to_le_bytes());
    record
}

/// The trace of these calls, in blocks of so many records; the last may have fewer.
pub fn trace(calls: &[Call], in_block: usize) -> Vec<u8> {
    let blocks = calls.chunks(in_block);
    let (count, mut from) = (blocks.len() as u16, 2 + 4 * blocks.len());
    let mut trace = count.to_le_bytes().to_vec();
    for block in blocks {
        trace.extend((from as u16).to_le_bytes());
        trace.extend((block.len() as u16).to_le_bytes());
        from += 16 * block.len();
    }
    trace.extend(calls.iter().flat_map(record));
    trace
}

pub fn all() -> Vec<Play> {
    let day: Vec<Call> = day::calls(RECORDS + 1)[1..].iter().map(moved).collect();
    let raise = [Call::Level { input: 2, level: 1 }];
    let of = |name: &str, title: &str, calls: &[Call], image_len: usize, way: Way| {
        let (before, titled) = if image_len == NUMBERED { ("numbers-", "numbers: ") } else { ("", "") };
        Play {
            name: format!("{before}{name}"),
            title: format!("{titled}{title}"),
            trace: trace(calls, IN_BLOCK),
            calls: calls.to_vec(),
            image_len,
            way,
        }
    };
    let plays = |image_len| {
        [
            of("play-1", "play of 1", &raise, image_len, Way::Played),
            of("play-100", "play of 100, each record", &day[128..228], image_len, Way::Played),
            of("play-4000", "play of 4,000, each record", &day[..RECORDS], image_len, Way::Played),
            of("play-on-4000", "play on of 4,000, each record", &day[..RECORDS], image_len, Way::PlayedOn),
            of("calls-4000", "those 4,000 one by one, each", &day[..RECORDS], image_len, Way::OneByOne),
        ]
    };
    let sheets = [
        of("sheet-1", "sheet of 1", &raise, 0, Way::Summed),
        of("sheet-100", "sheet of 100, each record", &day[128..228], 0, Way::Summed),
        of("sheet-4000", "sheet of 4,000, each record", &day[..RECORDS], 0, Way::Summed),
    ];
    let tallies = [
        of("tally-add-1", "tally add of 1", &raise, 0, Way::Added),
        of("tally-add-4000", "tally add of 4,000, each record", &day[..RECORDS], 0, Way::Added),
        of("tally-sheet", "tally sheet", &raise, 0, Way::Totalled),
    ];
    let salvage = |name: &str, title: &str, calls: &[Call]| of(name, title, calls, 0, Way::Salvaged);
    let half_torn = |play: Play| Play { trace: torn(&play.trace), ..play };
    let salvages = [
        salvage("salvage-1", "salvage of 1", &raise),
        salvage("salvage-100", "salvage of 100, each record", &day[128..228]),
        salvage("salvage-4000", "salvage of 4,000, each record", &day[..RECORDS]),
        half_torn(salvage("salvage-100-torn", "salvage of 100, half torn, each record", &day[128..228])),
        half_torn(salvage("salvage-4000-torn", "salvage of 4,000, half torn, each record", &day[..RECORDS])),
    ];
    DAYS.into_iter().flat_map(plays).chain(salvages).chain(sheets).chain(tallies).collect()
}

/// Where each block of a trace stands, and how many records it has.
pub fn blocks(trace: &[u8]) -> Vec<(usize, usize)> {
    let number = |at: usize| usize::from(u16::from_le_bytes([trace[at], trace[at + 1]]));
    (0..number(0)).map(|block| (number(2 + 4 * block), number(4 + 4 * block))).collect()
}

/// The trace with every other block torn, from the second on: zeros from its middle to its end.
fn torn(trace: &[u8]) -> Vec<u8> {
    let mut torn = trace.to_vec();
    for (from, records) in blocks(trace).into_iter().skip(1).step_by(2) {
        torn[from + 16 * (records / 2)..from + 16 * records].fill(0);
    }
    torn
}

/// A random trace with some records damaged, and sometimes its contents or its length.
pub fn random_damaged(chance: &mut Chance) -> Vec<u8> {
    let (mut trace, ..) = random(chance);
    for _ in 0..chance.one_of(&[0, 1, 1, 2, 5, 40]) {
        let (from, records) = chance.one_of(&blocks(&trace));
        let at = from + 16 * chance.below(records as u64) as usize;
        match chance.below(3) {
            0 => trace[at..from + 16 * records].fill(0),
            1 => trace[at..at + 16].fill(0),
            _ => trace[at + chance.below(16) as usize] ^= 1 << chance.below(8),
        }
    }
    match chance.below(20) {
        0 => trace.truncate(chance.below(trace.len() as u64) as usize),
        1 => {
            let at = chance.below((2 + 4 * blocks(&trace).len()) as u64) as usize;
            trace[at] ^= 1 << chance.below(8);
        }
        _ => {}
    }
    trace
}

/// A random call of a trace; in some the width or the input is none, or the access is outside.
fn random_call(chance: &mut Chance) -> Call {
    let (base, size) = (0, WINDOW);
    match crate::verify::random_call(chance) {
        Call::Read { address, width, .. } => Call::Read { base, size, address: address & 0xffff, width },
        Call::Write { address, width, value, .. } => Call::Write { base, size, address: address & 0xffff, width, value },
        Call::Level { input, level } => Call::Level { input: input & 0xff, level: u64::from(level != 0) },
        Call::Poll { input } => Call::Poll { input: input & 0xff },
        _ => Call::Drain { place: 0 },
    }
}

/// A random trace, its calls, and what is lent to play it.
pub fn random(chance: &mut Chance) -> (Vec<u8>, Vec<Call>, Lent) {
    let calls: Vec<Call> = (0..chance.between(1, 64)).map(|_| random_call(chance)).collect();
    let lent = Lent::new(chance.one_of(&LENGTHS), calls.len(), drains(&calls));
    (trace(&calls, chance.between(1, 64) as usize), calls, lent)
}
