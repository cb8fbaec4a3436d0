//! The files of recorded cases: calls of the fronts with all bytes that they are lent, and what the harness expects of them, over the published Rust where that has a part in it.
//!
//! Every number has its little end first. A file begins with the letters PCHPICC1, the number of cases in 4 bytes, and 4 zero bytes. Then come the cases:
//!
//!   0       the front: 1 a plain call, 2 convert, 3 difference, 4 play, 5 salvage, 6 a call with a board, 7 an event that a board hears, 8 a call of the
//!           hoist profile, 9 its end of start-up, 10 sheet, 11 waiting, 12 play on from an image, 13 to 15 a tally's begin, add and sheet
//!   1       of 1, 6 and 8 the call: 1 reset, 2 read, 3 write, 4 level, 5 poll, 6 drain; 0 of all others
//!   2       the number handed back
//!   3       1 where an empty area is lent as a null pointer, else 0
//!   4..     the call's numbers in the order of the C prototype, 8 bytes each
//!   then    each area as it is before the call, and then each as it is after it, in the order of `Front::areas` (case.rs)
//!
//! A difference has one area, two bytes into which what it hands back is put; its number handed back is 0. An area is told by how it differs from bytes that are
//! known already:
//!
//!   0       0: from the byte at 1, over and over. 1: from what stood there; before the call that is what the last case that had an area of this name left in it, after the
//!           call what it held before; cut to its length, or filled up with the byte at 1
//!   1       that byte
//!   2..6    the length
//!   6..8    how many runs there are
//!   8..     the runs: how many bytes from the end of the last run, or from the start, are as they were (2 bytes), how many are others (2 bytes), and these

use crate::call::{Call, From};
use crate::case::{Case, Front, Made};
use crate::lent::Block;
use std::collections::HashMap;

pub const MAGIC: &[u8; 8] = b"PCHPICC1";
pub const HEADER: usize = 16;
/// No area is longer: the events of 4,000 drains take 256,000 bytes.
const LONGEST: usize = 1 << 18;

const BYTE: u8 = 0;
const STOOD: u8 = 1;

/// The front, its call, and the numbers.
fn coded(front: &Front) -> (u8, u8, Vec<u64>) {
    let of = |front: u8, call: &Call| {
        let (kind, numbers) = call.coded();
        (front, kind, numbers)
    };
    match front {
        Front::Plain(call) => of(1, call),
        Front::Convert => (2, 0, vec![]),
        &Front::Difference { later, earlier } => (3, 0, vec![later.into(), earlier.into()]),
        Front::Play(From::Reset) => (4, 0, vec![]),
        Front::Salvage => (5, 0, vec![]),
        Front::Board(call) => of(6, call),
        &Front::Event { vector, flag } => (7, 0, vec![vector.into(), flag.into()]),
        Front::Hoist(call) => of(8, call),
        Front::EndStartup => (9, 0, vec![]),
        Front::Sheet => (10, 0, vec![]),
        Front::Waiting => (11, 0, vec![]),
        Front::Play(From::Image) => (12, 0, vec![]),
        Front::TallyBegin => (13, 0, vec![]),
        Front::TallyAdd => (14, 0, vec![]),
        Front::TallySheet => (15, 0, vec![]),
    }
}

fn decoded(front: u8, call: u8, bytes: &mut Bytes) -> Option<Front> {
    let count = match front {
        1 | 6 | 8 => *Call::NUMBERS.get(usize::from(call))?,
        3 | 7 => 2,
        _ => 0,
    };
    let numbers = (0..count).map(|_| bytes.number(8)).collect::<Option<Vec<u64>>>()?;
    Some(match (front, call) {
        (1, _) => Front::Plain(Call::decoded(call, &numbers)?),
        (2, 0) => Front::Convert,
        (3, 0) => Front::Difference { later: numbers[0].try_into().ok()?, earlier: numbers[1].try_into().ok()? },
        (4, 0) => Front::Play(From::Reset),
        (5, 0) => Front::Salvage,
        (6, _) => Front::Board(Call::decoded(call, &numbers)?),
        (7, 0) => Front::Event { vector: numbers[0].try_into().ok()?, flag: numbers[1].try_into().ok()? },
        (8, 1..=3) => Front::Hoist(Call::decoded(call, &numbers)?),
        (9, 0) => Front::EndStartup,
        (10, 0) => Front::Sheet,
        (11, 0) => Front::Waiting,
        (12, 0) => Front::Play(From::Image),
        (13, 0) => Front::TallyBegin,
        (14, 0) => Front::TallyAdd,
        (15, 0) => Front::TallySheet,
        _ => return None,
    })
}

/// What the last case left in the areas of each name.
type Stood = HashMap<&'static str, Vec<u8>>;

fn stood<'a>(all: &'a Stood, name: &str) -> &'a [u8] {
    all.get(name).map_or(&[], |bytes| bytes)
}

/// Bytes told by their runs against others.
fn by_runs(from: u8, byte: u8, others: &[u8], bytes: &[u8]) -> Vec<u8> {
    const MOST: usize = u16::MAX as usize;
    let (mut runs, mut count, mut end, mut at) = (Vec::new(), 0_u16, 0, 0);
    let differs = |at: usize| bytes[at] != others.get(at).copied().unwrap_or(byte);
    while let Some(first) = (at..bytes.len()).find(|&at| differs(at)) {
        // a run goes on over bytes that are as they were where a new one would take as much
        let near = |last: usize| (last + 1..bytes.len().min(last + 6)).find(|&at| differs(at));
        let mut last = first;
        while let Some(next) = near(last).filter(|&next| next - first < MOST) {
            last = next;
        }
        at = last + 1;
        // a gap that two bytes do not hold begins with empty runs
        while first - end > MOST {
            runs.extend([0xff, 0xff, 0, 0]);
            (count, end) = (count + 1, end + MOST);
        }
        runs.extend(((first - end) as u16).to_le_bytes());
        runs.extend(((at - first) as u16).to_le_bytes());
        runs.extend(&bytes[first..at]);
        (count, end) = (count + 1, at);
    }
    let mut area = vec![from, byte];
    area.extend((bytes.len() as u32).to_le_bytes());
    area.extend(count.to_le_bytes());
    area.extend(runs);
    area
}

/// An area in the shortest way, against what stood there or one byte.
fn area(stood: &[u8], bytes: &[u8]) -> Vec<u8> {
    let most_often = (0..=u8::MAX).max_by_key(|byte| bytes.iter().filter(|other| *other == byte).count()).unwrap_or(0);
    let last = bytes.last().copied().unwrap_or(0);
    let ways = [(STOOD, 0, stood), (STOOD, last, stood), (BYTE, 0, &[]), (BYTE, most_often, &[])];
    ways.map(|(from, byte, others)| by_runs(from, byte, others, bytes)).into_iter().min_by_key(Vec::len).expect("there are four ways")
}

/// A file that is being made.
pub struct Writer {
    file: Vec<u8>,
    stood: Stood,
    cases: u32,
}

impl Writer {
    pub fn new() -> Self {
        Writer { file: vec![0; HEADER], stood: Stood::new(), cases: 0 }
    }

    pub fn add(&mut self, made: &Made) {
        let Made { case, number, left } = made;
        let (start, before) = (self.file.len(), self.stood.clone());
        let (front, call, numbers) = coded(&case.front);
        self.file.extend([front, call, *number, case.null as u8]);
        self.file.extend(numbers.into_iter().flat_map(u64::to_le_bytes));
        let names = case.front.areas();
        for (name, bytes) in names.iter().zip(&case.areas) {
            self.file.extend(area(stood(&self.stood, name), bytes));
        }
        for (name, (bytes, held)) in names.iter().zip(left.iter().zip(&case.areas)) {
            self.file.extend(area(held, bytes));
            self.stood.insert(name, bytes.clone());
        }
        self.cases += 1;
        let mut reader = Reader { bytes: Bytes(&self.file[start..]), stood: before };
        assert!(reader.case().as_ref() == Some(made) && reader.is_over(), "a case reads back as it was written");
    }

    pub fn finish(mut self) -> Vec<u8> {
        self.file[..8].copy_from_slice(MAGIC);
        self.file[8..12].copy_from_slice(&self.cases.to_le_bytes());
        self.file
    }
}

/// What is still to be read.
struct Bytes<'a>(&'a [u8]);

impl<'a> Bytes<'a> {
    fn take(&mut self, count: usize) -> Option<&'a [u8]> {
        let (first, rest) = self.0.split_at_checked(count)?;
        self.0 = rest;
        Some(first)
    }

    fn number(&mut self, bytes: usize) -> Option<u64> {
        Some(self.take(bytes)?.iter().rev().fold(0, |number, &byte| number << 8 | u64::from(byte)))
    }

    fn area(&mut self, stood: &[u8]) -> Option<Vec<u8>> {
        let (from, byte) = (self.number(1)? as u8, self.number(1)? as u8);
        let length = Some(self.number(4)? as usize).filter(|&length| length <= LONGEST)?;
        let runs = self.number(2)?;
        let mut bytes = match from {
            BYTE => Vec::new(),
            STOOD => stood[..stood.len().min(length)].to_vec(),
            _ => return None,
        };
        bytes.resize(length, byte);
        let mut at = 0;
        for _ in 0..runs {
            at += self.number(2)? as usize;
            let run = self.number(2)? as usize;
            bytes.get_mut(at..at + run)?.copy_from_slice(self.take(run)?);
            at += run;
        }
        Some(bytes)
    }
}

/// What differs from what was recorded.
pub fn holds(made: &Made, number: u8, lent: &[Block]) -> Result<(), String> {
    if number != made.number {
        return Err(format!("number {number}, recorded {}", made.number));
    }
    for (name, (block, left)) in made.case.front.areas().iter().zip(lent.iter().zip(&made.left)) {
        if let Some((at, got, recorded)) = block.difference(&Block::of(left, false)) {
            return Err(format!("{name} byte {at}: {got:02x}, recorded {recorded:02x}"));
        }
        if block.bytes().len() != left.len() {
            return Err(format!("the {name} is recorded with another length"));
        }
    }
    Ok(())
}

/// Reads the cases of a file.
pub struct Reader<'a> {
    bytes: Bytes<'a>,
    stood: Stood,
}

impl<'a> Reader<'a> {
    /// And how many there are to be.
    pub fn new(file: &'a [u8]) -> (Self, u64) {
        let told = u32::from_le_bytes(file[8..12].try_into().expect("four bytes"));
        (Reader { bytes: Bytes(&file[HEADER..]), stood: Stood::new() }, told.into())
    }

    pub fn is_over(&self) -> bool {
        self.bytes.0.is_empty()
    }

    /// The next case; none where the bytes are cut off or are no case's.
    pub fn case(&mut self) -> Option<Made> {
        let Reader { bytes, stood: all } = self;
        let &[front, call, number, null @ (0 | 1)] = bytes.take(4)? else { return None };
        let front = decoded(front, call, bytes)?;
        let names = front.areas();
        let mut areas = Vec::new();
        for name in names {
            areas.push(bytes.area(stood(all, name))?);
        }
        let mut left = Vec::new();
        for held in &areas {
            left.push(bytes.area(held)?);
        }
        for (name, left) in names.iter().zip(&left) {
            all.insert(name, left.clone());
        }
        Some(Made { case: Case { front, areas, null: null == 1 }, number, left })
    }
}
