//! What a damaged trace still has, and what it lacks.
//!
//! A hole is a stretch of the day that is lost. What comes before the first one is the day, exactly: [`lead`] keeps that. Behind it every call is played on the
//! state that the missing calls would have changed, so no number there is the day's: it may show asserts that never were, and none of those that were. [`whole`]
//! keeps those blocks too, as [`Trace::salvage`] does. A list of the holes goes with such a trace, in a file beside it of the same name and `.holes`.
//!
//! ```
//! use pch_pic::{holes, Record};
//!
//! // Three blocks of one record; the second was never written.
//! let contents = [3, 0, 14, 0, 1, 0, 30, 0, 1, 0, 46, 0, 1, 0];
//! let torn = [&contents[..], &Record::Raise(5).to_bytes(), &[0; 16], &Record::Drain.to_bytes()].concat();
//! let day = holes::lead(&torn, &[])?;
//! assert!(day.trace.records().eq([Record::Raise(5)]));
//! assert_eq!(day.holes[0].to_string(), "at record 1: records 1 to 2 of the day are missing (from record 0 of block 1 on)");
//! let blocks = holes::whole(&torn, &[])?;
//! assert!(blocks.trace.records().eq([Record::Raise(5), Record::Drain]));
//! assert_eq!(blocks.holes[0].to_string(), "at record 1: records 1 to 1 of the day are missing (block 1, whose record 0 is bad)");
//! # Ok::<(), pch_pic::Error>(())
//! ```

use crate::trace::{self, contents_len, contents_of};
use crate::{contents, replace, Dropped, Error, Trace, BLOCKS_MAX, RECORDS_MAX, RECORD_LEN, TRACE_MAX};
use core::fmt;
use std::fs;
use std::io;
use std::path::{Path, PathBuf};

/// One hole: where it stands in the trace that is left, and which records of the day are lost.
#[derive(Clone, Debug, PartialEq, Eq, Hash)]
pub struct Hole {
    /// It stands before this record. Where that is the number of records, it stands at the trace's end, and nothing comes behind it.
    pub at: usize,
    /// The first record of the day that is lost.
    pub first: usize,
    /// The last one.
    pub last: usize,
    /// In words, or empty.
    pub why: String,
}

impl Hole {
    /// Whether no more than that can be lost, and perhaps nothing is: the open block of a day that was not ended.
    pub fn at_most(&self) -> bool {
        self.why.starts_with("at most: ")
    }

    /// How many records are lost in it.
    pub fn lost(&self) -> usize {
        self.last - self.first + 1
    }

    /// A line of a list.
    fn from_line(line: &str) -> Option<Self> {
        let (at, rest) = line.strip_prefix("at record ")?.split_once(": records ")?;
        let (first, rest) = rest.split_once(" to ")?;
        let (last, rest) = rest.split_once(" of the day are missing")?;
        let why = rest.strip_prefix(" (").and_then(|rest| rest.strip_suffix(')')).unwrap_or("").to_string();
        let number = |text: &str| text.parse().ok().filter(|number| *number <= MOST);
        let hole = Hole { at: number(at)?, first: number(first)?, last: number(last)?, why };
        (hole.first <= hole.last && hole.to_string() == line).then_some(hole)
    }
}

/// More records than any day has.
const MOST: usize = 999_999_999;

impl fmt::Display for Hole {
    /// The line of a list.
    fn fmt(&self, f: &mut fmt::Formatter<'_>) -> fmt::Result {
        write!(f, "at record {}: records {} to {} of the day are missing", self.at, self.first, self.last)?;
        if self.why.is_empty() {
            return Ok(());
        }
        write!(f, " ({})", self.why)
    }
}

/// What is kept of a damaged trace.
#[derive(Clone, Debug, PartialEq, Eq)]
pub struct Kept {
    /// A good trace.
    pub trace: Trace,
    /// Its holes, in order.
    pub holes: Vec<Hole>,
    /// The blocks that [`whole`] dropped.
    pub dropped: Vec<Dropped>,
}

impl Kept {
    /// How many records the day had, the lost ones among them.
    pub fn of(&self) -> usize {
        self.trace.records().len() + lost(&self.holes)
    }

    /// Saves the trace to a file and the list of its holes beside it, each replaced whole or not at all. At no time does a trace with holes stand there without
    /// its list. Where there is no hole, a list that was there is taken away.
    ///
    /// # Errors
    ///
    /// [`HolesError::Io`]; [`HolesError::NoList`] where what is there is no list: then it stays, and nothing is saved.
    pub fn save(&self, path: impl AsRef<Path>) -> Result<(), HolesError> {
        let (path, list) = (path.as_ref(), beside(path.as_ref()));
        let old = text_of(&list)?;
        if self.holes.is_empty() {
            self.trace.save(path)?;
            return old.map_or(Ok(()), |_| Ok(fs::remove_file(&list)?));
        }
        // The list goes first: a trace that has holes never stands without one.
        replace::replace(&list, self.list().as_bytes())?;
        let saved = self.trace.save(path);
        if saved.is_err() {
            let _ = match old {
                Some(old) => replace::replace(&list, old.as_bytes()).map(drop),
                None => fs::remove_file(&list),
            };
        }
        Ok(saved?)
    }

    fn list(&self) -> String {
        let lines: String = self.holes.iter().map(|hole| format!("{hole}\n")).collect();
        format!("{HEAD}{OF_TRACE}{}\n{lines}", digest(self.trace.as_bytes()))
    }
}

const HEAD: &str = "Holes of a salvaged trace. Behind the first of them no number is the day's.\n";
const OF_TRACE: &str = "SHA-256 of the trace: ";

/// Why the holes of a trace are not known, or not saved.
#[derive(Debug)]
#[non_exhaustive]
pub enum HolesError {
    /// A file cannot be read or written.
    Io(io::Error),
    /// What is there is no list of holes.
    NoList,
    /// The list is of another trace.
    OtherTrace,
}

impl fmt::Display for HolesError {
    fn fmt(&self, f: &mut fmt::Formatter<'_>) -> fmt::Result {
        match self {
            HolesError::Io(why) => why.fmt(f),
            HolesError::NoList => f.write_str("it is no list of holes"),
            HolesError::OtherTrace => f.write_str("it is the list of another trace, so where this one has holes is not known"),
        }
    }
}

impl std::error::Error for HolesError {}

impl From<io::Error> for HolesError {
    fn from(why: io::Error) -> Self {
        HolesError::Io(why)
    }
}

/// The name of the list of a trace's holes.
pub fn beside(path: &Path) -> PathBuf {
    let mut name = path.as_os_str().to_owned();
    name.push(".holes");
    name.into()
}

/// The text of a list; none where there is no file.
fn text_of(list: &Path) -> Result<Option<String>, HolesError> {
    match fs::read(list) {
        Err(_) if !list.exists() => Ok(None),
        read => Ok(Some(in_words(&read?)?.into())),
    }
}

/// The bytes of a list as its text, which has to begin as one.
fn in_words(bytes: &[u8]) -> Result<&str, HolesError> {
    core::str::from_utf8(bytes).ok().filter(|text| text.starts_with(HEAD)).ok_or(HolesError::NoList)
}

/// The holes of the trace in a file, by the list beside it: none where there is no list.
///
/// # Errors
///
/// A [`HolesError`].
pub fn load(path: impl AsRef<Path>, trace: &[u8]) -> Result<Vec<Hole>, HolesError> {
    text_of(&beside(path.as_ref()))?.map_or(Ok(Vec::new()), |list| parse(list.as_bytes(), trace))
}

/// The holes of a trace, by the bytes of its list.
///
/// # Errors
///
/// [`HolesError::NoList`] or [`HolesError::OtherTrace`].
pub fn parse(list: &[u8], trace: &[u8]) -> Result<Vec<Hole>, HolesError> {
    let text = in_words(list)?;
    let second = text[HEAD.len()..].strip_prefix(OF_TRACE).ok_or(HolesError::NoList)?;
    let (of, lines) = second.split_once('\n').ok_or(HolesError::NoList)?;
    if of.len() != 64 {
        return Err(HolesError::NoList);
    }
    if of != digest(trace) {
        return Err(HolesError::OtherTrace);
    }
    let holes: Option<Vec<Hole>> = lines.lines().map(Hole::from_line).collect();
    holes.filter(|holes| in_order(holes, said(trace).map_or(0, |said| said.records))).ok_or(HolesError::NoList)
}

/// Holes come one after another, in the trace and in the day.
fn in_order(holes: &[Hole], records: usize) -> bool {
    let (mut before, mut lost) = (0, 0);
    let placed = holes.iter().all(|hole| {
        let right = hole.at >= before && hole.at <= records && hole.first == hole.at + lost;
        (before, lost) = (hole.at, lost + hole.lost());
        right
    });
    placed && !holes.is_empty() && holes.len() <= BLOCKS_MAX
}

fn lost(holes: &[Hole]) -> usize {
    holes.iter().map(Hole::lost).sum()
}

/// What right contents say.
struct Said {
    blocks: Vec<usize>,
    records: usize,
    len: usize,
}

/// What the contents of a trace say, or what is wrong with them.
fn said(bytes: &[u8]) -> Result<Said, String> {
    let wrong = |why: String| Err(format!("its contents are wrong: {why}"));
    if bytes.len() < contents_len(0) {
        return wrong(format!("it has only {} bytes", bytes.len()));
    }
    let count = contents::number(&bytes[..2]) as usize;
    if !(1..=BLOCKS_MAX).contains(&count) {
        return wrong(format!("they say {count} blocks, and a trace has 1 to {BLOCKS_MAX}"));
    }
    if bytes.len() < contents_len(count) {
        return wrong("the file ends within them".into());
    }
    let mut len = contents_len(count);
    let mut blocks = Vec::new();
    for (block, entry) in bytes[contents_len(0)..contents_len(count)].chunks_exact(4).enumerate() {
        let (at, records) = (contents::number(&entry[..2]) as usize, contents::number(&entry[2..]) as usize);
        if at != len || records == 0 {
            return wrong(format!("block {block} has no record, or does not begin where it should"));
        }
        len += RECORD_LEN * records;
        blocks.push(records);
    }
    Ok(Said { records: blocks.iter().sum(), blocks, len })
}

/// Which of the three causes of [`Error::Trace`] it is, in words; none where contents and length are right.
///
/// ```
/// assert_eq!(pch_pic::holes::cause(&[0, 0]).unwrap(), "its contents are wrong: they say 0 blocks, and a trace has 1 to 64");
/// ```
pub fn cause(bytes: &[u8]) -> Option<String> {
    let said = match said(bytes) {
        Ok(said) => said,
        Err(why) => return Some(why),
    };
    let (len, more) = if bytes.len() >= TRACE_MAX { (TRACE_MAX, " or more") } else { (bytes.len(), "") };
    if said.records > RECORDS_MAX {
        return Some(format!("it has {} records, and a trace has at most {RECORDS_MAX}", said.records));
    }
    match len.cmp(&said.len) {
        core::cmp::Ordering::Less => Some(format!("it is cut short: it has {len} bytes, and its contents say {}", said.len)),
        core::cmp::Ordering::Greater => Some(format!("it is too long: it has {len} bytes{more}, and its contents say {}", said.len)),
        core::cmp::Ordering::Equal => None,
    }
}

/// The bytes of a file that is to be a trace; of a longer one as many as show that.
///
/// # Errors
///
/// Those of the file system.
pub fn read(path: impl AsRef<Path>) -> io::Result<Vec<u8>> {
    trace::bytes_of(path.as_ref())
}

/// A trace that was cut short in copying, its contents whole: what is missing becomes zeros, which are bad records, and so does a record that is there in part.
/// Any other bytes stay as they are.
pub fn filled(mut bytes: Vec<u8>) -> Vec<u8> {
    let Some(said) = said(&bytes).ok().filter(|said| said.records <= RECORDS_MAX && bytes.len() < said.len) else { return bytes };
    let first = contents_len(said.blocks.len());
    bytes.truncate(first + (bytes.len() - first) / RECORD_LEN * RECORD_LEN);
    bytes.resize(said.len, 0);
    bytes
}

/// The block that a record is in, and its number there.
fn block_of(blocks: &[usize], mut record: usize) -> (usize, usize) {
    for (block, records) in blocks.iter().enumerate() {
        if record < *records {
            return (block, record);
        }
        record -= records;
    }
    (blocks.len(), record)
}

/// The leading records, in the blocks that they were in; of the last block those that are left.
fn leading(bytes: &[u8], blocks: &[usize], records: usize) -> Result<Trace, Error> {
    let (last, within) = block_of(blocks, records - 1);
    let mut kept: Vec<u16> = blocks[..last].iter().map(|records| *records as u16).collect();
    kept.push(within as u16 + 1);
    let first = contents_len(blocks.len());
    Trace::try_from([&contents_of(&kept)[..], &bytes[first..][..RECORD_LEN * records]].concat())
}

/// Keeps what comes before the first hole, known or found, record for record. Of what is kept there is no hole, or one at its end.
///
/// # Errors
///
/// [`Error::Trace`] where contents or length are wrong, [`Error::Empty`] where nothing comes before the first hole.
pub fn lead(bytes: &[u8], known: &[Hole]) -> Result<Kept, Error> {
    let bad = match Trace::try_from(bytes.to_vec()) {
        Ok(_) => None,
        Err(Error::Record(record)) => Some(record as usize),
        Err(why) => return Err(why),
    };
    let said = said(bytes).map_err(|_| Error::Trace)?;
    let (end, found) = (said.records + lost(known), bad.unwrap_or(said.records));
    let hole = match known.first().filter(|hole| hole.at <= found) {
        Some(hole) => Hole { last: end - 1, ..hole.clone() },
        None => {
            let (block, within) = block_of(&said.blocks, found);
            Hole { at: found, first: found, last: end.max(1) - 1, why: format!("from record {within} of block {block} on") }
        }
    };
    if hole.at == 0 {
        return Err(Error::Empty);
    }
    let trace = leading(bytes, &said.blocks, hole.at)?;
    Ok(Kept { trace, holes: if hole.at < end { vec![hole] } else { Vec::new() }, dropped: Vec::new() })
}

/// Keeps every block that has no bad record, as [`Trace::salvage`], with a hole for each that has one. Where none has, the holes are those that are known.
///
/// # Errors
///
/// [`Error::Trace`] where contents or length are wrong, [`Error::Empty`] where no block is left.
pub fn whole(bytes: &[u8], known: &[Hole]) -> Result<Kept, Error> {
    let salvaged = Trace::salvage(bytes)?;
    if salvaged.dropped.is_empty() {
        return Ok(Kept { trace: salvaged.trace, holes: known.to_vec(), dropped: salvaged.dropped });
    }
    let blocks = said(bytes).map_err(|_| Error::Trace)?.blocks;
    let mut lost = 0;
    let holes = salvaged.dropped.iter().map(|dropped| {
        let first: usize = blocks[..dropped.block].iter().sum();
        let at = first - lost;
        lost += blocks[dropped.block];
        let why = format!("block {}, whose record {} is bad", dropped.block, dropped.record);
        Hole { at, first, last: first + blocks[dropped.block] - 1, why }
    });
    Ok(Kept { holes: holes.collect(), trace: salvaged.trace, dropped: salvaged.dropped })
}

/// The 64 round constants of SHA-256.
#[rustfmt::skip]
const ROUNDS: [u32; 64] = [
    0x428a2f98, 0x71374491, 0xb5c0fbcf, 0xe9b5dba5, 0x3956c25b, 0x59f111f1, 0x923f82a4, 0xab1c5ed5, 0xd807aa98, 0x12835b01, 0x243185be, 0x550c7dc3, 0x72be5d74,
    0x80deb1fe, 0x9bdc06a7, 0xc19bf174, 0xe49b69c1, 0xefbe4786, 0x0fc19dc6, 0x240ca1cc, 0x2de92c6f, 0x4a7484aa, 0x5cb0a9dc, 0x76f988da, 0x983e5152, 0xa831c66d,
    0xb00327c8, 0xbf597fc7, 0xc6e00bf3, 0xd5a79147, 0x06ca6351, 0x14292967, 0x27b70a85, 0x2e1b2138, 0x4d2c6dfc, 0x53380d13, 0x650a7354, 0x766a0abb, 0x81c2c92e,
    0x92722c85, 0xa2bfe8a1, 0xa81a664b, 0xc24b8b70, 0xc76c51a3, 0xd192e819, 0xd6990624, 0xf40e3585, 0x106aa070, 0x19a4c116, 0x1e376c08, 0x2748774c, 0x34b0bcb5,
    0x391c0cb3, 0x4ed8aa4a, 0x5b9cca4f, 0x682e6ff3, 0x748f82ee, 0x78a5636f, 0x84c87814, 0x8cc70208, 0x90befffa, 0xa4506ceb, 0xbef9a3f7, 0xc67178f2,
];

const START: [u32; 8] = [0x6a09e667, 0xbb67ae85, 0x3c6ef372, 0xa54ff53a, 0x510e527f, 0x9b05688c, 0x1f83d9ab, 0x5be0cd19];

/// The words of a block of 64 bytes, and the 48 that follow from them.
fn spread(block: &[u8]) -> [u32; 64] {
    let mut words = [0_u32; 64];
    for at in 0..64 {
        words[at] = match at {
            0..16 => u32::from_be_bytes([block[4 * at], block[4 * at + 1], block[4 * at + 2], block[4 * at + 3]]),
            _ => {
                let (a, b) = (words[at - 15], words[at - 2]);
                let (low, high) = (a.rotate_right(7) ^ a.rotate_right(18) ^ (a >> 3), b.rotate_right(17) ^ b.rotate_right(19) ^ (b >> 10));
                words[at - 16].wrapping_add(low).wrapping_add(words[at - 7]).wrapping_add(high)
            }
        };
    }
    words
}

fn mixed(sum: [u32; 8], block: &[u8]) -> [u32; 8] {
    let mut state = sum;
    for (word, round) in spread(block).iter().zip(ROUNDS) {
        let [a, b, c, d, e, f, g, h] = state;
        let (high, low) =
            (e.rotate_right(6) ^ e.rotate_right(11) ^ e.rotate_right(25), a.rotate_right(2) ^ a.rotate_right(13) ^ a.rotate_right(22));
        let one = h.wrapping_add(high).wrapping_add((e & f) ^ (!e & g)).wrapping_add(round).wrapping_add(*word);
        let two = low.wrapping_add((a & b) ^ (a & c) ^ (b & c));
        state = [one.wrapping_add(two), a, b, c, d.wrapping_add(one), e, f, g];
    }
    core::array::from_fn(|at| sum[at].wrapping_add(state[at]))
}

/// The SHA-256 of bytes, as hex digits.
///
/// ```
/// assert_eq!(pch_pic::holes::digest(b"abc"), "ba7816bf8f01cfea414140de5dae2223b00361a396177a9cb410ff61f20015ad");
/// ```
pub fn digest(bytes: &[u8]) -> String {
    let mut padded = bytes.to_vec();
    padded.push(0x80);
    padded.resize((padded.len() + 8).next_multiple_of(64) - 8, 0);
    padded.extend((8 * bytes.len() as u64).to_be_bytes());
    padded.chunks_exact(64).fold(START, mixed).iter().map(|word| format!("{word:08x}")).collect()
}

#[cfg(test)]
mod tests {
    use super::*;
    use crate::Record;

    /// A day of blocks with so many records, and these of them bad.
    fn torn(blocks: &[u16], bad: &[usize]) -> Vec<u8> {
        let records: usize = blocks.iter().map(|count| usize::from(*count)).sum();
        let record = |at: usize| if bad.contains(&at) { [0; RECORD_LEN] } else { Record::Raise(at as u8).to_bytes() };
        [contents_of(blocks), (0..records).flat_map(record).collect()].concat()
    }

    fn raised(trace: &Trace) -> Vec<u8> {
        trace.records().map(|record| record.to_bytes()[1]).collect()
    }

    #[test]
    fn what_leads_is_exact() {
        let kept = lead(&torn(&[3, 1, 4], &[5]), &[]).unwrap();
        assert_eq!((raised(&kept.trace), kept.trace.blocks().collect::<Vec<_>>(), kept.of()), (vec![0, 1, 2, 3, 4], vec![3, 1, 1], 8));
        assert_eq!(kept.holes, [Hole { at: 5, first: 5, last: 7, why: "from record 1 of block 2 on".into() }]);
        let good = torn(&[3, 1, 4], &[]);
        let kept = lead(&good, &[]).unwrap();
        assert!(kept.trace.as_bytes() == good && kept.holes.is_empty());
        assert_eq!(lead(&torn(&[3, 1, 4], &[0]), &[]), Err(Error::Empty));
        assert_eq!(lead(&good[1..], &[]), Err(Error::Trace));
    }

    #[test]
    fn holes_of_whole_blocks() {
        let kept = whole(&torn(&[3, 1, 4, 2], &[0, 7, 5]), &[]).unwrap();
        assert_eq!((raised(&kept.trace), kept.of()), (vec![3, 8, 9], 10));
        let lines: Vec<String> = kept.holes.iter().map(Hole::to_string).collect();
        assert_eq!(lines[0], "at record 0: records 0 to 2 of the day are missing (block 0, whose record 0 is bad)");
        assert_eq!(lines[1], "at record 1: records 4 to 7 of the day are missing (block 2, whose record 1 is bad)");
        assert!(in_order(&kept.holes, 3) && !in_order(&kept.holes, 0));
        assert_eq!(lines.iter().map(|line| Hole::from_line(line).unwrap()).collect::<Vec<_>>(), kept.holes);
        // What is kept of it in turn ends at the first hole.
        assert_eq!(lead(kept.trace.as_bytes(), &kept.holes), Err(Error::Empty));
        let kept = whole(&torn(&[3, 1, 4], &[3]), &[]).unwrap();
        let again = lead(kept.trace.as_bytes(), &kept.holes).unwrap();
        assert_eq!((raised(&again.trace), again.of(), again.holes[0].last), (vec![0, 1, 2], 8, 7));
    }

    #[test]
    fn what_was_cut_short_keeps_its_whole_records() {
        let good = torn(&[3, 1, 4], &[]);
        for cut in 14..good.len() {
            let bytes = filled(good[..cut].to_vec());
            let records = (cut - 14) / RECORD_LEN;
            assert_eq!(bytes.len(), good.len());
            match lead(&bytes, &[]) {
                Ok(kept) => assert!(raised(&kept.trace) == (0..records as u8).collect::<Vec<_>>() && kept.holes[0].at == records),
                Err(why) => assert!(why == Error::Empty && records == 0),
            }
        }
        for cut in 0..14 {
            assert_eq!(filled(good[..cut].to_vec()), good[..cut]);
            assert!(cause(&good[..cut]).unwrap().starts_with("its contents are wrong: "));
        }
    }

    #[test]
    fn twelve_has_three_causes() {
        let good = torn(&[3, 1], &[]);
        let told = |bytes: &[u8]| cause(bytes).unwrap_or_default();
        assert_eq!(told(&good), "");
        assert_eq!(told(&good[..70]), "it is cut short: it has 70 bytes, and its contents say 74");
        assert_eq!(told(&[&good[..], &[0]].concat()), "it is too long: it has 75 bytes, and its contents say 74");
        assert_eq!(told(&torn(&[4001], &[])), "it has 4001 records, and a trace has at most 4000");
        assert_eq!(told(&[]), "its contents are wrong: it has only 0 bytes");
        assert_eq!(told(&[65, 0]), "its contents are wrong: they say 65 blocks, and a trace has 1 to 64");
        let mut wrong = good.clone();
        wrong[6] ^= 1;
        assert_eq!(told(&wrong), "its contents are wrong: block 1 has no record, or does not begin where it should");
        for place in 0..good.len() {
            let mut bytes = good.clone();
            bytes[place] ^= 0x81;
            assert_eq!(cause(&bytes).is_some(), Trace::try_from(bytes) == Err(Error::Trace), "{place}");
        }
    }

    #[test]
    fn lists_are_tied_to_their_trace() {
        let folder = std::env::temp_dir().join(format!("pch-pic-holes-{}", std::process::id()));
        fs::create_dir_all(&folder).unwrap();
        let path = folder.join("day.trace");
        let kept = whole(&torn(&[3, 1, 4], &[3]), &[]).unwrap();
        kept.save(&path).unwrap();
        assert_eq!(load(&path, kept.trace.as_bytes()).unwrap(), kept.holes);
        assert!(matches!(load(&path, &kept.trace.as_bytes()[1..]), Err(HolesError::OtherTrace)));
        // Any byte that changes is seen, or changes the words in brackets alone.
        let list = fs::read(beside(&path)).unwrap();
        for place in 0..list.len() {
            let mut bytes = list.clone();
            bytes[place] ^= 1;
            fs::write(beside(&path), &bytes).unwrap();
            let found = load(&path, kept.trace.as_bytes());
            assert!(found.is_err() || found.is_ok_and(|holes| holes.len() == 1 && holes[0].at == 3 && holes[0].lost() == 1), "{place}");
        }
        fs::write(beside(&path), "mine").unwrap();
        assert!(matches!(kept.save(&path), Err(HolesError::NoList)));
        assert_eq!(fs::read(beside(&path)).unwrap(), b"mine");
        fs::write(beside(&path), &list).unwrap();
        lead(kept.trace.as_bytes(), &[]).unwrap().save(&path).unwrap();
        assert!(!beside(&path).exists() && load(&path, b"any").unwrap().is_empty());
        fs::remove_dir_all(&folder).unwrap();
    }

    /// Lengths around a block's end, against another implementation's digests.
    #[test]
    fn digests() {
        assert_eq!(digest(b""), "e3b0c44298fc1c149afbf4c8996fb92427ae41e4649b934ca495991b7852b855");
        assert_eq!(digest(&[b'a'; 55]), "9f4390f8d30c2dd92ec9f095b65e2b9ae9b0a925a5258e241c9f1e910f734318");
        assert_eq!(digest(&[b'a'; 64]), "ffe054fe7ae0cb6dc65c3af9b61d5209f439851db43d0ba5997337df154668eb");
    }
}
