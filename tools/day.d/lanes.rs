//! A day as lanes: of each input that did something, from where to where it was masked, latched and in service, where it waited, and where an event was dropped.
//!
//! It has what the page has: runs in steps of the picture, and of all that stands out the numbers, and as many as are listed. `gather.rs` makes it.

use pch_pic::history::{End, Wait};
use pch_pic::holes::Hole;
use pch_pic::sheet::LongSheet;
use std::ops::Range;

/// Records from the first on, so many of them.
#[derive(Clone, Copy, Debug, PartialEq, Eq)]
pub struct Run {
    pub first: usize,
    pub len: usize,
}

/// A wait, how long it took by the clock, in microseconds, and whether the record that ended it was a lowering.
#[derive(Clone, Copy, Debug, PartialEq, Eq)]
pub struct Waited {
    pub wait: Wait,
    pub took: Option<u64>,
    pub lowered: bool,
}

/// An event that was dropped.
#[derive(Clone, Copy, Debug, PartialEq, Eq)]
pub struct Lost {
    pub record: usize,
    pub input: usize,
    pub asserted: bool,
}

/// How many there are, and the first ones of them, or the longest.
pub struct Found<T> {
    pub count: usize,
    pub listed: Vec<T>,
}

/// How many of a kind a page lists at most, and of those over the limit; how many more there are is told.
pub const LISTED: usize = 1000;
pub const LONGEST: usize = 2000;

impl<T> Found<T> {
    pub fn none() -> Self {
        Found { count: 0, listed: Vec::new() }
    }

    pub fn push(&mut self, one: T) {
        self.count += 1;
        if self.listed.len() < LISTED {
            self.listed.push(one);
        }
    }
}

/// The boxes of waits by how they are drawn.
#[derive(Default)]
pub struct Boxes {
    pub wait: Vec<Run>,
    pub over: Vec<Run>,
    pub gone: Vec<Run>,
    pub open: Vec<Run>,
    /// Withdrawn or open, and over the limit.
    pub edge: Vec<Run>,
}

#[derive(Default)]
pub struct Lane {
    pub input: usize,
    pub masked: Vec<Run>,
    pub latched: Vec<Run>,
    pub served: Vec<Run>,
    /// Waits of 0 records are left out: the raise itself made the assert.
    pub boxes: Boxes,
    /// Where withdrawn waits ended.
    pub crosses: Vec<usize>,
    /// Where an assert of this input was dropped: a sample that was not announced.
    pub unannounced: Vec<usize>,
    /// Where a deassert of it was dropped: a line that was left on.
    pub left_on: Vec<usize>,
    /// The longest wait of those that ended with an assert, the first of several; none where each raise made it itself.
    pub greatest: Option<Waited>,
    pub withdrawn: usize,
    pub first_withdrawn: Option<Waited>,
    pub open: Option<Waited>,
    /// Events that were dropped, of both kinds.
    pub dropped: usize,
}

/// A trace as the page tells it.
pub struct Told {
    pub name: String,
    pub first: usize,
    pub records: usize,
    pub digest: String,
    pub timed: bool,
}

/// Dropped events of one kind.
#[derive(Default)]
pub struct Drops {
    pub count: usize,
    /// Bit n for input n.
    pub inputs: u64,
    /// The first one's record and input, and the last one's record.
    pub first: Option<(usize, usize)>,
    pub last: usize,
    /// The first records that had one, each once.
    pub at: Vec<usize>,
}

pub struct Day {
    pub records: usize,
    /// The records that are drawn, listed and told of.
    pub part: Range<usize>,
    pub traces: Vec<Told>,
    /// Whether a list ends the day; none where it has no list.
    pub ended: Option<bool>,
    /// How many blocks there are, and where they begin, but for the first of a trace; of very many none.
    pub blocks: usize,
    pub block_starts: Vec<usize>,
    pub sheet: LongSheet,
    pub lanes: Vec<Lane>,
    pub holes: Vec<Hole>,
    /// How many events waited at most in each step of the picture.
    pub ring: Vec<u8>,
    /// What touches the part that is drawn: refused records, drops by kind, each dropped event and withdrawn wait in its order, and waits over the limit, longest first.
    pub refused: Found<usize>,
    pub unannounced: Drops,
    pub left_on: Drops,
    pub lost: Found<Lost>,
    pub withdrawn: Found<Waited>,
    pub over: Found<Waited>,
    /// Of the whole day: the asserts and deasserts that were dropped, the waits over the limit, and the longest by the clock of those that ended with an assert.
    pub all_dropped: [usize; 2],
    pub all_over: usize,
    pub longest_in_time: Option<Waited>,
    /// When the last record was by the recorder's own clock, in microseconds from the first one on, where it kept that.
    pub clock: Option<u64>,
    /// How many records a step of the picture has: 1, or more on a day that is too long to draw each.
    pub unit: usize,
}

/// Where a wait ends in the picture: before the record that asserted it or took it back, or at the end of the day.
pub fn ends(wait: &Wait, records: usize) -> usize {
    match wait.end {
        End::Asserted(record) | End::Withdrawn(record) => record,
        End::Open => records,
    }
}

/// Puts a run behind others, in whole steps of the picture, so that none is lost; those that then meet become one.
pub fn push(runs: &mut Vec<Run>, unit: usize, first: usize, end: usize) {
    let (first, end) = (first / unit * unit, end.next_multiple_of(unit));
    match runs.last_mut().filter(|last| unit > 1 && last.first + last.len >= first) {
        Some(last) => last.len = end.max(last.first + last.len) - last.first,
        None => runs.push(Run { first, len: end - first }),
    }
}

/// Puts a step behind others, told by its first record.
pub fn push_step(steps: &mut Vec<usize>, unit: usize, record: usize) {
    let step = record / unit * unit;
    if steps.last() != Some(&step) {
        steps.push(step);
    }
}

impl Lane {
    fn runs(&mut self) -> [&mut Vec<Run>; 8] {
        let Boxes { wait, over, gone, open, edge } = &mut self.boxes;
        [&mut self.masked, &mut self.latched, &mut self.served, wait, over, gone, open, edge]
    }

    /// Has all that is drawn in larger steps.
    pub fn widen(&mut self, unit: usize) {
        for runs in self.runs() {
            for run in std::mem::take(runs) {
                push(runs, unit, run.first, run.first + run.len);
            }
        }
        for steps in [&mut self.crosses, &mut self.unannounced, &mut self.left_on] {
            for record in std::mem::take(steps) {
                push_step(steps, unit, record);
            }
        }
    }

    /// How many pieces there are to draw.
    pub fn pieces(&mut self) -> usize {
        self.runs().iter().map(|runs| runs.len()).sum::<usize>() + self.crosses.len() + self.unannounced.len() + self.left_on.len()
    }
}

/// The steps of the ring's lane in twice as many records each, where the first one has this number.
pub fn halved(ring: &[u8], first: usize) -> Vec<u8> {
    let mut halved: Vec<u8> = Vec::with_capacity(ring.len() / 2 + 1);
    for (at, most) in ring.iter().enumerate() {
        match halved.last_mut().filter(|_| (first + at) % 2 == 1) {
            Some(last) => *last = (*last).max(*most),
            None => halved.push(*most),
        }
    }
    halved
}

impl Day {
    /// Has all that is drawn in steps of twice as many records.
    pub fn widen(&mut self) {
        self.ring = halved(&self.ring, self.part.start / self.unit);
        self.unit *= 2;
        let unit = self.unit;
        self.lanes.iter_mut().for_each(|lane| lane.widen(unit));
    }

    /// Whether it is one trace that is drawn whole.
    pub fn is_one(&self) -> bool {
        self.traces.len() == 1 && self.is_whole()
    }

    /// Whether each record of it is drawn as well.
    pub fn is_plain(&self) -> bool {
        self.is_one() && self.unit == 1
    }

    pub fn is_whole(&self) -> bool {
        self.part == (0..self.records)
    }

    /// Runs as they are drawn: counted from the first record that is, and cut at its ends.
    pub fn drawn(&self, runs: &[Run]) -> Vec<Run> {
        let cut = |run: &Run| {
            let (first, end) = (run.first.max(self.part.start), (run.first + run.len).min(self.part.end));
            Run { first: first - self.part.start, len: end.saturating_sub(first) }
        };
        runs.iter().map(cut).collect()
    }

    /// A step as it is drawn.
    pub fn place(&self, step: usize) -> usize {
        step.max(self.part.start) - self.part.start
    }

    /// Whether something that goes from one record to another touches what is drawn.
    pub fn touches(&self, first: usize, last: usize) -> bool {
        first < self.part.end && last >= self.part.start
    }

    /// The record from which on nothing is the day's: that behind the first hole. None where no record comes behind one.
    pub fn wrong_from(&self) -> Option<usize> {
        self.holes.first().map(|hole| hole.at).filter(|at| *at < self.records)
    }

    /// Whether what shows at a record is not the day's.
    pub fn is_wrong(&self, record: usize) -> bool {
        self.wrong_from().is_some_and(|from| record >= from)
    }

    /// Whether the day went on behind the last trace's end.
    pub fn went_on(&self) -> bool {
        self.holes.last().is_some_and(|hole| hole.at == self.records)
    }

    /// Holds what is drawn to the library's sheet, input by input: the page is not written where they differ.
    pub fn holds(&self) -> Result<(), String> {
        let differ = |input: usize| format!("input {input}: the waits that are drawn are not those of the sheet");
        for lane in &self.lanes {
            let row = &self.sheet.inputs()[lane.input];
            let greatest = lane.greatest.and_then(|waited| waited.wait.length()).unwrap_or(0);
            let drawn = [greatest, lane.withdrawn, usize::from(lane.open.is_some()), lane.dropped];
            if drawn != [row.greatest_wait, row.withdrawn, row.open, row.dropped].map(|number| number as usize) {
                return Err(differ(lane.input));
            }
        }
        Ok(())
    }

    /// The trace that a record is in, counted from 0.
    pub fn trace_of(&self, record: usize) -> usize {
        self.traces.partition_point(|told| told.first <= record).saturating_sub(1)
    }
}
