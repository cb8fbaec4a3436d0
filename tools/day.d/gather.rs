//! The day gone through once, one trace in memory at a time. Runs are kept in steps of the picture, which grow where there would be too many of them to draw.

use crate::lanes::{Boxes, Day, Drops, Found, LONGEST, Lane, Lost, Told, Waited, ends, push, push_step};
use crate::text::Asked;
use pch_pic::history::{End, Fate, History, Moment, Wait, Walk};
use pch_pic::holes::{self, Hole};
use pch_pic::{INPUTS, PchPic, Record, Tally, Trace};
use std::cmp::Reverse;
use std::ops::Range;

/// A trace of a day as it is handed in: what it is called, its records, when they were, in nanoseconds, and its holes, counted within it.
pub struct Part {
    pub name: String,
    pub trace: Trace,
    pub times: Option<Vec<u64>>,
    pub holes: Vec<Hole>,
}

/// What gives the traces of a day, counted from 0, as often as they are asked for.
pub trait Source {
    fn traces(&self) -> usize;
    fn part(&mut self, at: usize) -> Result<&Part, String>;
    /// Whether a list ends the day; none where there is no list.
    fn ended(&self) -> Option<bool>;
}

/// A register bit by bit: which inputs have it on, and since which record.
struct Bits {
    on: u64,
    since: [usize; INPUTS],
}

impl Bits {
    fn new() -> Self {
        Bits { on: 0, since: [0; INPUTS] }
    }

    /// What the register is after a record: the runs that end there are handed out.
    fn go(&mut self, record: usize, value: u64, mut ended: impl FnMut(usize, Range<usize>)) {
        let mut changed = self.on ^ value;
        while changed != 0 {
            let input = changed.trailing_zeros() as usize;
            changed &= changed - 1;
            if value >> input & 1 == 1 {
                self.since[input] = record;
            } else {
                ended(input, self.since[input]..record);
            }
        }
        self.on = value;
    }
}

/// The recorder's clock: microseconds from the first record that it tells of, and the last time that it told.
struct Clock {
    first: Option<u64>,
    last: u64,
    /// When each input was raised that waits.
    raised: [Option<u64>; INPUTS],
}

impl Clock {
    fn micros(&self, time: u64) -> u64 {
        (time - self.first.unwrap_or(time)) / 1000
    }

    /// Takes the times of the next trace; a clock does not go back from one to the next.
    fn go(&mut self, part: &Part, first: usize) -> Result<(), String> {
        let Some(times) = part.times.as_ref() else { return Ok(()) };
        let (Some(begin), Some(end)) = (times.first(), times.last()) else { return Ok(()) };
        if self.first.is_some() && *begin < self.last {
            return Err(format!("{}.times: its clock goes back at record {first}, where the trace begins", part.name));
        }
        self.first.get_or_insert(*begin);
        self.last = *end;
        Ok(())
    }
}

/// What the drawing of all pieces takes at least: a picture of this many bytes is drawn in larger steps in any case, so nothing is widened that need not be.
const DRAWN: usize = 1_500_000;
const PIECE: usize = 13;
const STEP: usize = 5;
/// How many pieces and steps are kept at most, drawn or not.
const KEPT: usize = 2_000_000;
/// How many beginnings of blocks are kept at most.
const BLOCKS: usize = 4096;

struct Gather<'a> {
    asked: &'a Asked,
    day: Day,
    walk: Walk,
    tally: Tally,
    clock: Clock,
    masked: Bits,
    latched: Bits,
    served: Bits,
    /// Inputs that were latched or in service at some time.
    moved: u64,
    /// How often the ring's lane goes up or down.
    changes: usize,
}

/// Goes through the day, and finds all that is drawn.
pub fn day(asked: &Asked, source: &mut dyn Source) -> Result<Day, String> {
    let mut gather = Gather::new(asked, source.ended());
    for at in 0..source.traces() {
        gather.trace(source.part(at)?)?;
    }
    gather.end()
}

impl<'a> Gather<'a> {
    fn new(asked: &'a Asked, ended: Option<bool>) -> Self {
        let tally = Tally::new();
        let sheet = tally.sheet().expect("a new tally has a sheet");
        let lane = |input| Lane { input, ..Lane::default() };
        let day = Day {
            records: 0,
            part: asked.part.clone(),
            traces: Vec::new(),
            ended,
            blocks: 0,
            block_starts: Vec::new(),
            sheet,
            lanes: (0..INPUTS).map(lane).collect(),
            holes: Vec::new(),
            ring: Vec::new(),
            refused: Found::none(),
            unannounced: Drops::default(),
            left_on: Drops::default(),
            lost: Found::none(),
            withdrawn: Found::none(),
            over: Found::none(),
            all_dropped: [0; 2],
            all_over: 0,
            longest_in_time: None,
            clock: None,
            unit: asked.coarse.max(1),
        };
        let clock = Clock { first: None, last: 0, raised: [None; INPUTS] };
        Gather {
            asked,
            day,
            walk: Walk::new(),
            tally,
            clock,
            masked: Bits::new(),
            latched: Bits::new(),
            served: Bits::new(),
            moved: 0,
            changes: 0,
        }
    }

    fn trace(&mut self, part: &Part) -> Result<(), String> {
        let first = self.walk.records();
        self.clock.go(part, first)?;
        self.tally.add(&part.trace, self.walk.pic()).map_err(|why| format!("{}: refused with {}: {why}", part.name, why.number()))?;
        let history = self.walk.through(&part.trace);
        self.tell(part, first, history.moments().len());
        for moment in history.moments() {
            self.moment(moment);
        }
        self.waits(part, first, &history);
        self.widen();
        Ok(())
    }

    /// What the page says of a trace, its blocks and its holes.
    fn tell(&mut self, part: &Part, first: usize, records: usize) {
        let day = &mut self.day;
        let digest = holes::digest(part.trace.as_bytes());
        day.traces.push(Told { name: part.name.clone(), first, records, digest, timed: part.times.is_some() });
        day.holes.extend(part.holes.iter().map(|hole| Hole {
            at: first + hole.at,
            first: first + hole.first,
            last: first + hole.last,
            why: hole.why.clone(),
        }));
        let mut at = first;
        for (block, records) in part.trace.blocks().enumerate() {
            if block > 0 && day.block_starts.len() < BLOCKS {
                day.block_starts.push(at);
            }
            at += records;
            day.blocks += 1;
        }
        day.records += records;
    }

    fn moment(&mut self, moment: &Moment) {
        let (record, unit, part) = (moment.number, self.day.unit, self.day.part.clone());
        let lanes = &mut self.day.lanes;
        let cut = |run: Range<usize>| run.start.max(part.start)..run.end.min(part.end);
        let put = |runs: &mut Vec<_>, run: Range<usize>| {
            let run = cut(run);
            if !run.is_empty() {
                push(runs, unit, run.start, run.end);
            }
        };
        self.masked.go(record, moment.masked, |input, run| put(&mut lanes[input].masked, run));
        self.latched.go(record, moment.latched, |input, run| put(&mut lanes[input].latched, run));
        self.served.go(record, moment.in_service, |input, run| put(&mut lanes[input].served, run));
        self.moved |= moment.latched | moment.in_service;
        if moment.made.iter().any(|made| made.fate == Fate::Dropped) {
            self.dropped(moment);
        }
        if part.contains(&record) {
            self.ring(record, moment.waiting as u8);
            if moment.outcome.is_err() {
                self.day.refused.push(record);
            }
        }
    }

    fn ring(&mut self, record: usize, waiting: u8) {
        let (ring, step) = (&mut self.day.ring, record / self.day.unit - self.day.part.start / self.day.unit);
        if step < ring.len() {
            ring[step] = ring[step].max(waiting);
        } else {
            self.changes += usize::from(ring.last().copied().unwrap_or(0) != waiting);
            ring.push(waiting);
        }
    }

    /// The dropped events of a record, lowest input first.
    fn dropped(&mut self, moment: &Moment) {
        let day = &mut self.day;
        let lost = moment.made.iter().filter(|made| made.fate == Fate::Dropped);
        let mut lost: Vec<Lost> =
            lost.map(|made| Lost { record: moment.number, input: made.input, asserted: made.event.asserted }).collect();
        lost.sort_by_key(|lost| lost.input);
        for one in lost {
            let lane = &mut day.lanes[one.input];
            lane.dropped += 1;
            let (drops, steps) =
                if one.asserted { (&mut day.unannounced, &mut lane.unannounced) } else { (&mut day.left_on, &mut lane.left_on) };
            day.all_dropped[usize::from(!one.asserted)] += 1;
            if day.part.contains(&one.record) {
                drops.push(one);
                push_step(steps, day.unit, one.record);
                day.lost.push(one);
            }
        }
    }

    /// The waits that ended in a trace, and when those that go on began.
    fn waits(&mut self, part: &Part, first: usize, history: &History) {
        let time = |clock: &Clock, record: usize| part.times.as_ref().map(|times| clock.micros(times[record - first]));
        for wait in history.waits() {
            let (input, end) = (wait.input, ends(wait, self.day.records));
            let raised = if wait.raised >= first { time(&self.clock, wait.raised) } else { self.clock.raised[input] };
            let took = raised.zip(time(&self.clock, end)).map(|(raised, end)| end - raised);
            let lowered = matches!(history.moments()[end - first].record, Record::Lower(_));
            self.waited(Waited { wait: *wait, took, lowered });
        }
        for wait in self.walk.open().filter(|wait| wait.raised >= first) {
            self.clock.raised[wait.input] = time(&self.clock, wait.raised);
        }
        self.day.clock = part.times.as_ref().map(|_| self.clock.micros(self.clock.last)).or(self.day.clock);
    }

    fn waited(&mut self, waited: Waited) {
        let wait = waited.wait;
        if wait.length() == Some(0) {
            return;
        }
        let (first, end) = (wait.raised, ends(&wait, self.day.records));
        let over = self.asked.too_long(end - first, waited.took);
        self.count(waited, over);
        let day = &mut self.day;
        let (lane, run) = (&mut day.lanes[wait.input], first.max(day.part.start)..end.min(day.part.end));
        if run.is_empty() {
            return;
        }
        let Boxes { wait: short, over: long, gone, open, edge } = &mut lane.boxes;
        let kind = match wait.end {
            End::Asserted(_) if over => long,
            End::Asserted(_) => short,
            End::Withdrawn(_) => gone,
            End::Open => open,
        };
        push(kind, day.unit, run.start, run.end);
        if over && wait.length().is_none() {
            push(edge, day.unit, run.start, run.end);
        }
        if matches!(wait.end, End::Withdrawn(_)) && day.part.contains(&end) {
            push_step(&mut lane.crosses, day.unit, end);
        }
    }

    /// A wait in the numbers of the whole day, and in the lists of what touches the part that is drawn.
    fn count(&mut self, waited: Waited, over: bool) {
        let (day, wait) = (&mut self.day, waited.wait);
        let lane = &mut day.lanes[wait.input];
        let touches = wait.raised < day.part.end && ends(&wait, day.records) >= day.part.start;
        match wait.end {
            End::Asserted(_) => {
                if lane.greatest.is_none_or(|longest| longest.wait.length() < wait.length()) {
                    lane.greatest = Some(waited);
                }
                let key = |one: &Waited| (one.took, Reverse(one.wait.raised));
                if waited.took.is_some() && day.longest_in_time.is_none_or(|longest| key(&longest) < key(&waited)) {
                    day.longest_in_time = Some(waited);
                }
            }
            End::Withdrawn(_) => {
                lane.withdrawn += 1;
                lane.first_withdrawn.get_or_insert(waited);
                if touches {
                    day.withdrawn.push(waited);
                }
            }
            End::Open => lane.open = Some(waited),
        }
        day.all_over += usize::from(over);
        if over && touches {
            day.over.count += 1;
            day.over.listed.push(waited);
            if day.over.listed.len() >= 2 * LONGEST {
                self.longest();
            }
        }
    }

    /// Keeps the longest of those over the limit, in their order.
    fn longest(&mut self) {
        let records = self.day.records;
        let length = |wait: &Wait| ends(wait, records) - wait.raised;
        let over = &mut self.day.over.listed;
        over.sort_by_key(|waited| (Reverse((waited.took, length(&waited.wait))), waited.wait.raised));
        over.truncate(LONGEST);
    }

    /// Makes the steps of the picture larger, where there are too many pieces.
    fn widen(&mut self) {
        loop {
            let (moved, day) = (self.moved, &mut self.day);
            let pieces: Vec<usize> = day.lanes.iter_mut().map(Lane::pieces).collect();
            let at_work: usize = pieces.iter().enumerate().filter(|(input, _)| moved >> input & 1 == 1).map(|(_, pieces)| pieces).sum();
            let kept = pieces.iter().sum::<usize>() + day.ring.len();
            if PIECE * at_work + STEP * self.changes <= DRAWN && kept <= KEPT {
                return;
            }
            day.widen();
            self.changes = day.ring.windows(2).filter(|pair| pair[0] != pair[1]).count();
        }
    }

    /// The end of the day: what is on still, what waits still, and the library's sheet.
    fn end(mut self) -> Result<Day, String> {
        let (records, part) = (self.day.records, self.day.part.clone());
        if part.start >= records {
            return Err(format!("it has {records} records, and none is number {} from 0 on", part.start));
        }
        self.day.part.end = part.end.min(records);
        let last = Moment {
            number: records,
            record: Record::Drain,
            outcome: Ok(None),
            made: Vec::new(),
            latched: 0,
            in_service: 0,
            masked: 0,
            waiting: 0,
        };
        self.moment(&last);
        let now = self.day.traces.last().filter(|told| told.timed).and(self.day.clock);
        for wait in self.walk.open().collect::<Vec<_>>() {
            let took = self.clock.raised[wait.input].zip(now).map(|(raised, now)| now - raised);
            self.waited(Waited { wait, took, lowered: false });
        }
        self.longest();
        self.day.sheet = self.tally.sheet().map_err(|why| why.to_string())?;
        let (moved, sheet) = (self.moved, &self.day.sheet);
        self.day.lanes.retain(|lane| moved >> lane.input & 1 == 1 || !sheet.inputs()[lane.input].is_idle());
        if self.day.block_starts.len() >= BLOCKS {
            self.day.block_starts.clear();
        }
        Ok(self.day)
    }
}

impl Drops {
    fn push(&mut self, lost: Lost) {
        self.count += 1;
        self.inputs |= 1 << lost.input;
        self.first.get_or_insert((lost.record, lost.input));
        self.last = lost.record;
        if self.at.last() != Some(&lost.record) && self.at.len() <= 6 {
            self.at.push(lost.record);
        }
    }
}

/// Goes to some of the records once more, in rising order: the record and when it was.
pub fn moments(day: &Day, wanted: &[usize], source: &mut dyn Source, mut each: impl FnMut(&Moment, Option<u64>)) -> Result<(), String> {
    let (mut pic, mut wanted, mut origin) = (PchPic::new(), wanted.iter().peekable(), None);
    for (at, told) in day.traces.iter().enumerate() {
        let Some(&&next) = wanted.peek() else { break };
        let part = source.part(at)?;
        if holes::digest(part.trace.as_bytes()) != told.digest {
            return Err(format!("{}: it has changed while it was read", part.name));
        }
        let end = told.first + told.records;
        origin = origin.or(part.times.as_ref().and_then(|times| times.first().copied()));
        if next >= end {
            pic = part.trace.play_on(&pic.save(pch_pic::Form::Numbered)).pic();
            continue;
        }
        let mut walk = Walk::at(told.first, pic);
        let history = walk.through(&part.trace);
        while let Some(&&record) = wanted.peek().filter(|record| ***record < end) {
            let time = part.times.as_ref().map(|times| (times[record - told.first] - origin.unwrap_or(0)) / 1000);
            each(&history.moments()[record - told.first], time);
            wanted.next();
        }
        pic = walk.pic().clone();
    }
    Ok(())
}
