//! A day gone through record by record: the events that each made, input by input, how the device stood after it, and which raises had to wait.
//!
//! A [`Sheet`](crate::Sheet) has the numbers of a day and is the library's own; this tells where in the day they come from. The calls are made one by one, and
//! what cannot be seen in their answers is read from the image after each.
//!
//! ```
//! use pch_pic::history::{End, Wait};
//! use pch_pic::{reg, Recorded, Width, Window};
//!
//! let mut day = Recorded::new();
//! let _ = day.set_level(5, true)?; // record 0: masked, so it waits
//! day.write(Window::at(0), reg::MASK, Width::Dword, 0)?; // record 1: its assert is offered
//! let history = day.recorder().finish()?.history();
//! assert_eq!(history.waits(), [Wait { input: 5, raised: 0, end: End::Asserted(1) }]);
//! assert_eq!(history.moments()[1].made[0].input, 5);
//! # Ok::<(), Box<dyn std::error::Error>>(())
//! ```

use crate::{reg, Error, Event, PchPic, Record, Trace, Width, Window, EVENTS, INPUTS, PLAYED};

/// What became of an event.
#[derive(Clone, Copy, Debug, PartialEq, Eq, Hash)]
pub enum Fate {
    /// It was returned by the raise, lower or poll that made it.
    Returned,
    /// A write offered it, and it went to those that wait.
    Kept,
    /// A write offered it while 16 waited.
    Dropped,
}

/// An event made by a record.
#[derive(Clone, Copy, Debug, PartialEq, Eq, Hash)]
pub struct Made {
    /// Whose it is.
    pub input: usize,
    /// Its vector, assert or deassert, and number.
    pub event: Event,
    /// What became of it.
    pub fate: Fate,
}

/// A record, what it made, and how the device stood after it: of the three registers bit n is that of input n.
#[derive(Clone, Debug, PartialEq, Eq)]
pub struct Moment {
    /// Counted from 0 over the trace.
    pub number: usize,
    /// What was asked.
    pub record: Record,
    /// The value, if there is one, or why the call was refused.
    pub outcome: Result<Option<u64>, Error>,
    /// The events that it made, in the order of making.
    pub made: Vec<Made>,
    /// The latched inputs, IRR.
    pub latched: u64,
    /// The inputs in service, the stored ISR.
    pub in_service: u64,
    /// The masked inputs.
    pub masked: u64,
    /// How many events wait to be drained.
    pub waiting: usize,
}

/// How a wait ended.
#[derive(Clone, Copy, Debug, PartialEq, Eq, Hash)]
pub enum End {
    /// This record made the assert; that of the raise itself, where nothing was waited for.
    Asserted(usize),
    /// This record took the latch away: a lowering, or a write to CLEAR.
    Withdrawn(usize),
    /// The trace ended first.
    Open,
}

/// From a raise that found its input neither latched nor in service to the assert that followed, if one did.
#[derive(Clone, Copy, Debug, PartialEq, Eq, Hash)]
pub struct Wait {
    /// The input.
    pub input: usize,
    /// The number of the raise's record.
    pub raised: usize,
    /// How it ended.
    pub end: End,
}

impl Wait {
    /// By how much the record number of the assert is above that of the raise; none where no assert came.
    pub fn length(&self) -> Option<usize> {
        match self.end {
            End::Asserted(record) => record.checked_sub(self.raised),
            End::Withdrawn(_) | End::Open => None,
        }
    }
}

/// The history of a day. [`Trace::history`] makes it.
#[derive(Clone, Debug, PartialEq, Eq)]
pub struct History {
    moments: Vec<Moment>,
    waits: Vec<Wait>,
}

impl History {
    /// The records, in their order.
    pub fn moments(&self) -> &[Moment] {
        &self.moments
    }

    /// The waits, in the order in which they ended; those that are open last.
    pub fn waits(&self) -> &[Wait] {
        &self.waits
    }

    /// The longest wait of an input that ended with an assert, of several that are as long the first; none where each raise made its assert itself.
    pub fn greatest(&self, input: usize) -> Option<&Wait> {
        let waits = || self.waits.iter().filter(|wait| wait.input == input);
        let length = waits().filter_map(Wait::length).max().filter(|length| *length > 0)?;
        waits().find(|wait| wait.length() == Some(length))
    }
}

impl Trace {
    /// Goes through the day from a reset on, a call for each record.
    pub fn history(&self) -> History {
        let mut walk = Walk::new();
        let mut history = walk.through(self);
        history.waits.extend(walk.open());
        history
    }
}

/// A day of several traces gone through, one after another: the device as it stands, and the waits that are open. Record numbers count over the whole day.
///
/// ```
/// use pch_pic::history::{End, Wait, Walk};
/// use pch_pic::{reg, Record, Recorder};
///
/// let trace = |record| {
///     let mut recorder = Recorder::new();
///     recorder.take(record)?;
///     recorder.finish()
/// };
/// let mut walk = Walk::new();
/// assert!(walk.through(&trace(Record::Raise(5))?).waits().is_empty()); // masked, so it waits
/// assert_eq!(walk.open().next(), Some(Wait { input: 5, raised: 0, end: End::Open }));
/// let second = walk.through(&trace(Record::Write { offset: reg::MASK as u16, width: 8, value: 0 })?);
/// assert_eq!((second.moments()[0].number, second.waits()), (1, &[Wait { input: 5, raised: 0, end: End::Asserted(1) }][..]));
/// # Ok::<(), pch_pic::RecordError>(())
/// ```
#[derive(Clone, Debug)]
pub struct Walk {
    pic: PchPic,
    open: [Option<usize>; INPUTS],
    records: usize,
}

impl Default for Walk {
    fn default() -> Self {
        Walk::new()
    }
}

impl Walk {
    /// A day that begins with a reset.
    pub fn new() -> Self {
        Walk { pic: PchPic::new(), open: [None; INPUTS], records: 0 }
    }

    /// A day that is taken up at this record, from the device as it was before it. Waits that began earlier are not known.
    pub fn at(records: usize, pic: PchPic) -> Self {
        Walk { pic, open: [None; INPUTS], records }
    }

    /// The device after the last record so far.
    pub fn pic(&self) -> &PchPic {
        &self.pic
    }

    /// How many records there were so far, which is the number of the next one.
    pub fn records(&self) -> usize {
        self.records
    }

    /// Goes through the next trace, a call for each record. Its waits are those that ended in it, wherever they began.
    pub fn through(&mut self, trace: &Trace) -> History {
        let (pic, open, first, mut waits) = (&mut self.pic, &mut self.open, self.records, Vec::new());
        let moments = trace.records().enumerate().map(|(at, record)| {
            let before = pic.clone();
            let moment = moment(first + at, record, pic);
            waited(&before, &moment, open, &mut waits);
            moment
        });
        let moments: Vec<Moment> = moments.collect();
        self.records += moments.len();
        History { moments, waits }
    }

    /// The waits that no record has ended so far.
    pub fn open(&self) -> impl Iterator<Item = Wait> + '_ {
        self.open.iter().enumerate().filter_map(|(input, raised)| Some(Wait { input, raised: (*raised)?, end: End::Open }))
    }
}

/// The call of a record. A width of no access is refused by the library, as any other of its kind.
fn call(record: Record, pic: &mut PchPic) -> Result<Option<u64>, Error> {
    let mut data = [0; u8::MAX as usize];
    let value = |event: Event| u64::from(event.vector) | u64::from(event.number) << 16;
    match record {
        Record::Raise(input) => pic.set_level(input.into(), true).map(|returned| returned.event().map(value)),
        Record::Lower(input) => pic.set_level(input.into(), false).map(|returned| returned.event().map(value)),
        Record::Poll(input) => pic.poll(input.into()).map(|returned| returned.event().map(value)),
        Record::Read { offset, width } => {
            let data = &mut data[..width.into()];
            pic.mmio_read(PLAYED, offset.into(), data)?;
            Ok(Some(crate::contents::number(data)))
        }
        Record::Write { offset, width, value } => {
            data[..8].copy_from_slice(&value.to_le_bytes());
            pic.mmio_write(PLAYED, offset.into(), &data[..width.into()]).map(|dropped| Some(dropped.into()))
        }
        Record::Drain => Ok(Some(pic.drain(&mut [Event::default(); EVENTS]) as u64)),
    }
}

fn moment(number: usize, record: Record, pic: &mut PchPic) -> Moment {
    let before = pic.clone();
    let outcome = call(record, pic);
    Moment {
        number,
        record,
        outcome,
        made: made(record, outcome, &before, pic),
        latched: pic.latched(),
        in_service: pic.in_service(),
        masked: pic.read(Window::at(0), reg::MASK, Width::Qword).expect("MASK is inside"),
        waiting: pic.waiting(),
    }
}

/// The events that a record made. How many there are is told by the number that comes next: a write to ISR, which moves inputs and makes none, takes none.
fn made(record: Record, outcome: Result<Option<u64>, Error>, before: &PchPic, after: &PchPic) -> Vec<Made> {
    let first = before.next_number();
    let count = usize::from(after.next_number().wrapping_sub(first));
    if count == 0 {
        return Vec::new();
    }
    let (entered, left) = (after.in_service() & !before.in_service(), before.in_service() & !after.in_service());
    let order = in_order(record, entered, left);
    debug_assert_eq!(order.len(), count);
    // Of what a write offers those are dropped that come last: nothing is drained on the way.
    let (offered, dropped) = match (record, outcome) {
        (Record::Write { .. }, Ok(dropped)) => (true, dropped.unwrap_or(0) as usize),
        _ => (false, 0),
    };
    let events = order.into_iter().enumerate().map(|(at, (input, asserted))| Made {
        input,
        event: Event { vector: before.vector(input).unwrap_or(0), asserted, number: first.wrapping_add(at as u16) },
        fate: match offered {
            false => Fate::Returned,
            true if at < count - dropped => Fate::Kept,
            true => Fate::Dropped,
        },
    });
    events.collect()
}

/// Inputs that entered and left service, in the order in which their events are made: a Byte and a Word are written byte by byte, a Dword and a Qword half
/// by half, and of each part the assert comes first and then the deasserts, lowest input first.
fn in_order(record: Record, entered: u64, left: u64) -> Vec<(usize, bool)> {
    let part = match record {
        Record::Write { width: 1 | 2, .. } => 8,
        _ => 32,
    };
    let has = |inputs: u64, input: &usize| inputs >> input & 1 == 1;
    let parts = (0..INPUTS).step_by(part).map(|first| first..first + part);
    let order = parts.flat_map(|part| {
        let asserts = part.clone().filter(move |input| has(entered, input)).map(|input| (input, true));
        asserts.chain(part.filter(move |input| has(left, input)).map(|input| (input, false)))
    });
    order.collect()
}

/// The waits that a record begins and ends. An input that waits is latched, and only a lowering or a CLEAR of it takes the latch: that withdraws the wait.
fn waited(before: &PchPic, moment: &Moment, open: &mut [Option<usize>; INPUTS], waits: &mut Vec<Wait>) {
    if let (Record::Raise(input), Ok(_)) = (moment.record, moment.outcome) {
        if (before.latched() | before.in_service()) >> input & 1 == 0 {
            open[usize::from(input)] = Some(moment.number);
        }
    }
    let mut ended = |input: usize, end| waits.extend(open[input].take().map(|raised| Wait { input, raised, end }));
    for made in moment.made.iter().filter(|made| made.event.asserted) {
        ended(made.input, End::Asserted(moment.number));
    }
    for input in (0..INPUTS).filter(|input| moment.latched >> input & 1 == 0) {
        ended(input, End::Withdrawn(moment.number));
    }
}
