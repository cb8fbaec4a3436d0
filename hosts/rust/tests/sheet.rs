//! The sheet of a day, held against a recount over the day's history, and the rules of waits one by one.
#![cfg(feature = "std")]

use pch_pic::history::{End, Fate, History, Wait};
use pch_pic::sheet::{Row, COLUMNS};
use pch_pic::{reg, Error, Record, Recorder, Trace, RECORDS_MAX, SHEET_LEN};

const MASK: u16 = reg::MASK as u16;
const CLEAR: u16 = reg::CLEAR as u16;
const ISR: u16 = reg::ISR as u16;

fn write(width: u8, offset: u16, value: u64) -> Record {
    Record::Write { offset, width, value }
}

fn day(records: &[Record]) -> Trace {
    let mut recorder = Recorder::new();
    for record in records {
        recorder.take(*record).unwrap();
    }
    recorder.finish().unwrap()
}

/// The same row, by counting what the calls made.
fn recount(history: &History, input: usize) -> Row {
    let mut row = Row::default();
    for moment in history.moments() {
        let done = moment.outcome.is_ok();
        row.raises += u32::from(done && moment.record == Record::Raise(input as u8));
        row.lowers += u32::from(done && moment.record == Record::Lower(input as u8));
        for made in moment.made.iter().filter(|made| made.input == input) {
            row.asserts += u32::from(made.event.asserted);
            row.deasserts += u32::from(!made.event.asserted);
            row.returned += u32::from(made.fate == Fate::Returned);
            row.offered += u32::from(made.fate != Fate::Returned);
            row.dropped += u32::from(made.fate == Fate::Dropped);
        }
    }
    for wait in history.waits().iter().filter(|wait| wait.input == input) {
        match wait.end {
            End::Asserted(record) => row.greatest_wait = row.greatest_wait.max((record - wait.raised) as u32),
            End::Withdrawn(_) => row.withdrawn += 1,
            End::Open => row.open += 1,
        }
    }
    row
}

/// Whether the sheet is the recount, and its total the sums and the greatest wait.
fn held(trace: &Trace) -> History {
    let (sheet, history, played) = (trace.sheet(), trace.history(), trace.play());
    assert_eq!((sheet.records(), history.moments().len()), (trace.records().len(), trace.records().len()));
    let mut total = [0; COLUMNS.len()];
    for (input, row) in sheet.inputs().iter().enumerate() {
        assert_eq!(*row, recount(&history, input), "input {input}");
        for (column, (sum, number)) in total.iter_mut().zip(row.numbers()).enumerate() {
            *sum = if column == 7 { number.max(*sum) } else { *sum + number };
        }
    }
    assert_eq!(sheet.total().numbers(), total);
    assert_eq!(sheet.total().dropped, played.pic().drops());
    assert!(played.steps().map(|step| step.outcome()).eq(history.moments().iter().map(|moment| moment.outcome)));
    let last = history.moments().last().unwrap();
    assert_eq!((last.latched, last.in_service, last.waiting), (played.pic().latched(), played.pic().in_service(), played.pic().waiting()));
    // Each event has its number, in the order of making; those that were returned are told by the calls too.
    let numbers = history.moments().iter().flat_map(|moment| &moment.made).map(|made| made.event.number);
    assert!(numbers.eq((0..).map(|number: u32| number as u16).take(usize::from(played.pic().next_number()))));
    for (step, moment) in played.steps().zip(history.moments()) {
        if step.record != Record::Drain {
            assert!(step.events().eq(moment.made.iter().filter(|made| made.fate == Fate::Returned).map(|made| made.event)));
        }
    }
    let drained: Vec<_> =
        played.steps().filter(|step| step.record == Record::Drain).flat_map(|step| step.events().collect::<Vec<_>>()).collect();
    let kept = history.moments().iter().flat_map(|moment| &moment.made).filter(|made| made.fate == Fate::Kept).map(|made| made.event);
    assert!(drained.iter().copied().eq(kept.take(drained.len())));
    history
}

fn waits(records: &[Record]) -> Vec<Wait> {
    held(&day(records)).waits().to_vec()
}

#[test]
fn a_raise_that_is_announced_at_once_waits_0() {
    let records = [write(4, MASK, 0), Record::Raise(5), Record::Lower(5), Record::Raise(5)];
    assert_eq!(waits(&records)[1], Wait { input: 5, raised: 3, end: End::Asserted(3) });
    let sheet = day(&records).sheet();
    assert_eq!(*sheet.input(5).unwrap(), Row { raises: 2, lowers: 1, asserts: 2, deasserts: 1, returned: 3, ..Row::default() });
    assert!(sheet.inputs().iter().enumerate().all(|(input, row)| input == 5 || row.is_idle()));
}

#[test]
fn a_wait_ends_at_the_first_assert() {
    // Unmasked together with a lower one, it waits for its poll.
    let records = [Record::Raise(3), Record::Raise(9), Record::Raise(9), write(4, MASK, 0), Record::Drain, Record::Poll(9)];
    let three = Wait { input: 3, raised: 0, end: End::Asserted(3) };
    let nine = Wait { input: 9, raised: 1, end: End::Asserted(5) };
    assert_eq!(waits(&records), [three, nine]);
    assert_eq!((three.length(), nine.length()), (Some(3), Some(4)));
    let sheet = day(&records).sheet();
    assert_eq!((sheet.inputs()[3].offered, sheet.inputs()[9].returned, sheet.total().greatest_wait), (1, 1, 4));
}

#[test]
fn a_lowering_or_a_clear_withdraws_a_wait() {
    let lowered = [Record::Raise(40), Record::Drain, Record::Lower(40), Record::Lower(40)];
    assert_eq!(waits(&lowered), [Wait { input: 40, raised: 0, end: End::Withdrawn(2) }]);
    // A Byte of CLEAR reads as 0 around it: input 16 stays.
    let cleared = [Record::Raise(8), Record::Raise(16), write(1, CLEAR + 1, 0xff), Record::Raise(8)];
    let (open, again) = (Wait { input: 16, raised: 1, end: End::Open }, Wait { input: 8, raised: 3, end: End::Open });
    assert_eq!(waits(&cleared), [Wait { input: 8, raised: 0, end: End::Withdrawn(2) }, again, open]);
    assert_eq!((again.length(), day(&cleared).sheet().total().open), (None, 2));
    // A zero in CLEAR takes nothing.
    assert_eq!(waits(&[Record::Raise(8), write(8, CLEAR, !(1 << 8))])[0].end, End::Open);
}

#[test]
fn masking_and_isr_end_nothing() {
    let records = [
        Record::Raise(7),
        write(4, ISR, 1 << 7), // in service, and no event
        write(4, MASK, 0),
        Record::Poll(7),
        write(4, MASK, 0xffff_ffff), // a deassert
        write(4, MASK, 0),
    ];
    assert_eq!(waits(&records), [Wait { input: 7, raised: 0, end: End::Asserted(5) }]);
    // One that is in service though not latched begins no wait.
    assert_eq!(waits(&[write(4, ISR, 1 << 7), Record::Raise(7), Record::Lower(7)]), []);
}

#[test]
fn a_dropped_assert_ends_a_wait_too() {
    let mut records: Vec<_> =
        (0..16).flat_map(|input| [write(8, ISR, 1 << input), write(8, MASK, !(1 << input)), write(8, MASK, u64::MAX)]).collect();
    records.extend([Record::Raise(63), Record::Poll(63), write(4, MASK + 4, 0)]);
    assert_eq!(waits(&records), [Wait { input: 63, raised: 48, end: End::Asserted(50) }]);
    let sheet = day(&records).sheet();
    assert_eq!((sheet.inputs()[63].dropped, sheet.inputs()[63].offered, sheet.inputs()[63].greatest_wait), (1, 1, 2));
    assert_eq!(sheet.total().offered, 17);
}

#[test]
fn refused_records_count_as_none_and_keep_their_number() {
    let records = [
        Record::Raise(64),
        Record::Raise(5),
        Record::Lower(255),
        Record::Poll(64),
        write(3, MASK, 0),
        write(2, 0xffff, 0),
        write(4, MASK, 0),
    ];
    assert_eq!(waits(&records), [Wait { input: 5, raised: 1, end: End::Asserted(6) }]);
    let sheet = day(&records).sheet();
    assert_eq!(*sheet.total(), Row { raises: 1, asserts: 1, offered: 1, greatest_wait: 5, ..Row::default() });
    assert_eq!(day(&records).history().moments()[0].outcome, Err(Error::Input));
}

/// Asserts come before deasserts in each part of a write, and the last ones are dropped.
#[test]
fn the_order_within_a_write() {
    let mut records = vec![write(8, MASK, 0xffff_fff0_ffff_0000)];
    records.extend((0..16).map(Record::Raise).chain([Record::Raise(32), Record::Raise(50), Record::Raise(20)]));
    records.push(write(8, MASK, 0x0000_0001_0000_ffff)); // unmasks 16 on and 33 on, masks 0 to 15 and 32
    let history = held(&day(&records));
    let made = &history.moments().last().unwrap().made;
    let order: Vec<_> = made.iter().map(|made| (made.input, made.event.asserted)).collect();
    let wanted: Vec<_> = [(20, true)].into_iter().chain((0..16).map(|input| (input, false))).chain([(50, true), (32, false)]).collect();
    assert_eq!(order, wanted);
    assert!(made.iter().enumerate().all(|(at, made)| made.fate == if at < 16 { Fate::Kept } else { Fate::Dropped }));
    // By bytes: of a Word each byte has its own assert.
    let records = [Record::Raise(9), Record::Raise(18), write(2, MASK + 1, 0)];
    let history = held(&day(&records));
    assert!(history.moments()[2].made.iter().map(|made| (made.input, made.event.asserted)).eq([(9, true), (18, true)]));
}

/// A small generator, so that each run makes the same calls.
struct Chance(u64);

impl Chance {
    fn next(&mut self) -> u64 {
        self.0 ^= self.0 << 13;
        self.0 ^= self.0 >> 7;
        self.0 ^= self.0 << 17;
        self.0
    }

    fn record(&mut self, inputs: u64, drains: u64) -> Record {
        let offsets = [MASK, MASK + 4, CLEAR, CLEAR + 4, ISR, ISR + 4, reg::VECTORS as u16, MASK];
        let dice = self.next();
        let (input, offset) = ((dice >> 32) % inputs, offsets[(dice >> 16) as usize % 8] + (dice >> 24 & 3) as u16);
        let width = [1, 2, 4, 8, 4, 8, 4, 3][(dice >> 12) as usize % 8];
        match dice % 256 {
            0..=89 => Record::Raise(input as u8),
            90..=109 => Record::Lower(input as u8),
            110..=129 => Record::Poll(input as u8),
            130..=139 => Record::Read { offset, width },
            over if over >= 256 - drains => Record::Drain,
            // Dwords and Qwords mostly where a register stands.
            _ => write(width, if width >= 4 { offset & !3 } else { offset }, self.next() & self.next()),
        }
    }
}

#[test]
fn any_day_is_counted() {
    let mut chance = Chance(0x9e37_79b9_7f4a_7c15);
    for (records, inputs, drains) in [(1, 64, 0), (300, 70, 0), (300, 66, 40), (300, 8, 5), (1_000, 64, 20), (RECORDS_MAX, 33, 6)] {
        let records: Vec<_> = (0..records).map(|_| chance.record(inputs, drains)).collect();
        held(&day(&records));
    }
}

#[test]
fn it_is_2600_bytes() {
    assert_eq!(SHEET_LEN, 65 * 4 * COLUMNS.len());
}
