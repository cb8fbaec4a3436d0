//! What 02, C-21, expects of the sheet of a trace: its records' calls are made on the device of the published Rust, a wide write part by part, and the sheet is counted from what
//! each changed. Written from that text, apart from the code under test.

use crate::boundary::Boundary;
use crate::call::Call;
use crate::image::{self, NUMBERED};
use crate::told::tell;
use crate::trace::{self, Record};

/// 65 rows, the inputs' and the total, of ten numbers of four bytes.
pub const LENGTH: usize = 65 * 40;

/// One input's day, or the total, in the order of its bytes.
#[derive(Clone, Copy, Debug, Default, PartialEq, Eq)]
pub struct Row {
    pub raises: u64,
    pub lowers: u64,
    pub asserts: u64,
    pub deasserts: u64,
    pub returned: u64,
    pub offered: u64,
    pub dropped: u64,
    pub wait: u64,
    pub withdrawn: u64,
    pub open: u64,
}

impl Row {
    pub fn numbers(&self) -> [u64; 10] {
        let Row { raises, lowers, asserts, deasserts, returned, offered, dropped, wait, withdrawn, open } = *self;
        [raises, lowers, asserts, deasserts, returned, offered, dropped, wait, withdrawn, open]
    }

    fn made(&mut self, assert: bool) {
        if assert {
            self.asserts += 1;
        } else {
            self.deasserts += 1;
        }
    }

    /// Totals are column sums, of which eight bytes hold the low bits, and the maximum for the wait.
    pub fn with(self, other: Row) -> Row {
        Row {
            raises: self.raises.wrapping_add(other.raises),
            lowers: self.lowers.wrapping_add(other.lowers),
            asserts: self.asserts.wrapping_add(other.asserts),
            deasserts: self.deasserts.wrapping_add(other.deasserts),
            returned: self.returned.wrapping_add(other.returned),
            offered: self.offered.wrapping_add(other.offered),
            dropped: self.dropped.wrapping_add(other.dropped),
            wait: self.wait.max(other.wait),
            withdrawn: self.withdrawn.wrapping_add(other.withdrawn),
            open: self.open.wrapping_add(other.open),
        }
    }

    /// Whether it has an open wait.
    pub fn shut(mut self, since: Option<u64>) -> Row {
        self.open = u64::from(since.is_some());
        self
    }
}

pub fn sheet(boundary: &mut Boundary, trace: &[u8], sheet: &mut [u8], answer: &mut [u8]) -> u8 {
    if answer.len() < 16 || sheet.len() < LENGTH {
        return 7;
    }
    let records = match trace::test(trace) {
        Ok(records) => records,
        Err((number, value)) => return tell(answer, number, value),
    };
    let bytes: Vec<u8> = rows(boundary, &records).iter().flat_map(Row::numbers).flat_map(|number| (number as u32).to_le_bytes()).collect();
    sheet[..LENGTH].copy_from_slice(&bytes);
    tell(answer, 0, Some(records.len() as u64))
}

/// The rows of a day from reset: inputs 0 to 63, and the total.
pub fn rows(boundary: &mut Boundary, records: &[Record]) -> Vec<Row> {
    let mut day = Day { boundary, image: vec![0; NUMBERED.length], rows: [Row::default(); 64], since: [None; 64] };
    day.perform(&Call::Reset);
    day.records(0, records);
    let rows: Vec<Row> = day.rows.into_iter().zip(day.since).map(|(row, since)| row.shut(since)).collect();
    let total = rows.iter().copied().fold(Row::default(), Row::with);
    rows.into_iter().chain([total]).collect()
}

/// The day so far, and for each input the record of the raise that waits for its assert. The image has numbers, which tell how many events a write makes.
pub struct Day<'a> {
    pub boundary: &'a mut Boundary,
    pub image: Vec<u8>,
    pub rows: [Row; 64],
    pub since: [Option<u64>; 64],
}

impl Day<'_> {
    /// The records of a trace, the first of which has this number in the day.
    pub fn records(&mut self, first: u64, records: &[Record]) {
        for (at, record) in (first..).zip(records) {
            self.record(at, &trace::call(record, 0));
        }
    }

    /// The value of a done call, and whether there is one; nothing of a refused one.
    fn perform(&mut self, call: &Call) -> Option<(u64, bool)> {
        let mut answer = [0; 16];
        let number = self.boundary.perform(call, &mut self.image, &mut answer, &mut [0; trace::ROOM], &mut []);
        let value = u64::from_le_bytes(answer[8..].try_into().expect("a value has 8 bytes"));
        (number == 0).then_some((value, answer[1] == 1))
    }

    /// IRR, ISR, and the number of the next event.
    fn state(&self) -> (u64, u64, u16) {
        let plain = image::decode(&self.image, 0).0;
        (plain.intirr, plain.intisr, image::numbers(&self.image).next)
    }

    fn record(&mut self, at: u64, call: &Call) {
        let (irr, isr, _) = self.state();
        match *call {
            Call::Write { base, size, address, width, value } => {
                // a refused write counts as none; a read of the same bytes is refused as it is
                if self.perform(&Call::Read { base, size, address, width }).is_some() {
                    for (address, width, value) in parts(address, width, value) {
                        self.part(at, &Call::Write { base, size, address, width, value });
                        self.withdraw(cleared(address - base, width, value));
                    }
                }
            }
            Call::Level { input, level } => {
                let Some((_, returned)) = self.perform(call) else { return };
                let n = input as usize;
                if level == 0 {
                    self.rows[n].lowers += 1;
                    self.withdraw(1 << n);
                } else {
                    self.rows[n].raises += 1;
                    if (irr | isr) & (1 << n) == 0 {
                        self.since[n] = Some(at);
                    }
                }
                if returned {
                    self.returned(at, n, level != 0);
                }
            }
            Call::Poll { input } => {
                if let Some((_, true)) = self.perform(call) {
                    self.returned(at, input as usize, true);
                }
            }
            _ => {
                self.perform(call);
            }
        }
    }

    fn returned(&mut self, at: u64, input: usize, assert: bool) {
        self.rows[input].returned += 1;
        self.event(at, input, assert);
    }

    fn event(&mut self, at: u64, input: usize, assert: bool) {
        self.rows[input].made(assert);
        if assert && let Some(raised) = self.since[input].take() {
            self.rows[input].wait = self.rows[input].wait.max(at - raised);
        }
    }

    /// A Byte or Dword write: the inputs that went into service were asserted, then those that left it deasserted, lowest first, and the last of these were dropped. A write of ISR
    /// makes no event.
    fn part(&mut self, at: u64, call: &Call) {
        let (_, isr, next) = self.state();
        let (dropped, _) = self.perform(call).expect("a part of a write that is inside is inside");
        let (_, after, later) = self.state();
        let made = usize::from(later.wrapping_sub(next));
        if made == 0 {
            return;
        }
        let inputs = |bits: u64| (0..64).filter(move |n| bits & (1 << n) != 0);
        let on = inputs(after & !isr).map(|n| (n, true));
        let events: Vec<(usize, bool)> = on.chain(inputs(isr & !after).map(|n| (n, false))).collect();
        assert_eq!(events.len(), made, "each event is of an input whose service changed");
        for (k, &(input, assert)) in events.iter().enumerate() {
            self.rows[input].offered += 1;
            self.rows[input].dropped += u64::from(k as u64 + dropped >= made as u64);
            self.event(at, input, assert);
        }
    }

    /// CLEAR or a lowering came before the assert.
    fn withdraw(&mut self, bits: u64) {
        for (n, (row, since)) in self.rows.iter_mut().zip(&mut self.since).enumerate() {
            if bits & (1 << n) != 0 && since.take().is_some() {
                row.withdrawn += 1;
            }
        }
    }
}

/// 01: a Word is two Bytes, a Qword two Dwords, low first.
fn parts(address: u64, width: u64, value: u64) -> Vec<(u64, u64, u64)> {
    match width {
        2 => vec![(address, 1, value & 0xff), (address + 1, 1, value >> 8 & 0xff)],
        8 => vec![(address, 4, value & 0xffff_ffff), (address + 4, 4, value >> 32)],
        _ => vec![(address, width, value)],
    }
}

/// The bits that a Byte or Dword writes to CLEAR, which reads as 0.
fn cleared(offset: u64, width: u64, value: u64) -> u64 {
    match (offset, width) {
        (0x080..0x088, 1) => (value & 0xff) << (8 * (offset - 0x080)),
        (0x080 | 0x084, 4) => (value & 0xffff_ffff) << (8 * (offset - 0x080)),
        _ => 0,
    }
}
