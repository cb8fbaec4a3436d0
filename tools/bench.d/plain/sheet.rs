//! The sheet of a day (02, C-21), and the tally of several traces: the device's lines are kept as words, the rows as a struct that is written out at the end.

use std::ops::{Add, AddAssign, Sub};

use super::{Outcome, Refusal, State, Width, broken, fields, input_of, looked, offset_of, records_of, told};

// The columns of a row.
const RAISES: usize = 0;
const LOWERS: usize = 1;
const ASSERTS: usize = 2;
const DEASSERTS: usize = 3;
const RETURNED: usize = 4;
const OFFERED: usize = 5;
const DROPPED: usize = 6;
const GREATEST: usize = 7;
const WITHDRAWN: usize = 8;
const OPEN: usize = 9;

/// A number of four bytes or eight.
trait Number: Copy + Ord + From<u8> + Add<Output = Self> + AddAssign + Sub<Output = Self> {}

impl Number for u32 {}
impl Number for u64 {}

/// A day so far.
struct Day<N> {
    mask: u64,
    irr: u64,
    isr: u64,
    waiting: u32,
    /// The number of the record.
    record: N,
    rows: [[N; 10]; 64],
    /// The record at which an input's wait began that is not over.
    since: [Option<N>; 64],
}

impl<N: Number> Day<N> {
    fn event(&mut self, input: usize, asserted: bool, returned: bool) {
        let row = &mut self.rows[input];
        row[if asserted { ASSERTS } else { DEASSERTS }] += N::from(1);
        if returned {
            row[RETURNED] += N::from(1);
        } else {
            row[OFFERED] += N::from(1);
            if self.waiting == 16 {
                row[DROPPED] += N::from(1);
            } else {
                self.waiting += 1;
            }
        }
        if asserted && let Some(since) = self.since[input].take() {
            row[GREATEST] = row[GREATEST].max(self.record - since);
        }
    }

    fn withdraw(&mut self, input: usize) {
        if self.since[input].take().is_some() {
            self.rows[input][WITHDRAWN] += N::from(1);
        }
    }

    /// The lowest of these inputs that is latched, unmasked and not in service goes into service.
    fn assert_lowest(&mut self, inputs: u64, returned: bool) {
        let pending = inputs & self.irr & !self.mask & !self.isr;
        if pending != 0 {
            let input = pending.trailing_zeros() as usize;
            self.isr |= 1 << input;
            self.event(input, true, returned);
        }
    }

    /// Those of these inputs that are in service leave it.
    fn retract(&mut self, inputs: u64, returned: bool) {
        let mut left = self.isr & inputs;
        self.isr &= !inputs;
        while left != 0 {
            self.event(left.trailing_zeros() as usize, false, returned);
            left &= left - 1;
        }
    }

    fn raise(&mut self, input: usize) {
        self.rows[input][RAISES] += N::from(1);
        if (self.irr | self.isr) >> input & 1 == 0 {
            self.since[input] = Some(self.record);
        }
        self.irr |= 1 << input;
        self.assert_lowest(1 << input, true);
    }

    fn lower(&mut self, input: usize) {
        self.rows[input][LOWERS] += N::from(1);
        self.irr &= !(1 << input);
        self.withdraw(input);
        self.retract(1 << input, true);
    }

    fn write_mask(&mut self, new: u64) {
        let old = std::mem::replace(&mut self.mask, new);
        self.assert_lowest(old & !new, false);
        self.retract(!old & new, false);
    }

    fn clear(&mut self, inputs: u64) {
        let mut left = inputs;
        while left != 0 {
            self.withdraw(left.trailing_zeros() as usize);
            left &= left - 1;
        }
        self.irr &= !inputs;
        self.retract(inputs, false);
    }

    /// Of all registers only MASK, CLEAR and ISR move the lines.
    fn write_dword(&mut self, offset: u64, value: u32) {
        let (kept, placed) = if offset & 4 == 0 { (!0 << 32, u64::from(value)) } else { (!0 >> 32, u64::from(value) << 32) };
        match offset & !4 {
            0x020 => self.write_mask(self.mask & kept | placed),
            0x080 => self.clear(placed),
            0x3a0 => self.isr = self.isr & kept | placed,
            _ => {}
        }
    }

    /// A byte is written with the Dword that is read around it; CLEAR reads 0.
    fn write_byte(&mut self, offset: u64, value: u8) {
        let register = match offset & !7 {
            0x020 => self.mask,
            0x080 => 0,
            0x3a0 => self.isr & !self.mask,
            _ => return,
        };
        let mut bytes = register.to_le_bytes();
        bytes[(offset & 7) as usize] = value;
        let half = offset as usize & 4;
        self.write_dword(offset & !3, u32::from_le_bytes(bytes[half..half + 4].try_into().unwrap()));
    }

    fn write(&mut self, width: Width, offset: u64, value: u64) {
        match width {
            Width::Byte => self.write_byte(offset, value as u8),
            Width::Word => {
                self.write_byte(offset, value as u8);
                self.write_byte(offset + 1, (value >> 8) as u8);
            }
            Width::Dword => self.write_dword(offset, value as u32),
            Width::Qword => {
                self.write_dword(offset, value as u32);
                self.write_dword(offset + 4, (value >> 32) as u32);
            }
        }
    }

    /// The call that a record is; a refused one does nothing.
    fn take(&mut self, record: &[u8; 16]) -> Result<(), Refusal> {
        let (kind, byte, offset, _, value) = fields(record);
        match kind {
            1 => self.raise(input_of(byte)?),
            2 => self.lower(input_of(byte)?),
            3 => self.assert_lowest(1 << input_of(byte)?, true),
            4 => {}
            5 => self.write(Width::of(byte)?, offset_of(0, 0x1_0000, offset, byte)?, value),
            _ => self.waiting = 0,
        }
        Ok(())
    }

    /// All records; a refused one counts as none.
    fn follow(&mut self, records: &[[u8; 16]]) {
        for record in records {
            let _ = self.take(record);
            self.record += N::from(1);
        }
    }
}

impl Day<u32> {
    /// The rows, and the total behind them.
    fn put(&mut self, sheet: &mut [u8; 2600]) {
        let mut total = [0; 10];
        let (rows, _) = sheet.as_chunks_mut::<40>();
        for (input, row) in self.rows.iter_mut().enumerate() {
            row[OPEN] = u32::from(self.since[input].is_some());
            for (column, &cell) in row.iter().enumerate() {
                total[column] = if column == GREATEST { cell.max(total[column]) } else { cell + total[column] };
            }
        }
        for (to, row) in rows.iter_mut().zip(self.rows.iter().chain([&total])) {
            for (to, cell) in to.chunks_exact_mut(4).zip(row) {
                to.copy_from_slice(&cell.to_le_bytes());
            }
        }
    }
}

#[inline(never)]
pub fn sheet(trace: &[u8], sheet: &mut [u8], answer: &mut [u8]) -> u8 {
    let (Some(answer), Some(sheet)) = (answer.first_chunk_mut(), sheet.first_chunk_mut()) else { return 7 };
    let records = match records_of(trace) {
        Ok(records) => records,
        Err(refused) => return told(answer, Err(refused)),
    };
    let mut day = Day { mask: !0, irr: 0, isr: 0, waiting: 0, record: 0, rows: [[0; 10]; 64], since: [None; 64] };
    day.follow(records);
    day.put(sheet);
    told(answer, Ok(Some(records.len() as u64)))
}

/// The 650 numbers of a tally; or 17 and the place of the first that none can have.
fn numbers_of(tally: &[u8; 5200]) -> Result<[u64; 650], Refusal> {
    let mut numbers = [0; 650];
    for (number, bytes) in numbers.iter_mut().zip(tally.as_chunks().0) {
        *number = u64::from_le_bytes(*bytes);
    }
    let counted = numbers[640];
    match (0..650).find(|&k| numbers[k] >> 63 != 0 || (k % 10 == OPEN && k < 640 && numbers[k] > counted)) {
        Some(k) => Err(broken(17, 8 * k)),
        None => Ok(numbers),
    }
}

fn put_numbers(numbers: &[u64; 650], to: &mut [u8; 5200]) {
    for (number, bytes) in numbers.iter().zip(to.as_chunks_mut().0) {
        *bytes = number.to_le_bytes();
    }
}

/// The records of the trace counted, from the state on.
fn add_to(tally: &mut [u8; 5200], trace: &[u8], state: &State) -> Outcome {
    let records = records_of(trace)?;
    let mut numbers = numbers_of(tally)?;
    let &State { mask, irr, isr, waiting, .. } = state;
    let mut day = Day { mask, irr, isr, waiting: waiting as u32, record: numbers[640], rows: [[0; 10]; 64], since: [None; 64] };
    for (input, row) in day.rows.iter_mut().enumerate() {
        row.copy_from_slice(&numbers[10 * input..10 * input + 10]);
        day.since[input] = row[OPEN].checked_sub(1);
    }
    day.follow(records);
    for (input, row) in day.rows.iter().enumerate() {
        numbers[10 * input..10 * input + 10].copy_from_slice(row);
        numbers[10 * input + OPEN] = day.since[input].map_or(0, |since| since + 1);
    }
    numbers[640] = day.record;
    put_numbers(&numbers, tally);
    Ok(None)
}

#[inline(never)]
pub fn tally_add(trace: &[u8], image: &[u8], tally: &mut [u8], answer: &mut [u8]) -> u8 {
    let (Some(answer), Some(tally)) = (answer.first_chunk_mut(), tally.first_chunk_mut()) else { return 7 };
    told(answer, looked(image, |state| add_to(tally, trace, state)))
}

#[inline(never)]
pub fn tally_sheet(tally: &[u8], sheet: &mut [u8], answer: &mut [u8]) -> u8 {
    let (Some(answer), Some(tally), Some(sheet)) = (answer.first_chunk_mut(), tally.first_chunk(), sheet.first_chunk_mut()) else {
        return 7;
    };
    let mut numbers = match numbers_of(tally) {
        Ok(numbers) => numbers,
        Err(refused) => return told(answer, Err(refused)),
    };
    let (rows, total) = numbers.split_at_mut(640);
    total.fill(0);
    for row in rows.chunks_exact_mut(10) {
        row[OPEN] = u64::from(row[OPEN] != 0);
        for (column, (sum, &cell)) in total.iter_mut().zip(&*row).enumerate() {
            *sum = if column == GREATEST { cell.max(*sum) } else { cell.wrapping_add(*sum) };
        }
    }
    put_numbers(&numbers, sheet);
    told(answer, Ok(None))
}
