// The pass over a day's records, for cells of four bytes or eight: `Cell` is the number, and `BYTES` what it has. Included by sheet.rs once for each.

// The columns of a row.
const RAISES: usize = 0;
const LOWERS: usize = 1;
const ASSERTS: usize = 2;
const DEASSERTS: usize = 3;
const RETURNED: usize = 4;
const OFFERED: usize = 5;
const DROPPED: usize = 6;
const GREATEST: usize = 7;
const WITHDRAWN: usize = 8;
pub const OPEN: usize = 9;

pub type Row = [[u8; BYTES]; 10];

#[inline(always)]
pub fn cell(row: &Row, column: usize) -> Cell {
    Cell::from_le_bytes(row[column])
}

#[inline(always)]
fn add(row: &mut Row, column: usize, more: Cell) {
    row[column] = (cell(row, column) + more).to_le_bytes();
}

/// A day so far.
pub struct Day<'a> {
    pub rows: &'a mut [Row; 65],
    pub mask: u64,
    pub irr: u64,
    pub isr: u64,
    pub waiting: u32,
    pub record: Cell,
}

impl Day<'_> {
    #[inline(always)]
    fn assert(&mut self, input: usize, returned: bool) {
        let row = &mut self.rows[input];
        let since = cell(row, OPEN);
        if since != 0 {
            row[GREATEST] = cell(row, GREATEST).max(self.record + 1 - since).to_le_bytes();
            row[OPEN] = [0; BYTES];
        }
        add(row, ASSERTS, 1);
        self.told(input, returned);
    }

    #[inline(always)]
    fn told(&mut self, input: usize, returned: bool) {
        let row = &mut self.rows[input];
        if returned {
            return add(row, RETURNED, 1);
        }
        add(row, OFFERED, 1);
        if self.waiting == 16 { add(row, DROPPED, 1) } else { self.waiting += 1 }
    }

    #[inline(always)]
    fn withdraw(&mut self, input: usize) {
        let row = &mut self.rows[input];
        if cell(row, OPEN) != 0 {
            row[OPEN] = [0; BYTES];
            add(row, WITHDRAWN, 1);
        }
    }

    #[inline(always)]
    fn assert_lowest(&mut self, inputs: u64, returned: bool) {
        let pending = inputs & self.irr & !self.mask & !self.isr;
        if pending != 0 {
            self.isr |= pending & pending.wrapping_neg();
            self.assert(pending.trailing_zeros() as usize, returned);
        }
    }

    #[inline(always)]
    fn retract(&mut self, inputs: u64, returned: bool) {
        let mut left = self.isr & inputs;
        self.isr &= !inputs;
        while left != 0 {
            let input = left.trailing_zeros() as usize;
            add(&mut self.rows[input], DEASSERTS, 1);
            self.told(input, returned);
            left &= left - 1;
        }
    }

    #[inline(always)]
    fn raise(&mut self, input: usize) {
        let row = &mut self.rows[input];
        add(row, RAISES, 1);
        if (self.irr | self.isr) >> input & 1 == 0 {
            row[OPEN] = (self.record + 1).to_le_bytes();
        }
        self.irr |= 1 << input;
        self.assert_lowest(1 << input, true);
    }

    #[inline(always)]
    fn lower(&mut self, input: usize) {
        add(&mut self.rows[input], LOWERS, 1);
        self.irr &= !(1 << input);
        self.withdraw(input);
        self.retract(1 << input, true);
    }

    #[inline(always)]
    fn write_dword(&mut self, offset: u64, value: u32) {
        let shift = 8 * (offset & 4);
        let (placed, kept) = (u64::from(value) << shift, !(0xffff_ffff << shift));
        match offset & !4 {
            0x020 => {
                let old = self.mask;
                self.mask = old & kept | placed;
                self.assert_lowest(old & !self.mask, false);
                self.retract(!old & self.mask, false);
            }
            0x080 => {
                // only a latched input can wait; but in a tally that was lent with another image than its own any can
                let mut left = if BYTES == 8 { placed } else { placed & self.irr };
                while left != 0 {
                    self.withdraw(left.trailing_zeros() as usize);
                    left &= left - 1;
                }
                self.irr &= !placed;
                self.retract(placed, false);
            }
            0x3a0 => self.isr = self.isr & kept | placed,
            _ => {}
        }
    }

    #[inline(always)]
    fn write_byte(&mut self, offset: u64, value: u8) {
        let register = match offset & !7 {
            0x020 => self.mask,
            0x080 => 0,
            0x3a0 => self.isr & !self.mask,
            _ => return,
        };
        let shift = 8 * (offset & 7);
        let bytes = register & !(0xff << shift) | u64::from(value) << shift;
        self.write_dword(offset & !3, (bytes >> (8 * (offset & 4))) as u32);
    }

    #[inline(always)]
    fn write(&mut self, width: u64, offset: u64, value: u64) {
        match width {
            1 => self.write_byte(offset, value as u8),
            2 => {
                self.write_byte(offset, value as u8);
                self.write_byte(offset + 1, (value >> 8) as u8);
            }
            4 => self.write_dword(offset, value as u32),
            _ => {
                self.write_dword(offset, value as u32);
                self.write_dword(offset + 4, (value >> 32) as u32);
            }
        }
    }

    /// The call that a record is; a refused one does nothing.
    #[inline(always)]
    pub fn take(&mut self, record: &[u8; 16]) {
        let (byte, offset) = (u64::from(record[1]), u64::from(number(record, 2)));
        match record[0] {
            1 if byte < 64 => self.raise(byte as usize),
            2 if byte < 64 => self.lower(byte as usize),
            3 if byte < 64 => self.assert_lowest(1 << byte, true),
            1..=4 => {}
            5 => {
                if let Ok(offset) = offset_of(0, 0x1_0000, offset, byte) {
                    self.write(byte, offset, word(record, 8));
                }
            }
            _ => self.waiting = 0,
        }
    }

    /// The column of open waits, and the total.
    #[inline(always)]
    pub fn end(&mut self) {
        let [rows @ .., total] = self.rows;
        let mut sums = [0; 10];
        for row in rows {
            row[OPEN] = Cell::from(cell(row, OPEN) != 0).to_le_bytes();
            for (column, sum) in sums.iter_mut().enumerate() {
                *sum = if column == GREATEST { cell(row, column).max(*sum) } else { cell(row, column).wrapping_add(*sum) };
            }
        }
        *total = sums.map(Cell::to_le_bytes);
    }
}
