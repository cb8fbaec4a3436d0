//! A mixed day of calls: a guest's start-up, and then interrupts as a host and a guest handle them, one after another on one image, of form 1 and then with
//! numbers.
//!
//! Start-up writes 64 vector bytes, 64 route bytes and the registers, and unmasks the inputs in use. Then, out of 100 episodes: 55 are an
//! interrupt of a level input (raise, read ISR, write CLEAR, drain, lower, poll); 25 one of an edge input (raise, read ISR, write CLEAR,
//! drain); 10 a guest that masks its input while it works (raise, read ISR, read and write MASK, drain, lower, read and write MASK, poll,
//! drain); 6 a host that polls an input and drains what waits; 4 something rare (a vector set anew, a read of IRR, MASK as a Qword,
//! HTMSI_EN, or an access outside the window).

use crate::call::Call;
use crate::chance::Chance;
use crate::kinds::{BASE, LENGTH, NUMBERED, SIZE};

/// The lengths of the images that the day is made on.
pub const DAYS: [usize; 2] = [LENGTH, NUMBERED];

struct Day {
    calls: Vec<Call>,
    chance: Chance,
    // what the guest's driver believes MASK to be, its low half and its high one
    mask: [u32; 2],
}

/// The calls of a day, at least as many as are asked for, always the same ones.
pub fn calls(least: usize) -> Vec<Call> {
    let mut day = Day { calls: Vec::with_capacity(least + 16), chance: Chance::new(1), mask: [!0; 2] };
    day.start_up();
    while day.calls.len() < least {
        day.episode();
    }
    day.calls
}

/// How often each sort of call comes, by name.
pub fn shares(calls: &[Call]) -> Vec<(&'static str, usize)> {
    let sort = |call: &Call| match *call {
        Call::Reset => "reset",
        Call::Read { address, .. } if address == BASE + 0x3a0 || address == BASE + 0x3a4 => "read ISR",
        Call::Read { .. } => "other read",
        Call::Write { address, .. } if address == BASE + 0x080 || address == BASE + 0x084 => "write CLEAR",
        Call::Write { address, .. } if address == BASE + 0x020 || address == BASE + 0x024 => "write MASK",
        Call::Write { .. } => "other write",
        Call::Level { level: 0, .. } => "lower",
        Call::Level { .. } => "raise",
        Call::Poll { .. } => "poll",
        Call::Drain { .. } => "drain",
        Call::Convert { .. } => "convert",
    };
    let mut shares: Vec<(&str, usize)> = Vec::new();
    for call in calls {
        match shares.iter_mut().find(|share| share.0 == sort(call)) {
            Some(share) => share.1 += 1,
            None => shares.push((sort(call), 1)),
        }
    }
    shares.sort_by_key(|share| std::cmp::Reverse(share.1));
    shares
}

impl Day {
    fn read(&mut self, offset: u64, width: u64) {
        self.calls.push(Call::Read { base: BASE, size: SIZE, address: BASE + offset, width });
    }

    fn write(&mut self, offset: u64, width: u64, value: u64) {
        self.calls.push(Call::Write { base: BASE, size: SIZE, address: BASE + offset, width, value });
    }

    fn level(&mut self, input: u64, level: u64) {
        self.calls.push(Call::Level { input, level });
    }

    fn poll(&mut self, input: u64) {
        self.calls.push(Call::Poll { input });
    }

    fn drain(&mut self) {
        self.calls.push(Call::Drain { place: 0 });
    }

    /// A Dword register's half for this input, and the input's bit there.
    fn place(offset: u64, input: u64) -> (u64, u64) {
        (offset + 4 * (input / 32), 1 << (input % 32))
    }

    fn start_up(&mut self) {
        self.calls.push(Call::Reset);
        for input in 0..64 {
            self.write(0x200 + input, 1, 0x40 + input);
            self.write(0x100 + input, 1, 1);
        }
        for half in [0, 4] {
            for (offset, value) in [(0x020, 0xffff_ffff), (0x080, 0xffff_ffff), (0x0c0, 0), (0x0e0, 0), (0x040, 0xffff_ffff)] {
                self.write(offset + half, 4, value);
            }
        }
        for input in INPUTS {
            self.set_masked(input, false);
            self.drain();
        }
    }

    fn set_masked(&mut self, input: u64, masked: bool) {
        let (offset, bit) = Self::place(0x020, input);
        let half = &mut self.mask[input as usize / 32];
        *half = if masked { *half | bit as u32 } else { *half & !(bit as u32) };
        let value = u64::from(*half);
        self.read(offset, 4);
        self.write(offset, 4, value);
    }

    fn episode(&mut self) {
        let input = self.chance.one_of(&INPUTS);
        let (isr, _) = Self::place(0x3a0, input);
        let (clear, bit) = Self::place(0x080, input);
        match self.chance.below(100) {
            0..55 => {
                self.level(input, 1);
                self.read(isr, 4);
                self.write(clear, 4, bit);
                self.drain();
                self.level(input, 0);
                self.poll(input);
            }
            55..80 => {
                self.level(input, 1);
                self.read(isr, 4);
                self.write(clear, 4, bit);
                self.drain();
            }
            80..90 => {
                self.level(input, 1);
                self.read(isr, 4);
                self.set_masked(input, true);
                self.drain();
                self.level(input, 0);
                self.set_masked(input, false);
                self.poll(input);
                self.drain();
            }
            90..96 => {
                self.poll(input);
                self.drain();
            }
            _ => self.rare(input),
        }
    }

    fn rare(&mut self, input: u64) {
        match self.chance.below(5) {
            0 => self.write(0x200 + input, 1, 0x40 + input),
            1 => self.read(0x380, 4),
            2 => self.read(0x020, 8),
            3 => self.write(0x040, 4, 0xffff_ffff),
            _ => self.read(SIZE, 4),
        }
    }
}

/// The inputs in use: serial line, clock, and those of the PCI slots.
const INPUTS: [u64; 8] = [2, 16, 17, 18, 19, 33, 34, 40];
