//! A lift of a hoist guest under the hoist profile, told in plain words; hosts/c/lift.c tells the same.

#[macro_use]
mod common;

use pch_pic::{reg, Change, Error, Hoist, Width, Window, Wires};

const WINDOW: Window = Window::at(0x1000_0000);
const SAMPLE: u64 = 21;
const FIRST_VECTOR: u64 = 0x40;

/// The host's side: the device with its phase, and its wires.
struct Host {
    hoist: Hoist,
    wires: Wires,
}

/// A real host asserts or deasserts the vector at its CPUs here.
fn route(change: Change) {
    say!("  {change}");
}

impl Host {
    fn guest_reads(&self, offset: u64) -> Result<u64, Error> {
        self.hoist.read(WINDOW, WINDOW.base + offset, Width::Dword)
    }

    fn guest_writes(&mut self, offset: u64, value: u64) -> Result<(), Error> {
        self.hoist.write(WINDOW, WINDOW.base + offset, Width::Dword, value)?;
        self.wires.settle(&mut self.hoist, route);
        Ok(())
    }

    /// What the profile refuses changes nothing, so the host has nothing to settle: it tells the guest, or stops it.
    fn tries(&mut self, what: &str, offset: u64, width: Width, value: u64) {
        if let Err(error) = self.hoist.write(WINDOW, WINDOW.base + offset, width, value) {
            say!("The guest tries {what}: refused with {}, {error}.", error.number());
        }
    }

    fn ends_startup(&mut self) {
        match self.hoist.end_startup() {
            Ok(()) => say!("The guest says that start-up is over."),
            Err(error) => say!("The guest says that start-up is over: refused with {}, {error}.", error.number()),
        }
    }

    fn line(&mut self, high: bool) -> Result<(), Error> {
        self.wires.line(&mut self.hoist, SAMPLE, high, route)
    }

    /// Four vectors a write, low input first, then everything masked and cleared.
    fn start_up(&mut self) -> Result<(), Error> {
        say!("The guest starts up: vectors and routes four at a time, all inputs masked and cleared.");
        for input in (0..64).step_by(4) {
            let first = FIRST_VECTOR + input;
            self.guest_writes(reg::VECTORS + input, first | (first + 1) << 8 | (first + 2) << 16 | (first + 3) << 24)?;
            self.guest_writes(reg::ROUTES + input, 0x0101_0101)?;
        }
        for half in [0, reg::HIGH] {
            for register in [reg::MASK, reg::CLEAR, reg::HTMSI_EN] {
                self.guest_writes(register + half, 0xffff_ffff)?;
            }
        }
        Ok(())
    }

    /// A sample that comes too early: its input is in service, and so start-up cannot end, nor can its vector change.
    fn early_sample(&mut self) -> Result<(), Error> {
        say!("It unmasks input {SAMPLE}, and a load sample is ready at once: line {SAMPLE} goes up.");
        self.guest_writes(reg::MASK, 0xffff_ffff & !(1 << SAMPLE))?;
        self.line(true)?;
        self.ends_startup();
        self.tries("to change its vector", reg::VECTORS + SAMPLE - SAMPLE % 4, Width::Dword, 0);
        self.tries("to write a Byte", reg::EDGE, Width::Byte, 0);
        say!("It takes the sample; the line goes down.");
        self.line(false)
    }

    fn lift(&mut self) -> Result<(), Error> {
        say!("The hook goes up.");
        for sample in 1..=3 {
            say!("Load sample {sample}: line {SAMPLE} goes up.");
            self.line(true)?;
            say!("The guest reads ISR {:#010x} and takes it; the line goes down.", self.guest_reads(reg::ISR)?);
            self.line(false)?;
        }
        Ok(())
    }
}

fn main() -> Result<(), Error> {
    let mut host = Host { hoist: Hoist::new(), wires: Wires::new() };
    host.start_up()?;
    host.early_sample()?;
    host.ends_startup();
    host.ends_startup();
    host.tries("to write a vector as it stands", reg::VECTORS, Width::Dword, 0x4342_4140);
    host.tries("to write ISR", reg::ISR, Width::Dword, 0);
    host.lift()?;
    let (pic, _) = host.hoist.into_parts();
    say!("Vectors left on: {}. The next event gets number {}.", host.wires.vectors_on().count(), pic.next_number());
    Ok(())
}
