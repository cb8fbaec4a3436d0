//! The known differences between the published Rust and the library, each shown by a run on its smallest input: for docs/DIFFERENCES.md.
//! What the Rust does is asked of the Rust itself here, and not of the expected side, which has 01's rules in their place.

use crate::call::Call;
use crate::caught::caught;
use crate::image::ONE;
use crate::lent::Areas;
use crate::under_test;
use oracle::{AccessWidth, GuestPhysAddr, LoongArchPchPic};

pub fn show() {
    straddling();
    inputs_from_64();
    drops();
    draining();
}

/// The Rust's device with a window over all addresses, from reset.
fn device() -> LoongArchPchPic {
    LoongArchPchPic::new(GuestPhysAddr::from_usize(0), usize::MAX)
}

/// The library, from reset.
struct Library(Areas);

impl Library {
    fn new() -> Self {
        let mut areas = Areas::new();
        (areas.image.len, areas.answer.len, areas.events.len) = (ONE.length, 16, 64);
        let mut library = Library(areas);
        library.call(Call::Reset);
        library
    }

    /// The call's number and value in words.
    fn call(&mut self, call: Call) -> String {
        let number = under_test::call(&call, &mut self.0);
        let answer = self.0.answer.bytes();
        match (number, answer[1]) {
            (0, 1) => format!("{:#x}", u64::from_le_bytes(answer[8..16].try_into().unwrap())),
            (0, _) => "done, no value".into(),
            (number, _) => format!("refusal {number}"),
        }
    }

    fn waiting(&self) -> u8 {
        self.0.image.bytes()[ONE.count]
    }

    fn dropped(&self) -> u8 {
        self.0.image.bytes()[ONE.drops]
    }
}

fn straddling() {
    println!("Accesses over the window's end, from reset:");
    const ALL: usize = usize::MAX;
    let accesses = [
        (1, 0, AccessWidth::Word, 2),
        (0x400, 0x3fc, AccessWidth::Qword, 8),
        (ALL, ALL - 7, AccessWidth::Qword, 8),
        (ALL, ALL - 3, AccessWidth::Qword, 8),
    ];
    for (size, address, width, bytes) in accesses {
        let (mut device, mut library) = (device(), Library::new());
        device.set_window(0, size);
        let read = match caught(|| device.read_register(GuestPhysAddr::from_usize(address), width)) {
            Ok(Ok(value)) => format!("{value:#x}"),
            Ok(Err(_)) => "outside".into(),
            Err(words) => format!("panics, '{words}'"),
        };
        let ours = library.call(Call::Read { base: 0, size: size as u64, address: address as u64, width: bytes });
        println!("  base 0, size {size:#x}, {bytes} bytes at {address:#x}: Rust: {read}; library: {ours}");
    }
}

fn inputs_from_64() {
    println!("Inputs from 64 up, from reset:");
    let (device, mut library) = (device(), Library::new());
    for input in [63, 64, usize::MAX] {
        let rust = (device.pending_vector(input), device.set_irq_level(input, true), device.set_irq_level(input, false));
        let calls = [
            Call::Poll { input: input as u64 },
            Call::Level { input: input as u64, level: 1 },
            Call::Level { input: input as u64, level: 0 },
        ];
        let [poll, raise, lower] = calls.map(|call| library.call(call));
        println!("  input {input:#x}: Rust: poll {:?}, raise {:?}, lower {:?}; library: {poll}, {raise}, {lower}", rust.0, rust.1, rust.2);
    }
}

fn drops() {
    println!("Seventeen events for a ring of sixteen (M12):");
    let (device, mut library) = (device(), Library::new());
    let mut write = |value: u64| {
        device.write_register(GuestPhysAddr::from_usize(0x020), AccessWidth::Dword, value as usize).expect("an address inside");
        library.call(Call::Write { base: 0, size: u64::MAX, address: 0x020, width: 4, value });
        if value == 0 {
            for input in 0..=16 {
                device.set_irq_level(input, true);
                library.call(Call::Level { input: input as u64, level: 1 });
            }
        }
    };
    oracle::take_warnings();
    write(0);
    write(0xffff_ffff);
    println!(
        "  Rust: {} wait, {} warnings in the log, no count; library: {} wait, drop count {}",
        device.plain().output_len,
        oracle::take_warnings(),
        library.waiting(),
        library.dropped()
    );
}

fn draining() {
    println!("Two events wait, and there is room for one:");
    let (device, mut library) = (device(), Library::new());
    for input in [0, 1] {
        device.set_irq_level(input, true);
        library.call(Call::Level { input: input as u64, level: 1 });
        let value = !(1u32 << input) as u64;
        device.write_register(GuestPhysAddr::from_usize(0x020), AccessWidth::Dword, value as usize).expect("an address inside");
        library.call(Call::Write { base: 0, size: u64::MAX, address: 0x020, width: 4, value });
        device.set_irq_level(input, false);
        library.call(Call::Level { input: input as u64, level: 0 });
    }
    let waited = (device.plain().output_len, library.waiting());
    let mut moved = 0;
    device.drain_output_events(|_| moved += 1);
    let drained = library.call(Call::Drain { place: 60 });
    println!("  Rust: {} wait, a drain calls its closure {moved} times; library: {} wait, a drain moves {drained}", waited.0, waited.1);
}
