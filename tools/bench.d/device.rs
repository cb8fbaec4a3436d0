//! Side c: the published Rust in memory, with no image to load and save. Its lock is the stand-in of tools/oracle, a mutex of the standard
//! library that nobody else takes. What the Rust has no part in (refusals 2, 4, 5 and 7 to 11, drains of a part, conversions) is not measured. It numbers no
//! events, so it does less than the others on any image.

use crate::call::Call;
use crate::image;
use crate::kinds::{BASE, Kind, LENGTH, LENGTHS, SIZE, Slot};
use oracle::{AccessWidth, DeviceError, GuestPhysAddr, LoongArchPchPic, PchPicOutputEvent, Plain};
use std::hint::black_box;

/// A device and the event buffer that its drain writes to.
pub struct Standing {
    device: LoongArchPchPic,
    events: [u8; 64],
}

impl Standing {
    pub fn new() -> Self {
        let device = LoongArchPchPic::new(GuestPhysAddr::from_usize(BASE as usize), SIZE as usize);
        Standing { device, events: [0xdd; 64] }
    }

    pub fn set(&mut self, plain: &Plain) {
        self.device.set_plain(plain);
    }
}

/// Whether the Rust has this kind of call at all.
pub fn has(kind: &Kind) -> bool {
    matches!(kind.number, 0 | 1 | 3) && !matches!(kind.call, Call::Convert { .. } | Call::Drain { place: 1.. })
}

/// The state that the kind starts from.
pub fn start(kind: &Kind) -> Plain {
    let length = if LENGTHS.contains(&kind.image_len) { kind.image_len } else { LENGTH };
    image::decode(&kind.slot.image[..length], 0).0
}

fn width_of(width: u64) -> AccessWidth {
    match width {
        1 => AccessWidth::Byte,
        2 => AccessWidth::Word,
        4 => AccessWidth::Dword,
        _ => AccessWidth::Qword,
    }
}

#[inline(always)]
fn read(standing: &mut Standing, address: u64, width: AccessWidth) -> Option<u64> {
    match standing.device.read_register(GuestPhysAddr::from_usize(address as usize), width) {
        Ok(value) => Some(value as u64),
        Err(DeviceError::OutOfRange { addr }) => Some(addr),
        Err(_) => None,
    }
}

#[inline(always)]
fn write(standing: &mut Standing, address: u64, width: AccessWidth, value: u64) -> Option<u64> {
    match standing.device.write_register(GuestPhysAddr::from_usize(address as usize), width, value as usize) {
        Err(DeviceError::OutOfRange { addr }) => Some(addr),
        _ => None,
    }
}

/// The events go to the buffer in the boundary's form, all but their numbers.
#[inline(always)]
fn drain(standing: &mut Standing) -> Option<u64> {
    let Standing { device, events } = standing;
    let mut moved = 0;
    device.drain_output_events(|event: PchPicOutputEvent| {
        events[4 * moved..4 * moved + 4].copy_from_slice(&[event.vector as u8, event.asserted as u8, 0, 0]);
        moved += 1;
    });
    Some(moved as u64)
}

/// What the call gives: the value read or returned, the number drained, the address outside.
#[inline(always)]
fn make(call: &Call, standing: &mut Standing) -> Option<u64> {
    match *call {
        Call::Reset => {
            standing.device.reset();
            None
        }
        Call::Read { address, width, .. } => read(standing, address, width_of(width)),
        Call::Write { address, width, value, .. } => write(standing, address, width_of(width), value),
        Call::Level { input, level } => standing.device.set_irq_level(input as usize, level != 0).map(|vector| vector as u64),
        Call::Poll { input } => standing.device.pending_vector(input as usize).map(|vector| vector as u64),
        Call::Drain { .. } => drain(standing),
        Call::Convert { .. } => None,
    }
}

#[unsafe(no_mangle)]
#[inline(never)]
pub fn bench_timed_each_c(kind: &Kind, devices: &mut [Standing]) {
    macro_rules! all {
        ($standing:ident => $call:expr) => {
            for $standing in devices {
                black_box($call);
            }
        };
    }
    match black_box(kind.call) {
        Call::Reset => all!(standing => standing.device.reset()),
        Call::Read { address, width, .. } => {
            let width = width_of(width);
            all!(standing => read(standing, address, width))
        }
        Call::Write { address, width, value, .. } => {
            let width = width_of(width);
            all!(standing => write(standing, address, width, value))
        }
        Call::Level { input, level } => all!(standing => standing.device.set_irq_level(input as usize, level != 0)),
        Call::Poll { input } => all!(standing => standing.device.pending_vector(input as usize)),
        Call::Drain { .. } => all!(standing => drain(standing)),
        Call::Convert { .. } => {}
    }
}

#[unsafe(no_mangle)]
#[inline(never)]
pub fn bench_timed_day_c(calls: &[Call], standing: &mut Standing) {
    for call in calls {
        black_box(make(call, standing));
    }
}

/// Makes the call and says what the boundary would: the image, the events, and the value if there is one. Numbers, which it has not, are as they stand in the
/// slot.
pub fn as_boundary(call: &Call, standing: &mut Standing, drops: &mut u32, slot: &mut Slot, image_len: usize) -> Option<u64> {
    oracle::take_warnings();
    let value = make(call, standing);
    let dropped = oracle::take_warnings();
    *drops = if let Call::Reset = call { 0 } else { *drops + dropped as u32 };
    let image = &mut slot.image[..image_len];
    let numbers = image::numbers(image);
    image::encode(&standing.device.plain(), *drops, &numbers, image);
    if let (Call::Drain { .. }, Some(moved)) = (call, value) {
        for (event, drained) in slot.events.chunks_mut(4).zip(standing.events.chunks(4)).take(moved as usize) {
            event[..2].copy_from_slice(&drained[..2]);
        }
    }
    match call {
        Call::Level { .. } | Call::Poll { .. } if slot.answer[0] == 0 => value.map(|vector| vector + 65_536 * number(slot)),
        // 02, C-15: how many events a done write dropped; the Rust warned of each
        Call::Write { .. } if value.is_none() && slot.answer[0] == 0 => Some(dropped),
        _ => value,
    }
}

/// The number of the event that the slot's call returned.
fn number(slot: &Slot) -> u64 {
    u64::from(u16::from_le_bytes([slot.answer[10], slot.answer[11]]))
}
