//! What 01 and 02 expect of a call: its refusals and its answer area, over the device of the published Rust, with the events' numbers beside it. This is
//! the expected side of every comparison.

use crate::call::Call;
use crate::image::{self, Form, Image};
use crate::numbers::Numbers;
use crate::told::tell;
use oracle::{AccessWidth, DeviceError, GuestPhysAddr, LoongArchPchPic, PchPicOutputEvent, PchPicOutputPort};

pub struct Boundary {
    device: LoongArchPchPic,
    drops: u32,
    numbers: Numbers,
    // The image that the last call left. Handed on, it is no load: the device goes on as it is, its ring's head where it was.
    left: Image,
    /// The slot where the ring of a loaded image starts. 01 cannot see it.
    pub head: usize,
}

/// What a call that was not refused with 7 gives: its value, or the refusal and its value.
type Done = Result<Option<u64>, (u8, Option<u64>)>;

impl Boundary {
    pub fn new() -> Self {
        // a call that was given up may have left some
        oracle::take_warnings();
        let device = LoongArchPchPic::new(GuestPhysAddr::from_usize(0), 0);
        Boundary { device, drops: 0, numbers: Numbers::from_0(0), left: Image::new(), head: 0 }
    }

    /// The numbers that the last call left, whether its image holds them or not.
    pub fn numbers(&self) -> &Numbers {
        &self.numbers
    }

    /// ISR and the vectors, as the last done call left them.
    pub fn in_service(&self) -> (u64, [u8; 64]) {
        let plain = self.device.plain();
        (plain.intisr, plain.htmsi_vector)
    }

    pub fn perform(&mut self, call: &Call, image: &mut [u8], answer: &mut [u8], events: &mut [u8], target: &mut [u8]) -> u8 {
        if answer.len() < 16 {
            return 7;
        }
        if let Call::Drain { place } = *call
            && place > events.len() as u64
        {
            return 7;
        }
        let done = if let Call::Convert { .. } = call { self.convert(image, target) } else { self.done(call, image, events) };
        let (number, value) = match done {
            Ok(value) => (0, value),
            Err((number, value)) => (number, value),
        };
        answer[0] = number;
        answer[1] = value.is_some() as u8;
        answer[2..8].fill(0);
        answer[8..16].copy_from_slice(&value.unwrap_or(0).to_le_bytes());
        number
    }

    /// Who waits. It is refused as a read is, and then the registers tell it, as the Rust's own reads have them; a read of ISR leaves out masked inputs, which do not
    /// wait either. Nothing changes, and the image that the last call left is no load here too.
    pub fn waiting(&mut self, image: &[u8], answer: &mut [u8]) -> u8 {
        if answer.len() < 16 {
            return 7;
        }
        match image::test(image) {
            (0, _) => {}
            (number, value) => return tell(answer, number, value),
        }
        if *image != *self.left {
            self.load(image);
        }
        let [irr, mask, isr] =
            [0x380, 0x020, 0x3a0].map(|offset| self.read(0, 0x400, offset, AccessWidth::Qword).expect("a register stands there"));
        tell(answer, 0, Some(irr & !mask & !isr))
    }

    fn done(&mut self, call: &Call, image: &mut [u8], events: &mut [u8]) -> Done {
        if let Call::Reset = call {
            if Form::of(image.len()).is_none() {
                return Err((4, None));
            }
            self.device.reset();
            self.drops = 0;
            self.numbers = Numbers::from_0(0);
            self.save(image);
            return Ok(None);
        }
        match image::test(image) {
            (0, _) => {}
            refused => return Err(refused),
        }
        if *image != *self.left {
            self.load(image);
        } else if Form::of(image.len()).is_some_and(|form| form.numbers.is_none()) {
            // 02, C-19: without the fifth body numbers hold within one call only
            self.numbers = image::numbers(image);
        }
        let (mut dropped, waited) = (None, self.numbers.waiting.len());
        let value = match *call {
            Call::Reset | Call::Convert { .. } => unreachable!("these are done apart"),
            Call::Read { base, size, address, width } => Some(self.read(base, size, address, width_of(width)?)?),
            Call::Write { base, size, address, width, value } => {
                self.write(base, size, address, width_of(width)?, value)?;
                // 02, C-15: how many events this write dropped; the Rust warned of each
                dropped = Some(oracle::take_warnings());
                self.numbers.offered(self.device.plain().output_len - waited, dropped.unwrap_or(0));
                dropped
            }
            Call::Level { input, level } => {
                let vector = self.device.set_irq_level(input_of(input)?, level != 0);
                self.returned(vector)
            }
            Call::Poll { input } => {
                let vector = self.device.pending_vector(input_of(input)?);
                self.returned(vector)
            }
            Call::Drain { place } => Some(self.drain(&mut events[place as usize..])),
        };
        let dropped = dropped.unwrap_or_else(oracle::take_warnings);
        self.drops = u64::from(self.drops).saturating_add(dropped).min(u64::from(u32::MAX)) as u32;
        self.save(image);
        Ok(value)
    }

    /// 02, C-19: a returned vector carries its number in value bits 16 to 31.
    fn returned(&mut self, vector: Option<usize>) -> Option<u64> {
        vector.map(|vector| vector as u64 + 65_536 * u64::from(self.numbers.made()))
    }

    /// 02, C-17: what the image holds, written in the form of the target's length. The device does not take part, and it is no load. Where the target has
    /// numbers and the image none, C-19, they are those with which it loads.
    fn convert(&self, image: &[u8], target: &mut [u8]) -> Done {
        if Form::of(image.len()).is_none() || Form::of(target.len()).is_none() {
            return Err((4, None));
        }
        match image::test(image) {
            (0, _) => {}
            refused => return Err(refused),
        }
        let (plain, drops) = image::decode(image, self.head);
        image::encode(&plain, drops, &image::numbers(image), target);
        Ok(None)
    }

    fn read(&mut self, base: u64, size: u64, address: u64, width: AccessWidth) -> Result<u64, (u8, Option<u64>)> {
        not_straddling(base, size, address, width)?;
        self.device.set_window(base as usize, size as usize);
        inside(base, size, address, self.device.read_register(GuestPhysAddr::from_usize(address as usize), width)).map(|value| value as u64)
    }

    fn write(&mut self, base: u64, size: u64, address: u64, width: AccessWidth, value: u64) -> Result<(), (u8, Option<u64>)> {
        not_straddling(base, size, address, width)?;
        self.device.set_window(base as usize, size as usize);
        inside(base, size, address, self.device.write_register(GuestPhysAddr::from_usize(address as usize), width, value as usize))
    }

    /// Draining by the Rust's own drain where all fits, else by taking one event after another. 02, C-19: a drained event has four bytes.
    fn drain(&mut self, room: &mut [u8]) -> u64 {
        let (most, numbers) = (room.len() / 4, &mut self.numbers);
        let mut moved = 0;
        let mut put = |event: PchPicOutputEvent| {
            room[4 * moved] = event.vector as u8;
            room[4 * moved + 1] = event.asserted as u8;
            room[4 * moved + 2..4 * moved + 4].copy_from_slice(&numbers.drained().to_le_bytes());
            moved += 1;
        };
        if most >= 16 {
            self.device.drain_output_events(&mut put);
        } else {
            for _ in 0..most {
                let Some(event) = PchPicOutputPort::take_output_event(&self.device) else { break };
                put(event);
            }
        }
        moved as u64
    }

    fn load(&mut self, image: &[u8]) {
        let (plain, drops) = image::decode(image, self.head);
        self.device.set_plain(&plain);
        self.drops = drops;
        self.numbers = image::numbers(image);
        self.leave(image);
    }

    fn save(&mut self, image: &mut [u8]) {
        image::encode(&self.device.plain(), self.drops, &self.numbers, image);
        self.leave(image);
    }

    fn leave(&mut self, image: &[u8]) {
        self.left.clear();
        self.left.extend_from_slice(image);
    }
}

fn width_of(width: u64) -> Result<AccessWidth, (u8, Option<u64>)> {
    match width {
        1 => Ok(AccessWidth::Byte),
        2 => Ok(AccessWidth::Word),
        4 => Ok(AccessWidth::Dword),
        8 => Ok(AccessWidth::Qword),
        _ => Err((2, None)),
    }
}

fn input_of(input: u64) -> Result<usize, (u8, Option<u64>)> {
    if input < 64 { Ok(input as usize) } else { Err((3, None)) }
}

/// Whether the first byte of an access is inside the window and its last one is not.
pub fn straddles(base: u64, size: u64, address: u64, width: u64) -> bool {
    let end = (u128::from(base) + u128::from(size)).min(u128::from(u64::MAX));
    base <= address && u128::from(address) < end && u128::from(address) + u128::from(width) > end
}

/// 02's rule, C-14, stands in for the Rust, which tests the first byte alone: an access over the window's end is outside.
fn not_straddling(base: u64, size: u64, address: u64, width: AccessWidth) -> Result<(), (u8, Option<u64>)> {
    let bytes = match width {
        AccessWidth::Byte => 1,
        AccessWidth::Word => 2,
        AccessWidth::Dword => 4,
        AccessWidth::Qword => 8,
    };
    if straddles(base, size, address, bytes) { Err((1, Some(address))) } else { Ok(()) }
}

/// Of all other accesses the Rust's own window test decides; 01's rule, in numbers that do not overflow, must agree with it.
fn inside<T>(base: u64, size: u64, address: u64, answer: Result<T, DeviceError>) -> Result<T, (u8, Option<u64>)> {
    let end = (u128::from(base) + u128::from(size)).min(u128::from(u64::MAX));
    let ours = base <= address && u128::from(address) < end;
    assert!(ours == answer.is_ok(), "01's window and the Rust's differ");
    answer.map_err(|error| match error {
        DeviceError::OutOfRange { addr } => (1, Some(addr)),
        DeviceError::Other => unreachable!("only the factory's parts of the Rust make another error"),
    })
}
