//! The boundary in plain Rust: what a Rust engineer would write who is given documents 01 and 02 and no prover. Each call checks the image, loads it
//! whole into a struct, does its work there, saves the struct whole in the form in which it came and writes the answer area; a read only loads.
//! Measured by tools/bench.
#![forbid(unsafe_code)]

#[path = "plain/beside.rs"]
mod beside;
#[path = "plain/salvage.rs"]
mod salvage;
#[path = "plain/sheet.rs"]
mod sheet;

pub use beside::*;
pub use salvage::*;
pub use sheet::*;

/// Where things stand in the N bytes of an image of a form.
trait Form<const N: usize> {
    const CONTENTS: &'static [u8];
    /// MASK, HTMSI_EN and EDGE; then, where there is one, the copy of IRR.
    const REGISTERS: usize = Self::CONTENTS.len();
    const COPY: Option<usize>;
    /// IRR; ISR, POL, AUTO0 and AUTO1 follow.
    const IRR: usize;
    const ROUTES: usize = Self::IRR + 40;
    const VECTORS: usize = Self::ROUTES + 64;
    const COUNT: usize = Self::VECTORS + 64;
    const DROPS: usize = Self::COUNT + 1;
    const PAIRS: usize = Self::DROPS + 4;
    /// The next number and those of waiting events.
    const NUMBERS: Option<usize>;
}

struct One;
struct Two;
struct Numbered;

impl Form<259> for One {
    const CONTENTS: &'static [u8] = &[1, 4, 1, 22, 0, 72, 0, 2, 94, 0, 64, 0, 3, 158, 0, 64, 0, 4, 222, 0, 37, 0];
    const COPY: Option<usize> = Some(46);
    const IRR: usize = 54;
    const NUMBERS: Option<usize> = None;
}

impl Form<251> for Two {
    const CONTENTS: &'static [u8] = &[2, 4, 1, 22, 0, 64, 0, 2, 86, 0, 64, 0, 3, 150, 0, 64, 0, 4, 214, 0, 37, 0];
    const COPY: Option<usize> = None;
    const IRR: usize = 46;
    const NUMBERS: Option<usize> = None;
}

impl Form<290> for Numbered {
    const CONTENTS: &'static [u8] = &[2, 5, 1, 27, 0, 64, 0, 2, 91, 0, 64, 0, 3, 155, 0, 64, 0, 4, 219, 0, 37, 0, 5, 0, 1, 34, 0];
    const COPY: Option<usize> = None;
    const IRR: usize = 51;
    const NUMBERS: Option<usize> = Some(256);
}

/// What a function of a form gives for an image in the form of its length, or refusal 4.
macro_rules! by_length {
    ($image:expr, $of:ident $(, $word:expr)*) => {
        match $image.len() {
            259 => $of::<One, 259>($image.try_into().unwrap() $(, $word)*),
            251 => $of::<Two, 251>($image.try_into().unwrap() $(, $word)*),
            290 => $of::<Numbered, 290>($image.try_into().unwrap() $(, $word)*),
            _ => Err(refusal(4)),
        }
    };
}
use by_length;

/// The numbers of waiting events where the image has none.
const FROM_0: [u8; 32] = [0, 0, 1, 0, 2, 0, 3, 0, 4, 0, 5, 0, 6, 0, 7, 0, 8, 0, 9, 0, 10, 0, 11, 0, 12, 0, 13, 0, 14, 0, 15, 0];

/// Why a call was not done, and the value that is told with it.
struct Refusal {
    number: u8,
    value: Option<u64>,
}

const fn refusal(number: u8) -> Refusal {
    Refusal { number, value: None }
}

type Outcome = Result<Option<u64>, Refusal>;

struct State {
    mask: u64,
    htmsi_en: u64,
    edge: u64,
    irr: u64,
    isr: u64,
    polarity: u64,
    auto0: u64,
    auto1: u64,
    routes: [u8; 64],
    vectors: [u8; 64],
    waiting: usize,
    drops: u32,
    /// The waiting events, oldest first, two bytes each; zero behind them.
    pairs: [u8; 32],
    /// The number of the next event, and those of the waiting ones, two bytes each; zero behind them.
    next: u16,
    numbers: [u8; 32],
    /// How many events the call dropped; no part of the image.
    lost: u64,
}

fn word<const N: usize>(image: &[u8; N], at: usize) -> u64 {
    u64::from_le_bytes(image[at..at + 8].try_into().unwrap())
}

fn put<const N: usize>(image: &mut [u8; N], at: usize, value: u64) {
    image[at..at + 8].copy_from_slice(&value.to_le_bytes());
}

fn broken(number: u8, place: usize) -> Refusal {
    Refusal { number, value: Some(place as u64) }
}

/// Refusal 11 where of 16 entries of two bytes those behind the first so many are not all zero.
fn unused<const N: usize>(image: &[u8; N], from: usize, count: usize) -> Result<(), Refusal> {
    let unused = &image[from..from + 32][2 * count..];
    if *unused == [0; 32][2 * count..] {
        return Ok(());
    }
    let place = unused.iter().position(|&byte| byte != 0).unwrap_or(0);
    Err(broken(11, from + 2 * count + place))
}

/// Refusals 5 and 8 to 11: the contents, and the rules of the bodies, which are the copy of IRR, the count, the flags of waiting pairs and the
/// zeros of unused pairs and numbers, each with the place that breaks it.
fn check<F: Form<N>, const N: usize>(image: &[u8; N]) -> Result<(), Refusal> {
    if image[..F::CONTENTS.len()] != *F::CONTENTS {
        return Err(refusal(5));
    }
    if let Some(copy) = F::COPY
        && word(image, copy) != word(image, F::IRR)
    {
        return Err(broken(8, copy));
    }
    let count = image[F::COUNT] as usize;
    if count > 16 {
        return Err(broken(9, F::COUNT));
    }
    if let Some(pair) = image[F::PAIRS..F::PAIRS + 2 * count].chunks_exact(2).position(|pair| pair[1] > 1) {
        return Err(broken(10, F::PAIRS + 2 * pair + 1));
    }
    unused(image, F::PAIRS, count)?;
    F::NUMBERS.map_or(Ok(()), |numbers| unused(image, numbers + 2, count))
}

/// The fields of a record: kind, input or width, offset, the bytes that have to be zero, value.
fn fields(record: &[u8; 16]) -> (u8, u64, u64, u32, u64) {
    let [kind, byte, o0, o1, z0, z1, z2, z3, value @ ..] = *record;
    (kind, u64::from(byte), u64::from(u16::from_le_bytes([o0, o1])), u32::from_le_bytes([z0, z1, z2, z3]), u64::from_le_bytes(value))
}

fn is_good(record: &[u8; 16]) -> bool {
    let (kind, byte, offset, zeros, value) = fields(record);
    let unused = match kind {
        1..=3 => offset == 0 && value == 0,
        4 => value == 0,
        5 => true,
        6 => byte == 0 && offset == 0 && value == 0,
        _ => false,
    };
    unused && zeros == 0
}

/// What a trace lists of its blocks, and all its records; refusal 12 for its contents.
#[inline(always)]
fn contents_of(trace: &[u8]) -> Result<(&[[u8; 4]], &[[u8; 16]]), Refusal> {
    let (blocks, rest) = trace.split_first_chunk().ok_or(refusal(12))?;
    let blocks = usize::from(u16::from_le_bytes(*blocks));
    if !(1..=64).contains(&blocks) {
        return Err(refusal(12));
    }
    let (listed, rest) = rest.split_at_checked(4 * blocks).ok_or(refusal(12))?;
    let (listed, _) = listed.as_chunks();
    let mut records = 0;
    for block in listed {
        let (from, count) = entry(block);
        if from != 2 + 4 * blocks + 16 * records || count == 0 {
            return Err(refusal(12));
        }
        records += count;
    }
    if records > 4000 || rest.len() != 16 * records {
        return Err(refusal(12));
    }
    Ok((listed, rest.as_chunks().0))
}

/// Where a block begins, and how many records it has.
fn entry(block: &[u8; 4]) -> (usize, usize) {
    let [f0, f1, c0, c1] = *block;
    (usize::from(u16::from_le_bytes([f0, f1])), usize::from(u16::from_le_bytes([c0, c1])))
}

/// The records of a trace; refusal 12 for its contents, 13 for the first bad record.
fn records_of(trace: &[u8]) -> Result<&[[u8; 16]], Refusal> {
    let (_, records) = contents_of(trace)?;
    match records.iter().position(|record| !is_good(record)) {
        Some(bad) => Err(broken(13, bad)),
        None => Ok(records),
    }
}

impl State {
    fn reset() -> Self {
        State {
            mask: !0,
            htmsi_en: 0,
            edge: 0,
            irr: 0,
            isr: 0,
            polarity: 0,
            auto0: 0,
            auto1: 0,
            routes: [1; 64],
            vectors: std::array::from_fn(|input| input as u8),
            waiting: 0,
            drops: 0,
            pairs: [0; 32],
            next: 0,
            numbers: [0; 32],
            lost: 0,
        }
    }

    /// The state of an image that was checked.
    fn load<F: Form<N>, const N: usize>(image: &[u8; N]) -> Self {
        let waiting = image[F::COUNT] as usize;
        let (mut next, mut numbers) = (waiting as u16, [0; 32]);
        match F::NUMBERS {
            Some(at) => {
                next = u16::from_le_bytes([image[at], image[at + 1]]);
                numbers.copy_from_slice(&image[at + 2..at + 34]);
            }
            None => numbers[..2 * waiting].copy_from_slice(&FROM_0[..2 * waiting]),
        }
        State {
            mask: word(image, F::REGISTERS),
            htmsi_en: word(image, F::REGISTERS + 8),
            edge: word(image, F::REGISTERS + 16),
            irr: word(image, F::IRR),
            isr: word(image, F::IRR + 8),
            polarity: word(image, F::IRR + 16),
            auto0: word(image, F::IRR + 24),
            auto1: word(image, F::IRR + 32),
            routes: image[F::ROUTES..F::ROUTES + 64].try_into().unwrap(),
            vectors: image[F::VECTORS..F::VECTORS + 64].try_into().unwrap(),
            waiting,
            drops: u32::from_le_bytes(image[F::DROPS..F::DROPS + 4].try_into().unwrap()),
            pairs: image[F::PAIRS..F::PAIRS + 32].try_into().unwrap(),
            next,
            numbers,
            lost: 0,
        }
    }

    fn save<F: Form<N>, const N: usize>(&self, image: &mut [u8; N]) {
        image[..F::CONTENTS.len()].copy_from_slice(F::CONTENTS);
        for (k, register) in [self.mask, self.htmsi_en, self.edge].into_iter().enumerate() {
            put(image, F::REGISTERS + 8 * k, register);
        }
        if let Some(copy) = F::COPY {
            put(image, copy, self.irr);
        }
        for (k, register) in [self.irr, self.isr, self.polarity, self.auto0, self.auto1].into_iter().enumerate() {
            put(image, F::IRR + 8 * k, register);
        }
        image[F::ROUTES..F::ROUTES + 64].copy_from_slice(&self.routes);
        image[F::VECTORS..F::VECTORS + 64].copy_from_slice(&self.vectors);
        image[F::COUNT] = self.waiting as u8;
        image[F::DROPS..F::DROPS + 4].copy_from_slice(&self.drops.to_le_bytes());
        image[F::PAIRS..F::PAIRS + 32].copy_from_slice(&self.pairs);
        if let Some(at) = F::NUMBERS {
            image[at..at + 2].copy_from_slice(&self.next.to_le_bytes());
            image[at + 2..at + 34].copy_from_slice(&self.numbers);
        }
    }

    /// The number of an event that is made; after 65,535 comes 0.
    fn number(&mut self) -> u16 {
        let number = self.next;
        self.next = number.wrapping_add(1);
        number
    }

    fn push(&mut self, input: usize, asserted: bool) {
        let number = self.number();
        if self.waiting == 16 {
            self.drops = self.drops.saturating_add(1);
            self.lost += 1;
            return;
        }
        self.pairs[2 * self.waiting] = self.vectors[input];
        self.pairs[2 * self.waiting + 1] = asserted as u8;
        self.numbers[2 * self.waiting..2 * self.waiting + 2].copy_from_slice(&number.to_le_bytes());
        self.waiting += 1;
    }

    fn push_deasserts(&mut self, mut inputs: u64) {
        while inputs != 0 {
            self.push(inputs.trailing_zeros() as usize, false);
            inputs &= inputs - 1;
        }
    }

    /// The lowest of these inputs that is latched, unmasked and not in service goes into service.
    fn assert_lowest(&mut self, inputs: u64) -> Option<usize> {
        let pending = inputs & self.irr & !self.mask & !self.isr;
        if pending == 0 {
            return None;
        }
        let input = pending.trailing_zeros() as usize;
        self.isr |= 1 << input;
        Some(input)
    }

    /// An event that is returned: the vector, and its number in bits 16 to 31.
    fn returned(&mut self, input: usize) -> u64 {
        u64::from(self.vectors[input]) | u64::from(self.number()) << 16
    }

    fn poll(&mut self, input: usize) -> Option<u64> {
        self.assert_lowest(1 << input).map(|input| self.returned(input))
    }

    fn raise(&mut self, input: usize) -> Option<u64> {
        self.irr |= 1 << input;
        self.poll(input)
    }

    fn lower(&mut self, input: usize) -> Option<u64> {
        let bit = 1 << input;
        let in_service = self.isr & bit != 0;
        self.irr &= !bit;
        self.isr &= !bit;
        in_service.then(|| self.returned(input))
    }

    fn drain(&mut self, room: &mut [u8]) -> u64 {
        let moved = self.waiting.min(room.len() / 4);
        let waiting = self.pairs.chunks_exact(2).zip(self.numbers.chunks_exact(2));
        for (event, (pair, number)) in room.chunks_exact_mut(4).zip(waiting).take(moved) {
            event[..2].copy_from_slice(pair);
            event[2..].copy_from_slice(number);
        }
        if moved == self.waiting {
            (self.pairs, self.numbers) = ([0; 32], [0; 32]);
        } else {
            for bytes in [&mut self.pairs, &mut self.numbers] {
                bytes.copy_within(2 * moved.., 0);
                bytes[32 - 2 * moved..].fill(0);
            }
        }
        self.waiting -= moved;
        moved as u64
    }

    fn write_mask(&mut self, new: u64) {
        let old = std::mem::replace(&mut self.mask, new);
        if let Some(input) = self.assert_lowest(old & !new) {
            self.push(input, true);
        }
        let retracted = self.isr & !old & new;
        self.isr &= !retracted;
        self.push_deasserts(retracted);
    }

    fn clear(&mut self, inputs: u64) {
        let in_service = self.isr & inputs;
        self.irr &= !inputs;
        self.isr &= !inputs;
        self.push_deasserts(in_service);
    }

    fn byte(&self, offset: u64) -> u8 {
        match offset {
            0x100..=0x13f => self.routes[(offset - 0x100) as usize],
            0x200..=0x23f => self.vectors[(offset - 0x200) as usize],
            0x100..0x3a0 => 0,
            _ => self.dword(offset & !3).to_le_bytes()[(offset & 3) as usize],
        }
    }

    fn dword(&self, offset: u64) -> u32 {
        let register = match offset & !4 {
            0x000 => 0x003f_0001_0700_0000,
            0x020 => self.mask,
            0x040 => self.htmsi_en,
            0x060 => self.edge,
            0x0c0 => self.auto0,
            0x0e0 => self.auto1,
            0x380 => self.irr,
            0x3a0 => self.isr & !self.mask,
            0x3e0 => self.polarity,
            _ => match offset {
                0x100..=0x13f | 0x200..=0x23f => {
                    return u32::from_le_bytes(std::array::from_fn(|k| self.byte(offset + k as u64)));
                }
                _ => 0,
            },
        };
        if offset & 4 == 0 { register as u32 } else { (register >> 32) as u32 }
    }

    fn read(&self, width: Width, offset: u64) -> u64 {
        match width {
            Width::Byte => u64::from(self.byte(offset)),
            Width::Word => u64::from(u16::from_le_bytes([self.byte(offset), self.byte(offset + 1)])),
            Width::Dword => u64::from(self.dword(offset)),
            Width::Qword => {
                let high = self.dword(offset + 4);
                u64::from(self.dword(offset)) | u64::from(high) << 32
            }
        }
    }

    fn write_byte(&mut self, offset: u64, value: u8) {
        match offset {
            0x100..=0x13f => self.routes[(offset - 0x100) as usize] = value,
            0x200..=0x23f => self.vectors[(offset - 0x200) as usize] = value,
            0x100..0x3a0 => {}
            _ => {
                let mut bytes = self.dword(offset & !3).to_le_bytes();
                bytes[(offset & 3) as usize] = value;
                self.write_dword(offset & !3, u32::from_le_bytes(bytes));
            }
        }
    }

    fn write_dword(&mut self, offset: u64, value: u32) {
        let (kept, placed) = if offset & 4 == 0 { (!0 << 32, u64::from(value)) } else { (!0 >> 32, u64::from(value) << 32) };
        let stored = match offset & !4 {
            0x020 => return self.write_mask(self.mask & kept | placed),
            0x080 => return self.clear(placed),
            0x040 => &mut self.htmsi_en,
            0x060 => &mut self.edge,
            0x0c0 => &mut self.auto0,
            0x0e0 => &mut self.auto1,
            0x3a0 => &mut self.isr,
            0x3e0 => &mut self.polarity,
            _ => {
                if let 0x100..=0x13f | 0x200..=0x23f = offset {
                    for (k, byte) in value.to_le_bytes().into_iter().enumerate() {
                        self.write_byte(offset + k as u64, byte);
                    }
                }
                return;
            }
        };
        *stored = *stored & kept | placed;
    }

    fn write(&mut self, width: Width, offset: u64, value: u64) {
        match width {
            Width::Byte => self.write_byte(offset, value as u8),
            Width::Word => {
                self.write_byte(offset, value as u8);
                self.write_byte(offset + 1, (value >> 8) as u8);
            }
            Width::Dword => self.write_dword(offset, value as u32),
            Width::Qword => {
                self.write_dword(offset, value as u32);
                self.write_dword(offset + 4, (value >> 32) as u32);
            }
        }
    }

    /// The call that a record is, with base 0 and size 65,536. What it drains goes behind the events that are used, and is used then.
    #[inline(always)]
    fn play(&mut self, record: &[u8; 16], events: &mut [u8], used: &mut usize) -> Outcome {
        let (kind, byte, offset, _, value) = fields(record);
        match kind {
            1 => Ok(self.raise(input_of(byte)?)),
            2 => Ok(self.lower(input_of(byte)?)),
            3 => Ok(self.poll(input_of(byte)?)),
            4 => Ok(Some(self.read(Width::of(byte)?, offset_of(0, 0x1_0000, offset, byte)?))),
            5 => {
                self.lost = 0;
                self.write(Width::of(byte)?, offset_of(0, 0x1_0000, offset, byte)?, value);
                Ok(Some(self.lost))
            }
            _ => {
                let moved = self.drain(&mut events[*used..]);
                *used += 4 * moved as usize;
                Ok(Some(moved))
            }
        }
    }
}

enum Width {
    Byte,
    Word,
    Dword,
    Qword,
}

impl Width {
    fn of(width: u64) -> Result<Self, Refusal> {
        match width {
            1 => Ok(Width::Byte),
            2 => Ok(Width::Word),
            4 => Ok(Width::Dword),
            8 => Ok(Width::Qword),
            _ => Err(refusal(2)),
        }
    }
}

/// All bytes of an access lie inside the window, which ends at 2^64 - 1 at most.
fn offset_of(base: u64, size: u64, address: u64, width: u64) -> Result<u64, Refusal> {
    let inside = base <= address && address.checked_add(width).is_some_and(|end| end <= base.saturating_add(size));
    if inside { Ok(address - base) } else { Err(Refusal { number: 1, value: Some(address) }) }
}

fn input_of(input: u64) -> Result<usize, Refusal> {
    if input < 64 { Ok(input as usize) } else { Err(refusal(3)) }
}

/// Hands the outcome out: the number, and the 16 bytes of the answer area.
fn told(answer: &mut [u8; 16], outcome: Outcome) -> u8 {
    let (number, value) = match outcome {
        Ok(value) => (0, value),
        Err(refusal) => (refusal.number, refusal.value),
    };
    answer[..8].copy_from_slice(&[number, value.is_some() as u8, 0, 0, 0, 0, 0, 0]);
    answer[8..].copy_from_slice(&value.unwrap_or(0).to_le_bytes());
    number
}

/// Load, change, save.
fn changed_in<F: Form<N>, const N: usize>(image: &mut [u8; N], change: impl FnOnce(&mut State) -> Outcome) -> Outcome {
    check::<F, N>(image)?;
    let mut state = State::load::<F, N>(image);
    let value = change(&mut state)?;
    state.save::<F, N>(image);
    Ok(value)
}

fn changed(image: &mut [u8], change: impl FnOnce(&mut State) -> Outcome) -> Outcome {
    by_length!(image, changed_in, change)
}

/// Load, and look.
fn looked_in<F: Form<N>, const N: usize>(image: &[u8; N], look: impl FnOnce(&State) -> Outcome) -> Outcome {
    check::<F, N>(image)?;
    look(&State::load::<F, N>(image))
}

fn looked(image: &[u8], look: impl FnOnce(&State) -> Outcome) -> Outcome {
    by_length!(image, looked_in, look)
}

fn saved<F: Form<N>, const N: usize>(image: &mut [u8; N], state: &State) -> Outcome {
    state.save::<F, N>(image);
    Ok(None)
}

/// Refusals 12 and 13, and 7 where answers or events have no room.
#[inline(always)]
fn fitting<'a>(trace: &'a [u8], answers: &[[u8; 16]], events: &[u8]) -> Result<&'a [[u8; 16]], Refusal> {
    let records = records_of(trace)?;
    let drains = records.iter().filter(|record| record[0] == 6).count();
    if answers.len() < records.len() || events.len() < 64 * drains {
        return Err(refusal(7));
    }
    Ok(records)
}

/// All is played on one state, that after reset or the one that the image holds, which is saved at the end.
#[inline(always)]
fn through<F: Form<N>, const N: usize>(
    mut state: State,
    image: &mut [u8; N],
    records: &[[u8; 16]],
    answers: &mut [[u8; 16]],
    events: &mut [u8],
) -> Outcome {
    let mut used = 0;
    for (record, answer) in records.iter().zip(answers) {
        // Without the body of numbers they hold within one call; what waits has its place as its number by itself.
        if F::NUMBERS.is_none() {
            state.next = state.waiting as u16;
        }
        told(answer, state.play(record, events, &mut used));
    }
    state.save::<F, N>(image);
    Ok(Some(records.len() as u64))
}

fn played<F: Form<N>, const N: usize>(image: &mut [u8; N], trace: &[u8], answers: &mut [u8], events: &mut [u8]) -> Outcome {
    let (answers, _) = answers.as_chunks_mut();
    let records = fitting(trace, answers, events)?;
    through::<F, N>(State::reset(), image, records, answers, events)
}

fn played_on<F: Form<N>, const N: usize>(image: &mut [u8; N], trace: &[u8], answers: &mut [u8], events: &mut [u8]) -> Outcome {
    check::<F, N>(image)?;
    let (answers, _) = answers.as_chunks_mut();
    let records = fitting(trace, answers, events)?;
    through::<F, N>(State::load::<F, N>(image), image, records, answers, events)
}

// The calls. They stay calls of their own in the measured program, as those of a library do.

#[inline(never)]
pub fn reset(image: &mut [u8], answer: &mut [u8]) -> u8 {
    let Some(answer) = answer.first_chunk_mut() else { return 7 };
    told(answer, by_length!(image, saved, &State::reset()))
}

#[inline(never)]
pub fn read(image: &[u8], base: u64, size: u64, address: u64, width: u64, answer: &mut [u8]) -> u8 {
    let Some(answer) = answer.first_chunk_mut() else { return 7 };
    let outcome = looked(image, |state| {
        let known = Width::of(width)?;
        Ok(Some(state.read(known, offset_of(base, size, address, width)?)))
    });
    told(answer, outcome)
}

#[inline(never)]
pub fn write(image: &mut [u8], base: u64, size: u64, address: u64, width: u64, value: u64, answer: &mut [u8]) -> u8 {
    let Some(answer) = answer.first_chunk_mut() else { return 7 };
    let outcome = changed(image, |state| {
        let known = Width::of(width)?;
        state.write(known, offset_of(base, size, address, width)?, value);
        Ok(Some(state.lost))
    });
    told(answer, outcome)
}

#[inline(never)]
pub fn level(image: &mut [u8], input: u64, level: u64, answer: &mut [u8]) -> u8 {
    let Some(answer) = answer.first_chunk_mut() else { return 7 };
    let outcome = changed(image, |state| {
        let input = input_of(input)?;
        Ok(if level == 0 { state.lower(input) } else { state.raise(input) })
    });
    told(answer, outcome)
}

#[inline(never)]
pub fn poll(image: &mut [u8], input: u64, answer: &mut [u8]) -> u8 {
    let Some(answer) = answer.first_chunk_mut() else { return 7 };
    told(answer, changed(image, |state| Ok(state.poll(input_of(input)?))))
}

#[inline(never)]
pub fn drain(image: &mut [u8], events: &mut [u8], place: usize, answer: &mut [u8]) -> u8 {
    let Some(answer) = answer.first_chunk_mut() else { return 7 };
    let Some(room) = events.get_mut(place..) else { return 7 };
    told(answer, changed(image, |state| Ok(Some(state.drain(room)))))
}

#[inline(never)]
pub fn convert(image: &[u8], target: &mut [u8], answer: &mut [u8]) -> u8 {
    let Some(answer) = answer.first_chunk_mut() else { return 7 };
    if !matches!(target.len(), 259 | 251 | 290) {
        return told(answer, Err(refusal(4)));
    }
    told(answer, looked(image, |state| by_length!(target, saved, state)))
}

#[inline(never)]
pub fn play(trace: &[u8], image: &mut [u8], answers: &mut [u8], events: &mut [u8], answer: &mut [u8]) -> u8 {
    let Some(answer) = answer.first_chunk_mut() else { return 7 };
    match by_length!(image, played, trace, answers, events) {
        Err(Refusal { number: 7, .. }) => 7,
        outcome => told(answer, outcome),
    }
}

#[inline(never)]
pub fn play_on(trace: &[u8], image: &mut [u8], answers: &mut [u8], events: &mut [u8], answer: &mut [u8]) -> u8 {
    let Some(answer) = answer.first_chunk_mut() else { return 7 };
    match by_length!(image, played_on, trace, answers, events) {
        Err(Refusal { number: 7, .. }) => 7,
        outcome => told(answer, outcome),
    }
}
