//! The boundary in lean plain Rust: what an expert would write who is given documents 01 and 02, no prover, and time to make it quick. The image's bytes are
//! the device: each call checks them and then reads and writes words where they stand; nothing is loaded or saved whole. Each form of the image has
//! code of its own, made from one text, so that every place is a constant. A quick test of one branch comes first: an image that passes it, as most do, goes a
//! short way, and every other one the whole way, in a function apart. Measured by tools/bench.
#![forbid(unsafe_code)]

#[path = "lean/beside.rs"]
mod beside;
#[path = "lean/salvage.rs"]
mod salvage;
#[path = "lean/sheet.rs"]
mod sheet;

pub use beside::*;
pub use salvage::*;
pub use sheet::*;

const ID: u64 = 0x003f_0001_0700_0000;

/// Where things stand in the N bytes of an image.
trait Form<const N: usize> {
    const CONTENTS: &'static [u8];
    /// The copy of IRR, behind MASK, HTMSI_EN and EDGE.
    const COPY: Option<usize>;
    const IRR: usize;
    /// The next number, and those of waiting events.
    const NUMBERS: Option<usize>;
    const RESET: [u8; N];
    const MASK: usize = Self::CONTENTS.len();
    const HTMSI_EN: usize = Self::MASK + 8;
    const EDGE: usize = Self::MASK + 16;
    // from IRR on all forms go alike
    const ISR: usize = Self::IRR + 8;
    const POLARITY: usize = Self::IRR + 16;
    const AUTO0: usize = Self::IRR + 24;
    const AUTO1: usize = Self::IRR + 32;
    const ROUTES: usize = Self::IRR + 40;
    const VECTORS: usize = Self::ROUTES + 64;
    const COUNT: usize = Self::VECTORS + 64;
    const DROPS: usize = Self::COUNT + 1;
    const PAIRS: usize = Self::DROPS + 4;
}

/// The bytes from IRR to the last pair.
const ALIKE: usize = 40 + 64 + 64 + 5 + 32;

struct One;
struct Two;
struct Numbered;

impl Form<259> for One {
    const CONTENTS: &'static [u8] = &[1, 4, 1, 22, 0, 72, 0, 2, 94, 0, 64, 0, 3, 158, 0, 64, 0, 4, 222, 0, 37, 0];
    const COPY: Option<usize> = Some(46);
    const IRR: usize = 54;
    const NUMBERS: Option<usize> = None;
    const RESET: [u8; 259] = from_reset(Self::CONTENTS, Self::ROUTES);
}

impl Form<251> for Two {
    const CONTENTS: &'static [u8] = &[2, 4, 1, 22, 0, 64, 0, 2, 86, 0, 64, 0, 3, 150, 0, 64, 0, 4, 214, 0, 37, 0];
    const COPY: Option<usize> = None;
    const IRR: usize = 46;
    const NUMBERS: Option<usize> = None;
    const RESET: [u8; 251] = from_reset(Self::CONTENTS, Self::ROUTES);
}

impl Form<290> for Numbered {
    const CONTENTS: &'static [u8] = &[2, 5, 1, 27, 0, 64, 0, 2, 91, 0, 64, 0, 3, 155, 0, 64, 0, 4, 219, 0, 37, 0, 5, 0, 1, 34, 0];
    const COPY: Option<usize> = None;
    const IRR: usize = 51;
    const NUMBERS: Option<usize> = Some(256);
    const RESET: [u8; 290] = from_reset(Self::CONTENTS, Self::ROUTES);
}

/// The work of a call in the form that the image's length says, or refusal 4.
macro_rules! by_length {
    ($image:expr, $work:ident $(, $word:expr)*) => {
        match $image.len() {
            259 => $work::<One, 259>($image $(, $word)*),
            251 => $work::<Two, 251>($image $(, $word)*),
            290 => $work::<Numbered, 290>($image $(, $word)*),
            _ => (4, None),
        }
    };
}
use by_length;

/// For each count the bits that its 16 pairs may have: a vector and a flag of 0 or 1 where an event waits, and nothing behind; and those that its 16
/// numbers may have.
const PAIRS_ALLOWED: [[u64; 4]; 17] = allowed(0x01ff);
const NUMBERS_ALLOWED: [[u64; 4]; 17] = allowed(0xffff);

/// The number that is handed back, with the value that goes with it if there is one.
type Outcome = (u8, Option<u64>);

const fn from_reset<const N: usize>(contents: &[u8], routes: usize) -> [u8; N] {
    let mut image = [0; N];
    let mut k = 0;
    while k < 64 {
        image[routes + k] = 1;
        image[routes + 64 + k] = k as u8;
        if k < contents.len() {
            image[k] = contents[k];
        }
        if k < 8 {
            image[contents.len() + k] = 0xff;
        }
        k += 1;
    }
    image
}

const fn allowed(bits: u64) -> [[u64; 4]; 17] {
    let mut rows = [[0; 4]; 17];
    let mut count = 0;
    while count <= 16 {
        let mut event = 0;
        while event < count {
            rows[count][event / 4] |= bits << (16 * (event % 4));
            event += 1;
        }
        count += 1;
    }
    rows
}

#[inline(always)]
fn word<const N: usize>(image: &[u8; N], at: usize) -> u64 {
    u64::from_le_bytes(image[at..at + 8].try_into().unwrap())
}

#[inline(always)]
fn put<const N: usize>(image: &mut [u8; N], at: usize, value: u64) {
    image[at..at + 8].copy_from_slice(&value.to_le_bytes());
}

#[inline(always)]
fn number<const N: usize>(image: &[u8; N], at: usize) -> u16 {
    u16::from_le_bytes(image[at..at + 2].try_into().unwrap())
}

#[inline(always)]
fn put_number<const N: usize>(image: &mut [u8; N], at: usize, number: u16) {
    image[at..at + 2].copy_from_slice(&number.to_le_bytes());
}

/// Form 1 stores IRR twice.
#[inline(always)]
fn put_irr<F: Form<N>, const N: usize>(image: &mut [u8; N], value: u64) {
    put(image, F::IRR, value);
    if let Some(copy) = F::COPY {
        put(image, copy, value);
    }
}

/// Whether an image keeps all rules. Only a refused one is searched.
#[inline(always)]
fn accepted<F: Form<N>, const N: usize>(image: &[u8; N]) -> bool {
    let count = image[F::COUNT] as usize;
    let (Some(pairs), Some(numbers)) = (PAIRS_ALLOWED.get(count), NUMBERS_ALLOWED.get(count)) else { return false };
    let mut strange = head_odd::<F, N>(image);
    for k in 0..4 {
        strange |= word(image, F::PAIRS + 8 * k) & !pairs[k];
        if let Some(at) = F::NUMBERS {
            strange |= word(image, at + 2 + 8 * k) & !numbers[k];
        }
    }
    strange == 0
}

/// Eight bytes as they read from an image.
const fn eight(bytes: &[u8], at: usize) -> u64 {
    let mut word = 0;
    let mut k = 0;
    while k < 8 {
        word |= (bytes[at + k] as u64) << (8 * k);
        k += 1;
    }
    word
}

/// The bits by which the contents differ from the form's, and IRR from its copy.
#[inline(always)]
fn head_odd<F: Form<N>, const N: usize>(image: &[u8; N]) -> u64 {
    let last = const { F::CONTENTS.len() - 8 };
    let mut odd = word(image, 0) ^ const { eight(F::CONTENTS, 0) };
    odd |= word(image, 8) ^ const { eight(F::CONTENTS, 8) };
    odd |= word(image, 14) ^ const { eight(F::CONTENTS, 14) };
    if last != 14 {
        odd |= word(image, last) ^ const { eight(F::CONTENTS, F::CONTENTS.len() - 8) };
    }
    F::COPY.map_or(odd, |copy| odd | word(image, F::IRR) ^ word(image, copy))
}

/// The bits that pairs and numbers have from the k-th word of each on.
#[inline(always)]
fn left_odd<F: Form<N>, const N: usize>(image: &[u8; N], from: usize) -> u64 {
    (from..4).fold(0, |odd, k| {
        let numbers = F::NUMBERS.map_or(0, |at| word(image, at + 2 + 8 * k));
        odd | word(image, F::PAIRS + 8 * k) | numbers
    })
}

/// Whether nothing waits and all rules are kept: one number, and one branch. Most images are so.
#[inline(always)]
fn is_quiet<F: Form<N>, const N: usize>(image: &[u8]) -> bool {
    let image: &[u8; N] = image.try_into().unwrap();
    head_odd::<F, N>(image) | u64::from(image[F::COUNT]) | left_odd::<F, N>(image, 0) == 0
}

/// Whether at most one waits and all rules are kept.
#[inline(always)]
fn has_few<F: Form<N>, const N: usize>(image: &[u8]) -> bool {
    let image: &[u8; N] = image.try_into().unwrap();
    let count = image[F::COUNT];
    let mut odd = head_odd::<F, N>(image) | u64::from(count & 0xfe);
    odd |= word(image, F::PAIRS) & if count == 0 { !0 } else { !0x1ff };
    if let Some(at) = F::NUMBERS {
        odd |= word(image, at + 2) & if count == 0 { !0 } else { !0xffff };
    }
    odd | left_odd::<F, N>(image, 1) == 0
}

/// The work on an image that passes such a test, its form known, or else what follows.
macro_rules! where_passed {
    ($image:ident, $test:ident, $work:ident ($($word:expr),*), $other:expr) => {
        match $image.len() {
            259 if $test::<One, 259>($image) => $work::<One, 259>($image.try_into().unwrap() $(, $word)*),
            251 if $test::<Two, 251>($image) => $work::<Two, 251>($image.try_into().unwrap() $(, $word)*),
            290 if $test::<Numbered, 290>($image) => $work::<Numbered, 290>($image.try_into().unwrap() $(, $word)*),
            _ => $other,
        }
    };
}

/// Refusal 5, or 8 to 11 with the place that breaks the rule.
#[cold]
#[inline(never)]
fn fault<F: Form<N>, const N: usize>(image: &[u8; N]) -> Outcome {
    if image[..F::CONTENTS.len()] != *F::CONTENTS {
        return (5, None);
    }
    if let Some(copy) = F::COPY
        && word(image, F::IRR) != word(image, copy)
    {
        return (8, Some(copy as u64));
    }
    let count = image[F::COUNT] as usize;
    if count > 16 {
        return (9, Some(F::COUNT as u64));
    }
    let mut flags = (0..count).map(|pair| F::PAIRS + 2 * pair + 1);
    if let Some(place) = flags.find(|&place| image[place] > 1) {
        return (10, Some(place as u64));
    }
    let numbers = F::NUMBERS.map_or(0..0, |at| at + 2 + 2 * count..at + 34);
    let mut unused = (F::PAIRS + 2 * count..F::PAIRS + 32).chain(numbers);
    (11, unused.find(|&place| image[place] != 0).map(|place| place as u64))
}

/// A checked image, or the refusal.
#[inline(always)]
fn checked<F: Form<N>, const N: usize>(image: &[u8]) -> Result<&[u8; N], Outcome> {
    let image: &[u8; N] = image.try_into().map_err(|_| (4, None))?;
    if accepted::<F, N>(image) { Ok(image) } else { Err(fault::<F, N>(image)) }
}

#[inline(always)]
fn checked_mut<F: Form<N>, const N: usize>(image: &mut [u8]) -> Result<&mut [u8; N], Outcome> {
    let image: &mut [u8; N] = image.try_into().map_err(|_| (4, None))?;
    if accepted::<F, N>(image) { Ok(image) } else { Err(fault::<F, N>(image)) }
}

#[inline(always)]
fn told(answer: &mut [u8; 16], (number, value): Outcome) -> u8 {
    let head = u64::from(number) | u64::from(value.is_some()) << 8;
    answer[..8].copy_from_slice(&head.to_le_bytes());
    answer[8..].copy_from_slice(&value.unwrap_or(0).to_le_bytes());
    number
}

/// Where a register stands whose Dwords are plainly stored, by its offset without bit 2.
#[inline(always)]
fn stored<F: Form<N>, const N: usize>(offset: u64) -> Option<usize> {
    Some(match offset {
        0x040 => F::HTMSI_EN,
        0x060 => F::EDGE,
        0x0c0 => F::AUTO0,
        0x0e0 => F::AUTO1,
        0x3e0 => F::POLARITY,
        _ => return None,
    })
}

/// The place of a route or vector byte, and how many bytes of its area stand there and behind.
#[inline(always)]
fn entry<F: Form<N>, const N: usize>(offset: u64) -> Option<(usize, usize)> {
    let (area, k) = match offset {
        0x100..=0x13f => (F::ROUTES, offset as usize - 0x100),
        0x200..=0x23f => (F::VECTORS, offset as usize - 0x200),
        _ => return None,
    };
    Some((area + k, 64 - k))
}

#[inline(always)]
fn half(register: u64, offset: u64) -> u32 {
    (register >> (8 * (offset & 4))) as u32
}

fn dword<F: Form<N>, const N: usize>(image: &[u8; N], offset: u64) -> u32 {
    match offset & !4 {
        0x000 => half(ID, offset),
        0x020 => half(word(image, F::MASK), offset),
        0x380 => half(word(image, F::IRR), offset),
        0x3a0 => half(word(image, F::ISR) & !word(image, F::MASK), offset),
        plain => match (stored::<F, N>(plain), entry::<F, N>(offset)) {
            (Some(at), _) => half(word(image, at), offset),
            (_, Some((at, left))) => {
                let bytes = u32::from_le_bytes(image[at..at + 4].try_into().unwrap());
                if left < 4 { bytes & !(!0 << (8 * left)) } else { bytes }
            }
            _ => 0,
        },
    }
}

fn byte<F: Form<N>, const N: usize>(image: &[u8; N], offset: u64) -> u8 {
    match entry::<F, N>(offset) {
        Some((at, _)) => image[at],
        None if (0x100..0x3a0).contains(&offset) => 0,
        None => (dword::<F, N>(image, offset & !3) >> (8 * (offset & 3))) as u8,
    }
}

#[inline(always)]
fn read_at<F: Form<N>, const N: usize>(image: &[u8; N], width: u64, offset: u64) -> u64 {
    match width {
        1 => u64::from(byte::<F, N>(image, offset)),
        2 => match entry::<F, N>(offset) {
            Some((at, 2..)) => u64::from(u16::from_le_bytes(image[at..at + 2].try_into().unwrap())),
            None if offset & 3 != 3 && !(0x100..0x3a0).contains(&offset) => {
                u64::from((dword::<F, N>(image, offset & !3) >> (8 * (offset & 3))) as u16)
            }
            _ => u64::from(byte::<F, N>(image, offset)) | u64::from(byte::<F, N>(image, offset + 1)) << 8,
        },
        4 => u64::from(dword::<F, N>(image, offset)),
        _ => {
            if let Some((at, 8..)) = entry::<F, N>(offset) {
                return word(image, at);
            }
            let high = dword::<F, N>(image, offset + 4);
            u64::from(dword::<F, N>(image, offset)) | u64::from(high) << 32
        }
    }
}

/// Offers an event for each of these inputs, lowest first: as many as there is room for; the others are counted as dropped.
#[inline(always)]
fn offer<F: Form<N>, const N: usize>(image: &mut [u8; N], mut inputs: u64, flag: u8) -> u32 {
    if inputs == 0 {
        return 0;
    }
    let mut count = image[F::COUNT] as usize;
    let mut next = F::NUMBERS.map_or(0, |at| number(image, at));
    while inputs != 0 && count < 16 {
        image[F::PAIRS + 2 * count] = image[F::VECTORS + inputs.trailing_zeros() as usize];
        image[F::PAIRS + 2 * count + 1] = flag;
        if let Some(at) = F::NUMBERS {
            put_number(image, at + 2 + 2 * count, next);
            next = next.wrapping_add(1);
        }
        inputs &= inputs - 1;
        count += 1;
    }
    image[F::COUNT] = count as u8;
    let lost = inputs.count_ones();
    if let Some(at) = F::NUMBERS {
        put_number(image, at, next.wrapping_add(lost as u16));
    }
    if lost == 0 {
        return 0;
    }
    let drops = u32::from_le_bytes(image[F::DROPS..F::DROPS + 4].try_into().unwrap());
    image[F::DROPS..F::DROPS + 4].copy_from_slice(&drops.saturating_add(lost).to_le_bytes());
    lost
}

/// An event that is returned: the vector, and its number in bits 16 to 31.
#[inline(always)]
fn returned<F: Form<N>, const N: usize>(image: &mut [u8; N], input: usize) -> Outcome {
    let number = match F::NUMBERS {
        Some(at) => {
            let number = number(image, at);
            put_number(image, at, number.wrapping_add(1));
            number
        }
        None => u16::from(image[F::COUNT]),
    };
    (0, Some(u64::from(image[F::VECTORS + input]) | u64::from(number) << 16))
}

fn write_mask<F: Form<N>, const N: usize>(image: &mut [u8; N], new: u64) -> u32 {
    let (old, isr) = (word(image, F::MASK), word(image, F::ISR));
    put(image, F::MASK, new);
    let pending = word(image, F::IRR) & !isr & old & !new;
    let asserted = pending & pending.wrapping_neg();
    let retracted = isr & !old & new;
    put(image, F::ISR, (isr | asserted) & !retracted);
    offer::<F, N>(image, asserted, 1) + offer::<F, N>(image, retracted, 0)
}

fn clear<F: Form<N>, const N: usize>(image: &mut [u8; N], inputs: u64) -> u32 {
    let isr = word(image, F::ISR);
    let irr = word(image, F::IRR) & !inputs;
    put_irr::<F, N>(image, irr);
    put(image, F::ISR, isr & !inputs);
    offer::<F, N>(image, isr & inputs, 0)
}

fn write_dword<F: Form<N>, const N: usize>(image: &mut [u8; N], offset: u64, value: u32) -> u32 {
    let shift = 8 * (offset & 4);
    let placed = u64::from(value) << shift;
    let kept = !(0xffff_ffff << shift);
    let at = match offset & !4 {
        0x020 => return write_mask::<F, N>(image, word(image, F::MASK) & kept | placed),
        0x080 => return clear::<F, N>(image, placed),
        0x3a0 => F::ISR,
        plain => match (stored::<F, N>(plain), entry::<F, N>(offset)) {
            (Some(at), _) => at,
            (_, Some((at, left))) => {
                let bytes = value.to_le_bytes();
                if left < 4 {
                    image[at..at + left].copy_from_slice(&bytes[..left])
                } else {
                    image[at..at + 4].copy_from_slice(&bytes)
                }
                return 0;
            }
            _ => return 0,
        },
    };
    put(image, at, word(image, at) & kept | placed);
    0
}

fn write_byte<F: Form<N>, const N: usize>(image: &mut [u8; N], offset: u64, value: u8) -> u32 {
    match entry::<F, N>(offset) {
        Some((at, _)) => image[at] = value,
        None if (0x100..0x3a0).contains(&offset) => {}
        None => {
            let shift = 8 * (offset & 3);
            let old = dword::<F, N>(image, offset & !3) & !(0xff << shift);
            return write_dword::<F, N>(image, offset & !3, old | u32::from(value) << shift);
        }
    }
    0
}

#[inline(always)]
fn write_at<F: Form<N>, const N: usize>(image: &mut [u8; N], width: u64, offset: u64, value: u64) -> u32 {
    match width {
        1 => write_byte::<F, N>(image, offset, value as u8),
        2 => {
            let first = write_byte::<F, N>(image, offset, value as u8);
            first + write_byte::<F, N>(image, offset + 1, (value >> 8) as u8)
        }
        4 => write_dword::<F, N>(image, offset, value as u32),
        _ => {
            if let Some((at, 8..)) = entry::<F, N>(offset) {
                put(image, at, value);
                return 0;
            }
            let first = write_dword::<F, N>(image, offset, value as u32);
            first + write_dword::<F, N>(image, offset + 4, (value >> 32) as u32)
        }
    }
}

/// Refusals 2 and 1, or the offset.
#[inline(always)]
fn offset_of(base: u64, size: u64, address: u64, width: u64) -> Result<u64, Outcome> {
    if !matches!(width, 1 | 2 | 4 | 8) {
        return Err((2, None));
    }
    let bytes = size.min(u64::MAX - base);
    let offset = address.wrapping_sub(base);
    if width > bytes || offset > bytes - width {
        return Err((1, Some(address)));
    }
    Ok(offset)
}

/// An input that is latched, unmasked and not in service goes into service.
#[inline(always)]
fn served<F: Form<N>, const N: usize>(image: &mut [u8; N], input: usize, irr: u64) -> Outcome {
    let isr = word(image, F::ISR);
    if irr & !word(image, F::MASK) & !isr & (1 << input) == 0 {
        return (0, None);
    }
    put(image, F::ISR, isr | 1 << input);
    returned::<F, N>(image, input)
}

#[inline(always)]
fn read_on<F: Form<N>, const N: usize>(image: &[u8; N], base: u64, size: u64, address: u64, width: u64) -> Outcome {
    match offset_of(base, size, address, width) {
        Ok(offset) => (0, Some(read_at::<F, N>(image, width, offset))),
        Err(refused) => refused,
    }
}

#[inline(always)]
fn write_on<F: Form<N>, const N: usize>(image: &mut [u8; N], base: u64, size: u64, address: u64, width: u64, value: u64) -> Outcome {
    match offset_of(base, size, address, width) {
        Ok(offset) => (0, Some(u64::from(write_at::<F, N>(image, width, offset, value)))),
        Err(refused) => refused,
    }
}

#[inline(always)]
fn level_on<F: Form<N>, const N: usize>(image: &mut [u8; N], input: u64, level: u64) -> Outcome {
    if input >= 64 {
        return (3, None);
    }
    let (input, irr) = (input as usize, word(image, F::IRR));
    if level != 0 {
        put_irr::<F, N>(image, irr | 1 << input);
        return served::<F, N>(image, input, irr | 1 << input);
    }
    let isr = word(image, F::ISR);
    put_irr::<F, N>(image, irr & !(1 << input));
    put(image, F::ISR, isr & !(1 << input));
    if isr >> input & 1 == 1 { returned::<F, N>(image, input) } else { (0, None) }
}

#[inline(always)]
fn poll_on<F: Form<N>, const N: usize>(image: &mut [u8; N], input: u64) -> Outcome {
    if input >= 64 { (3, None) } else { served::<F, N>(image, input as usize, word(image, F::IRR)) }
}

/// Takes the first so many of 16 entries of two bytes out, out of those that are used.
#[inline(always)]
fn take_out(entries: &mut [u8; 32], moved: usize, count: usize) {
    if moved == count {
        *entries = [0; 32];
    } else {
        let mut room = [0; 64];
        room[..32].copy_from_slice(entries);
        entries.copy_from_slice(&room[2 * moved..2 * moved + 32]);
    }
}

/// The numbers of four events, those from 0 on where the image has none.
#[inline(always)]
fn made_from<F: Form<N>, const N: usize>(image: &[u8; N], first: usize) -> u64 {
    F::NUMBERS.map_or(0x0003_0002_0001_0000 + 0x0001_0001_0001_0001 * first as u64, |at| word(image, at + 2 + 2 * first))
}

/// Four pairs, each with its number behind it: one shuffle.
#[inline(always)]
fn woven(pairs: u64, numbers: u64) -> [u8; 16] {
    let (p, n) = (pairs.to_le_bytes(), numbers.to_le_bytes());
    [p[0], p[1], n[0], n[1], p[2], p[3], n[2], n[3], p[4], p[5], n[4], n[5], p[6], p[7], n[6], n[7]]
}

/// The work of a drain: what it copies out is up to the caller.
#[inline(always)]
fn drained<F: Form<N>, const N: usize>(image: &mut [u8; N], room: &mut [u8], copied: impl FnOnce(&[u8; N], &mut [u8])) -> Outcome {
    let count = image[F::COUNT] as usize;
    let moved = count.min(room.len() / 4);
    if moved == 0 {
        return (0, Some(0));
    }
    copied(image, &mut room[..4 * moved]);
    take_out((&mut image[F::PAIRS..F::PAIRS + 32]).try_into().unwrap(), moved, count);
    if let Some(at) = F::NUMBERS {
        take_out((&mut image[at + 2..at + 34]).try_into().unwrap(), moved, count);
    }
    image[F::COUNT] = (count - moved) as u8;
    (0, Some(moved as u64))
}

/// Events one by one, from the first of these on.
#[inline(always)]
fn copy_each<F: Form<N>, const N: usize>(image: &[u8; N], first: usize, out: &mut [u8]) {
    for (k, event) in out.chunks_exact_mut(4).enumerate() {
        let made = F::NUMBERS.map_or((first + k) as u16, |at| number(image, at + 2 + 2 * (first + k)));
        let bytes = u32::from(number(image, F::PAIRS + 2 * (first + k))) | u32::from(made) << 16;
        event.copy_from_slice(&bytes.to_le_bytes());
    }
}

#[inline(always)]
fn drain_on<F: Form<N>, const N: usize>(image: &mut [u8; N], room: &mut [u8]) -> Outcome {
    drained::<F, N>(image, room, |image, out| copy_each::<F, N>(image, 0, out))
}

/// Where many are to be expected: four at a time, and the rest one by one.
#[inline(always)]
fn drain_many<F: Form<N>, const N: usize>(image: &mut [u8; N], room: &mut [u8]) -> Outcome {
    drained::<F, N>(image, room, |image, out| {
        let (fours, rest) = out.as_chunks_mut::<16>();
        for (k, four) in fours.iter_mut().enumerate() {
            *four = woven(word(image, F::PAIRS + 8 * k), made_from::<F, N>(image, 4 * k));
        }
        copy_each::<F, N>(image, 4 * fours.len(), rest);
    })
}

#[inline(always)]
fn read_in<F: Form<N>, const N: usize>(image: &[u8], base: u64, size: u64, address: u64, width: u64) -> Outcome {
    match checked::<F, N>(image) {
        Ok(image) => read_on::<F, N>(image, base, size, address, width),
        Err(refused) => refused,
    }
}

#[inline(always)]
fn changed<F: Form<N>, const N: usize>(image: &mut [u8], change: impl FnOnce(&mut [u8; N]) -> Outcome) -> Outcome {
    match checked_mut::<F, N>(image) {
        Ok(image) => change(image),
        Err(refused) => refused,
    }
}

/// A run of a length that the compiler knows, by stores of sixteen bytes, of which the last two may overlap: no call.
#[inline(always)]
fn put_run(to: &mut [u8], from: &[u8]) {
    let mut k = 0;
    while k + 16 <= from.len() {
        let part: [u8; 16] = from[k..k + 16].try_into().unwrap();
        to[k..k + 16].copy_from_slice(&part);
        k += 16;
    }
    let last = from.len() - 16;
    let part: [u8; 16] = from[last..].try_into().unwrap();
    to[last..].copy_from_slice(&part);
}

#[inline(always)]
fn reset_in<F: Form<N>, const N: usize>(image: &mut [u8]) -> Outcome {
    put_run(image, const { &F::RESET });
    (0, None)
}

#[inline(always)]
fn write_in<F: Form<N>, const N: usize>(image: &mut [u8], base: u64, size: u64, address: u64, width: u64, value: u64) -> Outcome {
    changed::<F, N>(image, |image| write_on::<F, N>(image, base, size, address, width, value))
}

#[inline(always)]
fn level_in<F: Form<N>, const N: usize>(image: &mut [u8], input: u64, level: u64) -> Outcome {
    changed::<F, N>(image, |image| level_on::<F, N>(image, input, level))
}

#[inline(always)]
fn poll_in<F: Form<N>, const N: usize>(image: &mut [u8], input: u64) -> Outcome {
    changed::<F, N>(image, |image| poll_on::<F, N>(image, input))
}

#[inline(always)]
fn drain_in<F: Form<N>, const N: usize>(image: &mut [u8], room: &mut [u8]) -> Outcome {
    changed::<F, N>(image, |image| drain_many::<F, N>(image, room))
}

/// What a conversion takes over.
struct Taken<'a> {
    first: &'a [u8; 24],
    alike: &'a [u8; ALIKE],
    numbers: [u8; 34],
}

#[inline(always)]
fn convert_in<F: Form<N>, const N: usize>(image: &[u8], target: &mut [u8]) -> Outcome {
    if !matches!(target.len(), 259 | 251 | 290) {
        return (4, None);
    }
    let image = match checked::<F, N>(image) {
        Ok(image) => image,
        Err(refused) => return refused,
    };
    let mut numbers = [0; 34];
    if let Some(at) = F::NUMBERS {
        numbers.copy_from_slice(&image[at..at + 34]);
    } else {
        let count = image[F::COUNT];
        numbers[0] = count;
        for k in 0..count {
            numbers[2 + 2 * usize::from(k)] = k;
        }
    }
    let first = image[F::MASK..F::MASK + 24].try_into().unwrap();
    let alike = image[F::IRR..F::IRR + ALIKE].try_into().unwrap();
    by_length!(target, put_in, &Taken { first, alike, numbers })
}

#[inline(always)]
fn put_in<F: Form<N>, const N: usize>(target: &mut [u8], taken: &Taken) -> Outcome {
    let target: &mut [u8; N] = target.try_into().unwrap();
    target[..F::CONTENTS.len()].copy_from_slice(F::CONTENTS);
    target[F::MASK..F::MASK + 24].copy_from_slice(taken.first);
    put_run(&mut target[F::IRR..F::IRR + ALIKE], taken.alike);
    if let Some(copy) = F::COPY {
        target[copy..copy + 8].copy_from_slice(&taken.alike[..8]);
    }
    if let Some(at) = F::NUMBERS {
        target[at..at + 34].copy_from_slice(&taken.numbers);
    }
    (0, None)
}

/// For each kind of record, from 1 on, the bits that it may have: of its first eight bytes, and of the value.
const RECORD_ALLOWED: [(u64, u64); 6] = [(0xffff, 0), (0xffff, 0), (0xffff, 0), (0xffff_ffff, 0), (0xffff_ffff, !0), (0xff, 0)];

#[inline(always)]
fn is_good(record: &[u8; 16]) -> bool {
    let Some((head, value)) = RECORD_ALLOWED.get(usize::from(record[0]).wrapping_sub(1)) else { return false };
    word(record, 0) & !head | word(record, 8) & !value == 0
}

/// What a trace lists of its blocks, and all its records; or 12 for its contents.
#[inline(always)]
fn contents_of(trace: &[u8]) -> Result<(&[[u8; 4]], &[[u8; 16]]), Outcome> {
    const WRONG: Outcome = (12, None);
    let (blocks, rest) = trace.split_first_chunk().ok_or(WRONG)?;
    let blocks = usize::from(u16::from_le_bytes(*blocks));
    if !(1..=64).contains(&blocks) {
        return Err(WRONG);
    }
    let (listed, rest) = rest.split_at_checked(4 * blocks).ok_or(WRONG)?;
    let listed = listed.as_chunks().0;
    let mut records = 0;
    for block in listed {
        let (from, count) = (number(block, 0), number(block, 2));
        if usize::from(from) != 2 + 4 * blocks + 16 * records || count == 0 {
            return Err(WRONG);
        }
        records += usize::from(count);
    }
    if records > 4000 || rest.len() != 16 * records {
        return Err(WRONG);
    }
    Ok((listed, rest.as_chunks().0))
}

/// The records of a trace; or 12 for its contents, 13 for the first bad record.
#[inline(always)]
fn records_of(trace: &[u8]) -> Result<&[[u8; 16]], Outcome> {
    let (_, records) = contents_of(trace)?;
    match records.iter().position(|record| !is_good(record)) {
        Some(bad) => Err((13, Some(bad as u64))),
        None => Ok(records),
    }
}

/// The trace played on an image that `begun` makes ready where nothing is refused: by a reset, or not at all.
#[inline(always)]
fn play_from<F: Form<N>, const N: usize>(
    image: &mut [u8],
    begun: impl FnOnce(&mut [u8; N]),
    trace: &[u8],
    answers: &mut [u8],
    events: &mut [u8],
) -> Outcome {
    let records = match records_of(trace) {
        Ok(records) => records,
        Err(refused) => return refused,
    };
    let drains = records.iter().filter(|record| record[0] == 6).count();
    let answers = answers.as_chunks_mut().0;
    if answers.len() < records.len() || events.len() < 64 * drains {
        return (7, None);
    }
    let image: &mut [u8; N] = image.try_into().unwrap();
    begun(image);
    let mut used = 0;
    for (record, answer) in records.iter().zip(answers) {
        let (byte, offset) = (u64::from(record[1]), u64::from(number(record, 2)));
        let outcome = match record[0] {
            1 => level_on::<F, N>(image, byte, 1),
            2 => level_on::<F, N>(image, byte, 0),
            3 => poll_on::<F, N>(image, byte),
            4 => read_on::<F, N>(image, 0, 0x1_0000, offset, byte),
            5 => write_on::<F, N>(image, 0, 0x1_0000, offset, byte, word(record, 8)),
            _ => {
                let drained = drain_on::<F, N>(image, &mut events[used..]);
                used += 4 * drained.1.unwrap_or(0) as usize;
                drained
            }
        };
        told(answer, outcome);
    }
    (0, Some(records.len() as u64))
}

#[inline(always)]
fn play_in<F: Form<N>, const N: usize>(image: &mut [u8], trace: &[u8], answers: &mut [u8], events: &mut [u8]) -> Outcome {
    play_from::<F, N>(image, |image| *image = F::RESET, trace, answers, events)
}

#[inline(always)]
fn play_on_in<F: Form<N>, const N: usize>(image: &mut [u8], trace: &[u8], answers: &mut [u8], events: &mut [u8]) -> Outcome {
    match checked::<F, N>(image) {
        Ok(_) => play_from::<F, N>(image, |_| (), trace, answers, events),
        Err(refused) => refused,
    }
}

// The calls. They stay calls of their own in the measured program, as those of a library do.

#[inline(never)]
pub fn reset(image: &mut [u8], answer: &mut [u8]) -> u8 {
    let Some(answer) = answer.first_chunk_mut() else { return 7 };
    told(answer, by_length!(image, reset_in))
}

/// A Dword read from an image that passed; every other width is a function of its own.
#[inline(always)]
fn read_quick<F: Form<N>, const N: usize>(image: &[u8; N], base: u64, size: u64, address: u64, width: u64, answer: &mut [u8; 16]) -> u8 {
    if width != 4 {
        return read_other::<F, N>(image, base, size, address, width, answer);
    }
    told(answer, offset_of(base, size, address, 4).map_or_else(|refused| refused, |offset| (0, Some(dword::<F, N>(image, offset).into()))))
}

#[inline(never)]
fn read_other<F: Form<N>, const N: usize>(image: &[u8; N], base: u64, size: u64, address: u64, width: u64, answer: &mut [u8; 16]) -> u8 {
    told(answer, read_on::<F, N>(image, base, size, address, width))
}

#[inline(never)]
pub fn read(image: &[u8], base: u64, size: u64, address: u64, width: u64, answer: &mut [u8]) -> u8 {
    let Some(answer) = answer.first_chunk_mut() else { return 7 };
    where_passed!(image, is_quiet, read_quick(base, size, address, width, answer), read_tested(image, base, size, address, width, answer))
}

#[inline(never)]
fn read_tested(image: &[u8], base: u64, size: u64, address: u64, width: u64, answer: &mut [u8; 16]) -> u8 {
    told(answer, by_length!(image, read_in, base, size, address, width))
}

#[inline(always)]
fn write_quick<F: Form<N>, const N: usize>(
    image: &mut [u8; N],
    base: u64,
    size: u64,
    address: u64,
    width: u64,
    value: u64,
    answer: &mut [u8; 16],
) -> u8 {
    if width != 4 {
        return write_other::<F, N>(image, base, size, address, width, value, answer);
    }
    let written = |offset| (0, Some(write_dword::<F, N>(image, offset, value as u32).into()));
    told(answer, offset_of(base, size, address, 4).map_or_else(|refused| refused, written))
}

#[inline(never)]
fn write_other<F: Form<N>, const N: usize>(
    image: &mut [u8; N],
    base: u64,
    size: u64,
    address: u64,
    width: u64,
    value: u64,
    answer: &mut [u8; 16],
) -> u8 {
    told(answer, write_on::<F, N>(image, base, size, address, width, value))
}

#[inline(never)]
pub fn write(image: &mut [u8], base: u64, size: u64, address: u64, width: u64, value: u64, answer: &mut [u8]) -> u8 {
    let Some(answer) = answer.first_chunk_mut() else { return 7 };
    where_passed!(
        image,
        is_quiet,
        write_quick(base, size, address, width, value, answer),
        write_tested(image, base, size, address, width, value, answer)
    )
}

#[inline(never)]
fn write_tested(image: &mut [u8], base: u64, size: u64, address: u64, width: u64, value: u64, answer: &mut [u8; 16]) -> u8 {
    told(answer, by_length!(image, write_in, base, size, address, width, value))
}

#[inline(always)]
fn level_quick<F: Form<N>, const N: usize>(image: &mut [u8; N], input: u64, level: u64, answer: &mut [u8; 16]) -> u8 {
    told(answer, level_on::<F, N>(image, input, level))
}

#[inline(never)]
pub fn level(image: &mut [u8], input: u64, level: u64, answer: &mut [u8]) -> u8 {
    let Some(answer) = answer.first_chunk_mut() else { return 7 };
    where_passed!(image, is_quiet, level_quick(input, level, answer), level_tested(image, input, level, answer))
}

#[inline(never)]
fn level_tested(image: &mut [u8], input: u64, level: u64, answer: &mut [u8; 16]) -> u8 {
    told(answer, by_length!(image, level_in, input, level))
}

#[inline(always)]
fn poll_quick<F: Form<N>, const N: usize>(image: &mut [u8; N], input: u64, answer: &mut [u8; 16]) -> u8 {
    told(answer, poll_on::<F, N>(image, input))
}

#[inline(never)]
pub fn poll(image: &mut [u8], input: u64, answer: &mut [u8]) -> u8 {
    let Some(answer) = answer.first_chunk_mut() else { return 7 };
    where_passed!(image, is_quiet, poll_quick(input, answer), poll_tested(image, input, answer))
}

#[inline(never)]
fn poll_tested(image: &mut [u8], input: u64, answer: &mut [u8; 16]) -> u8 {
    told(answer, by_length!(image, poll_in, input))
}

/// A drain where at most one event waits. Each way tells for itself, so that what it tells is constant.
#[inline(always)]
fn drain_quick<F: Form<N>, const N: usize>(image: &mut [u8; N], room: &mut [u8], answer: &mut [u8; 16]) -> u8 {
    let Some(to) = room.first_chunk_mut::<4>() else { return told(answer, (0, Some(0))) };
    if image[F::COUNT] == 0 {
        return told(answer, (0, Some(0)));
    }
    let made = F::NUMBERS.map_or(0, |at| number(image, at + 2));
    *to = (u32::from(number(image, F::PAIRS)) | u32::from(made) << 16).to_le_bytes();
    put_number(image, F::PAIRS, 0);
    if let Some(at) = F::NUMBERS {
        put_number(image, at + 2, 0);
    }
    image[F::COUNT] = 0;
    told(answer, (0, Some(1)))
}

#[inline(never)]
pub fn drain(image: &mut [u8], events: &mut [u8], place: usize, answer: &mut [u8]) -> u8 {
    let Some(answer) = answer.first_chunk_mut() else { return 7 };
    let Some(room) = events.get_mut(place..) else { return 7 };
    where_passed!(image, has_few, drain_quick(room, answer), drain_tested(image, room, answer))
}

#[inline(never)]
fn drain_tested(image: &mut [u8], room: &mut [u8], answer: &mut [u8; 16]) -> u8 {
    told(answer, by_length!(image, drain_in, room))
}

#[inline(never)]
pub fn convert(image: &[u8], target: &mut [u8], answer: &mut [u8]) -> u8 {
    let Some(answer) = answer.first_chunk_mut() else { return 7 };
    told(answer, by_length!(image, convert_in, target))
}

#[inline(never)]
pub fn play(trace: &[u8], image: &mut [u8], answers: &mut [u8], events: &mut [u8], answer: &mut [u8]) -> u8 {
    let Some(answer) = answer.first_chunk_mut() else { return 7 };
    match by_length!(image, play_in, trace, answers, events) {
        (7, _) => 7,
        outcome => told(answer, outcome),
    }
}

#[inline(never)]
pub fn play_on(trace: &[u8], image: &mut [u8], answers: &mut [u8], events: &mut [u8], answer: &mut [u8]) -> u8 {
    let Some(answer) = answer.first_chunk_mut() else { return 7 };
    match by_length!(image, play_on_in, trace, answers, events) {
        (7, _) => 7,
        outcome => told(answer, outcome),
    }
}
