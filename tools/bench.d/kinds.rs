//! The kinds of call that are measured: for each the prepared image, the call, and what its outcome must be, so that a kind is what its name says.

use crate::call::Call;

pub const LENGTH: usize = 259;
/// Form 2 has no copy of IRR.
pub const LENGTH_2: usize = 251;
/// Form 2 with the numbers of events, the longest.
pub const NUMBERED: usize = 290;
pub const LENGTHS: [usize; 3] = [LENGTH, LENGTH_2, NUMBERED];
const CONTENTS: [u8; 22] = [1, 4, 1, 22, 0, 72, 0, 2, 94, 0, 64, 0, 3, 158, 0, 64, 0, 4, 222, 0, 37, 0];
const CONTENTS_2: [u8; 22] = [2, 4, 1, 22, 0, 64, 0, 2, 86, 0, 64, 0, 3, 150, 0, 64, 0, 4, 214, 0, 37, 0];
const CONTENTS_5: [u8; 27] = [2, 5, 1, 27, 0, 64, 0, 2, 91, 0, 64, 0, 3, 155, 0, 64, 0, 4, 219, 0, 37, 0, 5, 0, 1, 34, 0];
pub const BASE: u64 = 0x1000_0000;
pub const SIZE: u64 = 0x400;

/// Where an image of so many bytes has its count of waiting events.
pub fn count_at(length: usize) -> usize {
    match length {
        LENGTH_2 => 214,
        NUMBERED => 219,
        _ => 222,
    }
}

/// What is lent to one call, each area at its own fixed alignment.
#[derive(Clone, PartialEq, Eq)]
#[repr(C, align(64))]
pub struct Slot {
    pub image: [u8; NUMBERED],
    pub answer: [u8; 16],
    pub events: [u8; 64],
}

impl Slot {
    /// With this image of form 1, in the form of that length; behind it are zeros.
    pub fn new(image: &[u8; LENGTH], length: usize) -> Self {
        Slot { image: moved(image, length), answer: [0xee; 16], events: [0xdd; 64] }
    }
}

/// An image of form 1 in the form of that length. Its waiting events end with number 999.
pub fn moved(image: &[u8; LENGTH], length: usize) -> [u8; NUMBERED] {
    let mut to = [0; NUMBERED];
    match length {
        LENGTH_2 => {
            to[..22].copy_from_slice(if image[..22] == CONTENTS { &CONTENTS_2 } else { &image[..22] });
            to[22..46].copy_from_slice(&image[22..46]);
            to[46..LENGTH_2].copy_from_slice(&image[54..]);
        }
        NUMBERED => {
            to[..27].copy_from_slice(&CONTENTS_5);
            to[27..51].copy_from_slice(&image[22..46]);
            to[51..256].copy_from_slice(&image[54..]);
            let count = usize::from(image[222]).min(16);
            let waiting = 1000 - count as u16..1000;
            for (place, number) in to[256..].chunks_mut(2).zip([1000].into_iter().chain(waiting)) {
                place.copy_from_slice(&number.to_le_bytes());
            }
        }
        _ => to[..LENGTH].copy_from_slice(image),
    }
    to
}

pub struct Kind {
    pub name: &'static str,
    pub title: &'static str,
    pub call: Call,
    pub slot: Slot,
    /// The lengths that are said of the areas.
    pub image_len: usize,
    pub answer_len: usize,
    /// The number that the call must hand back, how many events must wait after it, and how many it must drop.
    pub number: u8,
    pub waiting: u8,
    pub drops: u32,
}

/// An image in the making.
#[derive(Clone)]
pub struct Prepared(pub [u8; LENGTH]);

impl Prepared {
    /// A device that a guest has set up: all enabled and unmasked, routes 1, vector n + 0x40 for input n.
    pub fn new() -> Self {
        let mut image = [0; LENGTH];
        image[..22].copy_from_slice(&CONTENTS);
        image[94..158].fill(1);
        for (input, byte) in image[158..222].iter_mut().enumerate() {
            *byte = 0x40 + input as u8;
        }
        Prepared(image).register(1, !0)
    }

    /// Sets a register of body 1, by its place there.
    pub fn register(mut self, place: usize, value: u64) -> Self {
        self.0[22 + 8 * place..30 + 8 * place].copy_from_slice(&value.to_le_bytes());
        self
    }

    pub fn mask(self, value: u64) -> Self {
        self.register(0, value)
    }

    pub fn latched(self, value: u64) -> Self {
        self.register(3, value).register(4, value)
    }

    pub fn in_service(self, value: u64) -> Self {
        self.register(5, value)
    }

    pub fn waiting(mut self, count: usize) -> Self {
        self.0[222] = count as u8;
        for k in 0..count {
            self.0[227 + 2 * k] = 0x50 + k as u8;
            self.0[228 + 2 * k] = k as u8 & 1;
        }
        self
    }

    pub fn byte(mut self, at: usize, value: u8) -> Self {
        self.0[at] = value;
        self
    }
}

fn kind(name: &'static str, title: &'static str, image: Prepared, call: Call) -> Kind {
    let waiting = image.0[222];
    let slot = Slot::new(&image.0, LENGTH);
    Kind { name, title, call, slot, image_len: LENGTH, answer_len: 16, number: 0, waiting, drops: 0 }
}

/// The kind on the same image in the form of another length.
fn in_form(length: usize, name: &'static str, title: &'static str, kind: Kind) -> Kind {
    let image = kind.slot.image[..LENGTH].try_into().expect("a kind is made in form 1");
    Kind { name, title, slot: Slot::new(image, length), image_len: length, ..kind }
}

fn refused(name: &'static str, title: &'static str, number: u8, image: Prepared, call: Call) -> Kind {
    Kind { number, ..kind(name, title, image, call) }
}

pub fn read(offset: u64, width: u64) -> Call {
    Call::Read { base: BASE, size: SIZE, address: BASE + offset, width }
}

pub fn write(offset: u64, width: u64, value: u64) -> Call {
    Call::Write { base: BASE, size: SIZE, address: BASE + offset, width, value }
}

/// A guest at work: two inputs latched and in service, input 7 masked.
pub fn busy() -> Prepared {
    Prepared::new().mask(0x80).latched(0x28).in_service(0x28)
}

pub fn all() -> Vec<Kind> {
    let mut kinds = vec![kind("reset", "reset", busy(), Call::Reset)];
    kinds.extend(reads(&busy));
    kinds.extend(writes(&busy));
    kinds.extend(inputs(&busy));
    kinds.extend(behind(&busy));
    kinds.extend(refusals(&busy));
    kinds.extend(forms(&busy));
    kinds
}

/// Some kinds in form 2 and with numbers, and conversions.
fn forms(busy: &dyn Fn() -> Prepared) -> Vec<Kind> {
    let again = |length, name, title, which: &str| {
        let kinds = reads(busy).into_iter().chain(writes(busy)).chain(inputs(busy)).chain(behind(busy)).chain(refusals(busy));
        let found = kinds.into_iter().find(|kind| kind.name == which).expect("a kind of that name");
        in_form(length, name, title, found)
    };
    let convert = |name, title, from, to| in_form(from, name, title, kind("", "", busy().waiting(3), Call::Convert { target: to }));
    let mut unused = again(NUMBERED, "numbers-refusal-11", "numbers: refusal 11, last one (raise)", "raise");
    unused.slot.image[NUMBERED - 1] = 1;
    vec![
        again(LENGTH_2, "form2-read", "form 2: read Dword, MASK", "read-mask"),
        again(LENGTH_2, "form2-mask-1", "form 2: write MASK, 1 event", "mask-1"),
        again(LENGTH_2, "form2-raise", "form 2: raise, vector returned", "raise"),
        again(LENGTH_2, "form2-drain-1", "form 2: drain of 1", "drain-1"),
        in_form(NUMBERED, "numbers-reset", "numbers: reset", kind("", "", busy(), Call::Reset)),
        again(NUMBERED, "numbers-read-isr", "numbers: read Dword, ISR", "read-isr"),
        again(NUMBERED, "numbers-read", "numbers: read Dword, MASK", "read-mask"),
        again(NUMBERED, "numbers-mask-0", "numbers: write MASK, 0 events", "mask-0"),
        again(NUMBERED, "numbers-mask-1", "numbers: write MASK, 1 event", "mask-1"),
        again(NUMBERED, "numbers-mask-17", "numbers: write MASK, 17 events", "mask-17"),
        again(NUMBERED, "numbers-clear", "numbers: write CLEAR, 1 event", "clear"),
        again(NUMBERED, "numbers-vector-dword", "numbers: write vectors, Dword", "vector-dword"),
        again(NUMBERED, "numbers-raise", "numbers: raise, vector returned", "raise"),
        again(NUMBERED, "numbers-lower", "numbers: lower, vector returned", "lower"),
        again(NUMBERED, "numbers-poll", "numbers: poll, vector returned", "poll"),
        again(NUMBERED, "numbers-poll-none", "numbers: poll, nothing", "poll-none"),
        again(NUMBERED, "numbers-drain-16", "numbers: drain of 16", "drain-16"),
        again(NUMBERED, "numbers-drain-8", "numbers: drain of 8 of 16", "drain-8"),
        again(NUMBERED, "numbers-drain-1", "numbers: drain of 1", "drain-1"),
        again(NUMBERED, "numbers-drain-0", "numbers: drain of 0", "drain-0"),
        again(NUMBERED, "numbers-1-raise", "numbers, 1 waits: raise, vector returned", "waiting-1-raise"),
        again(NUMBERED, "numbers-3-raise", "numbers, 3 wait: raise, vector returned", "waiting-3-raise"),
        Kind { number: 11, ..unused },
        convert("convert-2", "convert, form 1 to 2", LENGTH, LENGTH_2),
        convert("convert-1", "convert, form 2 to 1", LENGTH_2, LENGTH),
        convert("convert-same", "convert, form 1 to 1", LENGTH, LENGTH),
        convert("convert-numbers", "convert, form 1 to numbers", LENGTH, NUMBERED),
        convert("convert-from-numbers", "convert, numbers to form 1", NUMBERED, LENGTH),
        convert("convert-numbers-same", "convert, numbers to numbers", NUMBERED, NUMBERED),
    ]
}

fn reads(busy: &dyn Fn() -> Prepared) -> Vec<Kind> {
    vec![
        kind("read-isr", "read Dword, ISR", busy(), read(0x3a0, 4)),
        kind("read-mask", "read Dword, MASK", busy(), read(0x020, 4)),
        kind("read-byte", "read Byte, MASK", busy(), read(0x021, 1)),
        kind("read-byte-vector", "read Byte, vector", busy(), read(0x211, 1)),
        kind("read-word", "read Word, HTMSI_EN", busy(), read(0x042, 2)),
        kind("read-qword-vectors", "read Qword, vectors", busy(), read(0x210, 8)),
        kind("read-qword-mask", "read Qword, MASK", busy(), read(0x020, 8)),
    ]
}

fn writes(busy: &dyn Fn() -> Prepared) -> Vec<Kind> {
    let latched = || Prepared::new().mask(!0).latched(0x20);
    let serving = || Prepared::new().latched(0x1_ffff).in_service(0x1_ffff);
    vec![
        kind("mask-0", "write MASK, 0 events", latched(), write(0x020, 4, 0xffff_fffe)),
        Kind { waiting: 1, ..kind("mask-1", "write MASK, 1 event", latched(), write(0x020, 4, 0xffff_ffdf)) },
        Kind { waiting: 16, drops: 1, ..kind("mask-17", "write MASK, 17 events", serving(), write(0x020, 4, 0xffff_ffff)) },
        Kind { waiting: 1, ..kind("clear", "write CLEAR, 1 event", busy(), write(0x080, 4, 0x20)) },
        kind("clear-0", "write CLEAR, 0 events", busy(), write(0x080, 4, 0x100)),
        kind("htmsi-en", "write HTMSI_EN", busy(), write(0x040, 4, 0x1234_5678)),
        kind("isr", "write ISR", busy(), write(0x3a0, 4, 0x8)),
        kind("vector-byte", "write vector, Byte", busy(), write(0x211, 1, 0x77)),
        kind("vector-dword", "write vectors, Dword", busy(), write(0x210, 4, 0x7776_7574)),
        kind("vector-qword", "write vectors, Qword", busy(), write(0x210, 8, 0x7776_7574_7372_7170)),
    ]
}

fn inputs(busy: &dyn Fn() -> Prepared) -> Vec<Kind> {
    vec![
        kind("raise", "raise, vector returned", busy(), Call::Level { input: 9, level: 1 }),
        kind("raise-none", "raise, masked", busy(), Call::Level { input: 7, level: 1 }),
        kind("lower", "lower, vector returned", busy(), Call::Level { input: 5, level: 0 }),
        kind("poll", "poll, vector returned", busy().latched(0x228), Call::Poll { input: 9 }),
        kind("poll-none", "poll, nothing", busy(), Call::Poll { input: 9 }),
        Kind { waiting: 0, ..kind("drain-16", "drain of 16", busy().waiting(16), Call::Drain { place: 0 }) },
        Kind { waiting: 8, ..kind("drain-8", "drain of 8 of 16", busy().waiting(16), Call::Drain { place: 32 }) },
        Kind { waiting: 0, ..kind("drain-1", "drain of 1", busy().waiting(1), Call::Drain { place: 0 }) },
        kind("drain-0", "drain of 0", busy(), Call::Drain { place: 0 }),
    ]
}

/// Calls on an image where events wait already: one, or three.
fn behind(busy: &dyn Fn() -> Prepared) -> Vec<Kind> {
    let (one, three) = (|| busy().waiting(1), || busy().waiting(3));
    let (raise, clear) = (Call::Level { input: 9, level: 1 }, write(0x080, 4, 0x20));
    vec![
        kind("waiting-1-raise", "1 waits: raise, vector returned", one(), raise),
        kind("waiting-1-read", "1 waits: read Dword, ISR", one(), read(0x3a0, 4)),
        Kind { waiting: 2, ..kind("waiting-1-clear", "1 waits: write CLEAR, 1 event", one(), clear) },
        kind("waiting-3-raise", "3 wait: raise, vector returned", three(), raise),
        kind("waiting-3-read", "3 wait: read Dword, ISR", three(), read(0x3a0, 4)),
        Kind { waiting: 4, ..kind("waiting-3-clear", "3 wait: write CLEAR, 1 event", three(), clear) },
        Kind { waiting: 0, ..kind("drain-3", "drain of 3", three(), Call::Drain { place: 0 }) },
    ]
}

fn refusals(busy: &dyn Fn() -> Prepared) -> Vec<Kind> {
    let level = Call::Level { input: 9, level: 1 };
    vec![
        Kind { answer_len: 15, ..refused("refusal-7", "refusal 7: answer area (raise)", 7, busy(), level) },
        refused("refusal-7-place", "refusal 7: place (drain)", 7, busy(), Call::Drain { place: 65 }),
        Kind { image_len: 258, ..refused("refusal-4", "refusal 4: length (raise)", 4, busy(), level) },
        refused("refusal-5", "refusal 5: contents (raise)", 5, busy().byte(21, 1), level),
        refused("refusal-11", "refusal 11: last unused pair (raise)", 11, busy().byte(258, 1), level),
        refused("refusal-3", "refusal 3: input (raise)", 3, busy(), Call::Level { input: 64, level: 1 }),
        refused("refusal-2", "refusal 2: width (write)", 2, busy(), write(0x020, 3, 0)),
        refused("refusal-1", "refusal 1: address (write)", 1, busy(), write(0x400, 4, 0)),
    ]
}
