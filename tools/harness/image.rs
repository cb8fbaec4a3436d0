//! The saved image in its three forms, between bytes and the oracle's state with the events' numbers. Written from the text of 01 and of 02, C-17 and
//! C-19, apart from the code under test.

use crate::numbers::Numbers;
use oracle::{PchPicOutputEvent, Plain};

pub type Image = Vec<u8>;

/// A form: its length, its contents, and where things stand in it.
#[derive(Clone, Copy, Debug, PartialEq, Eq)]
pub struct Form {
    pub length: usize,
    /// Form, number of bodies, and for each body its kind, offset and length.
    pub contents: &'static [u8],
    /// MASK; HTMSI_EN and EDGE follow.
    pub mask: usize,
    /// The copy of IRR; form 2 has none.
    pub copy: Option<usize>,
    pub irr: usize,
    pub isr: usize,
    pub routes: usize,
    pub vectors: usize,
    pub count: usize,
    pub drops: usize,
    pub pairs: usize,
    /// The next number, and behind it those of the waiting events; only the third form has them.
    pub numbers: Option<usize>,
}

/// 01's form.
pub const ONE: Form = Form {
    length: 259,
    contents: &[1, 4, 1, 22, 0, 72, 0, 2, 94, 0, 64, 0, 3, 158, 0, 64, 0, 4, 222, 0, 37, 0],
    mask: 22,
    copy: Some(46),
    irr: 54,
    isr: 62,
    routes: 94,
    vectors: 158,
    count: 222,
    drops: 223,
    pairs: 227,
    numbers: None,
};

/// 02's, C-17: body 1 is 64 bytes, and what comes behind stands 8 lower.
pub const TWO: Form = Form {
    length: 251,
    contents: &[2, 4, 1, 22, 0, 64, 0, 2, 86, 0, 64, 0, 3, 150, 0, 64, 0, 4, 214, 0, 37, 0],
    mask: 22,
    copy: None,
    irr: 46,
    isr: 54,
    routes: 86,
    vectors: 150,
    count: 214,
    drops: 215,
    pairs: 219,
    numbers: None,
};

/// 02's, C-19: form 2 with a fifth body of 34 bytes at the end. The contents list it in 5 bytes more, and what stood behind them is 5 higher.
pub const NUMBERED: Form = Form {
    length: 290,
    contents: &[2, 5, 1, 27, 0, 64, 0, 2, 91, 0, 64, 0, 3, 155, 0, 64, 0, 4, 219, 0, 37, 0, 5, 0, 1, 34, 0],
    mask: 27,
    irr: 51,
    isr: 59,
    routes: 91,
    vectors: 155,
    count: 219,
    drops: 220,
    pairs: 224,
    numbers: Some(256),
    ..TWO
};

pub const FORMS: [Form; 3] = [ONE, TWO, NUMBERED];

/// The longest image.
pub const LONGEST: usize = NUMBERED.length;

impl Form {
    /// The form whose images have so many bytes.
    pub fn of(length: usize) -> Option<Form> {
        FORMS.into_iter().find(|form| form.length == length)
    }

    pub fn others(self) -> impl Iterator<Item = Form> {
        FORMS.into_iter().filter(move |&form| form != self)
    }

    /// The places of the registers that all forms have: MASK, HTMSI_EN, EDGE, IRR, ISR, POL, AUTO0, AUTO1.
    pub fn registers(self) -> [usize; 8] {
        [self.mask, self.mask + 8, self.mask + 16, self.irr, self.isr, self.isr + 8, self.isr + 16, self.isr + 24]
    }
}

/// 0 for an accepted image; else the refusal, and of one for a rule of the bodies the place that breaks it: 4 the length, 5 the contents, 8 the copy of
/// IRR, 9 the count, 10 a flag of a waiting pair, 11 a byte of an unused one, or then of an unused number.
pub fn test(bytes: &[u8]) -> (u8, Option<u64>) {
    let Some(form) = Form::of(bytes.len()) else { return (4, None) };
    if bytes[..form.contents.len()] != *form.contents {
        return (5, None);
    }
    if let Some(copy) = form.copy
        && bytes[copy..copy + 8] != bytes[form.irr..form.irr + 8]
    {
        return (8, Some(copy as u64));
    }
    let count = bytes[form.count] as usize;
    if count > 16 {
        return (9, Some(form.count as u64));
    }
    for pair in 0..count {
        let flag = form.pairs + 2 * pair + 1;
        if bytes[flag] != 0 && bytes[flag] != 1 {
            return (10, Some(flag as u64));
        }
    }
    let unused = |first: usize, end: usize| (first..end).find(|&place| bytes[place] != 0);
    if let Some(place) = unused(form.pairs + 2 * count, form.pairs + 32) {
        return (11, Some(place as u64));
    }
    if let Some(numbers) = form.numbers
        && let Some(place) = unused(numbers + 2 + 2 * count, numbers + 34)
    {
        return (11, Some(place as u64));
    }
    (0, None)
}

/// The numbers that an accepted image holds, or with which it loads.
pub fn numbers(image: &[u8]) -> Numbers {
    let form = Form::of(image.len()).expect("an accepted image");
    let count = image[form.count] as usize;
    let Some(at) = form.numbers else { return Numbers::from_0(count) };
    let number = |place: usize| u16::from_le_bytes([image[place], image[place + 1]]);
    Numbers { next: number(at), waiting: (1..=count).map(|k| number(at + 2 * k)).collect() }
}

/// Writes the numbers into an image that has the fifth body, unused ones as zero.
pub fn set_numbers(numbers: &Numbers, image: &mut [u8]) {
    let Some(at) = Form::of(image.len()).and_then(|form| form.numbers) else { return };
    image[at..].fill(0);
    for (place, number) in image[at..].chunks_mut(2).zip([&numbers.next].into_iter().chain(&numbers.waiting)) {
        place.copy_from_slice(&number.to_le_bytes());
    }
}

/// The state that an accepted image holds, its ring starting at slot `head`, and the drop count.
pub fn decode(image: &[u8], head: usize) -> (Plain, u32) {
    let form = Form::of(image.len()).expect("an accepted image");
    let register = |place: usize| u64::from_le_bytes(image[place..place + 8].try_into().unwrap());
    let [mask, htmsi_en, edge, irr, isr, pol, auto0, auto1] = form.registers().map(register);
    let count = image[form.count] as usize;
    let mut events = [None; 16];
    for (age, event) in events.iter_mut().enumerate().take(count) {
        let pair = form.pairs + 2 * age;
        *event = Some(PchPicOutputEvent { vector: image[pair] as usize, asserted: image[pair + 1] == 1 });
    }
    let plain = Plain {
        int_mask: mask,
        htmsi_en,
        intedge: edge,
        last_intirr: form.copy.map_or(irr, register),
        intirr: irr,
        intisr: isr,
        int_polarity: pol,
        auto_ctrl0: auto0,
        auto_ctrl1: auto1,
        route_entry: image[form.routes..form.routes + 64].try_into().unwrap(),
        htmsi_vector: image[form.vectors..form.vectors + 64].try_into().unwrap(),
        events,
        output_head: head,
        output_len: count,
    };
    (plain, u32::from_le_bytes(image[form.drops..form.drops + 4].try_into().unwrap()))
}

/// The image of a state, in the form of its length. Form 1's `last_intirr` is written as the Rust has it, so that a difference from IRR would show.
pub fn encode(plain: &Plain, drops: u32, numbers: &Numbers, image: &mut [u8]) {
    let form = Form::of(image.len()).expect("the length of a form");
    assert_eq!(numbers.waiting.len(), plain.output_len, "each waiting event has a number");
    image[..form.contents.len()].copy_from_slice(form.contents);
    let registers =
        [plain.int_mask, plain.htmsi_en, plain.intedge, plain.intirr, plain.intisr, plain.int_polarity, plain.auto_ctrl0, plain.auto_ctrl1];
    let copy = form.copy.map(|place| (place, plain.last_intirr));
    for (place, register) in form.registers().into_iter().zip(registers).chain(copy) {
        image[place..place + 8].copy_from_slice(&register.to_le_bytes());
    }
    image[form.routes..form.routes + 64].copy_from_slice(&plain.route_entry);
    image[form.vectors..form.vectors + 64].copy_from_slice(&plain.htmsi_vector);
    image[form.count] = plain.output_len as u8;
    image[form.drops..form.drops + 4].copy_from_slice(&drops.to_le_bytes());
    for (age, event) in plain.events.iter().enumerate() {
        let (vector, flag) = match event {
            Some(event) if age < plain.output_len => (u8::try_from(event.vector).expect("a vector is a byte"), event.asserted as u8),
            None if age >= plain.output_len => (0, 0),
            _ => panic!("the Rust's ring has an event where none waits, or none where one does"),
        };
        image[form.pairs + 2 * age] = vector;
        image[form.pairs + 2 * age + 1] = flag;
    }
    set_numbers(numbers, image);
}

/// The bytes of an image of one form moved to another, whatever rule they break: contents that were right are the other's, a copy of IRR and numbers come or
/// go. The numbers that come are those with which the image loads.
pub fn moved(image: &[u8], other: Form, to: &mut Image) {
    let form = Form::of(image.len()).expect("the length of a form");
    to.clear();
    if image.starts_with(form.contents) {
        to.extend_from_slice(other.contents);
    } else {
        to.extend((0..other.contents.len()).map(|at| if at < form.contents.len() { image[at] } else { other.contents[at] }));
    }
    to.extend_from_slice(&image[form.mask..form.mask + 24]);
    if other.copy.is_some() {
        to.extend_from_slice(&image[form.irr..form.irr + 8]);
    }
    to.extend_from_slice(&image[form.irr..form.pairs + 32]);
    to.resize(other.length, 0);
    set_numbers(&Numbers::from_0((image[form.count] as usize).min(16)), to);
}
