// Made from crates/image/src/form.rt by tools/portable: do not change it here.
//! The form of an image, known by its length; where its fields stand, and its contents as numbers. Only here are places in an image literal numbers.

/// Form 1; form 2, which has no copy of IRR; and form 2 with a fifth body, the numbers of events.
#[derive(Clone, Copy)]
pub enum Form {
    One,
    Two,
    Numbered,
}

/// ```text
/// ensures { form_known result ≡ form_of length }
/// ```
#[inline]
pub fn form_of(length: usize) -> Option<Form> {
    match length {
        259 => Some(Form::One),
        251 => Some(Form::Two),
        290 => Some(Form::Numbered),
        _ => None,
    }
}

/// The form of a length that is a form's; nothing comes here of any other length.
pub const fn form_at(length: usize) -> Form {
    match length {
        259 => Form::One,
        251 => Form::Two,
        _ => Form::Numbered,
    }
}

/// Where the fields of a form stand; a form that has no copy of IRR has IRR's own place for it, and one that has no numbers places past its end for them.
#[derive(Clone, Copy)]
pub struct Places {
    pub int_mask: usize,
    pub htmsi_en: usize,
    pub intedge: usize,
    pub last_intirr: usize,
    pub intirr: usize,
    pub intisr: usize,
    pub int_polarity: usize,
    pub auto_ctrl0: usize,
    pub auto_ctrl1: usize,
    pub routes: usize,
    pub vectors: usize,
    pub count: usize,
    pub drops: usize,
    pub pairs: usize,
    pub next: usize,
    pub numbers: usize,
}

/// How many bytes the contents take.
///
/// ```text
/// ensures { (result ≡ contents_length (form_view form)) × (result ≤ 27) }
/// ```
#[inline]
fn contents_length(form: Form) -> usize {
    match form {
        Form::One => 22,
        Form::Two => 22,
        Form::Numbered => 27,
    }
}

/// How many bytes the copy of IRR takes, behind which all stands so much higher.
///
/// ```text
/// ensures { (result ≡ copy_length (form_view form)) × (result ≤ 8) }
/// ```
#[inline]
fn copy_length(form: Form) -> usize {
    match form {
        Form::One => 8,
        Form::Two => 0,
        Form::Numbered => 0,
    }
}

/// One sum for each place, and no table of each form: so the compiler adds what a form has in front to the image's address, once.
///
/// ```text
/// ensures { PlacesOf (form_view form) result }
/// ```
#[inline]
pub fn places_of(form: Form) -> Places {
    let head = contents_length(form);
    let behind = head + copy_length(form);
    Places {
        int_mask: head,
        htmsi_en: head + 8,
        intedge: head + 16,
        last_intirr: head + 24,
        intirr: behind + 24,
        intisr: behind + 32,
        int_polarity: behind + 40,
        auto_ctrl0: behind + 48,
        auto_ctrl1: behind + 56,
        routes: behind + 64,
        vectors: behind + 128,
        count: behind + 192,
        drops: behind + 193,
        pairs: behind + 197,
        next: behind + 229,
        numbers: behind + 231,
    }
}

/// Within the ring's body, in any form: the count, the drops, and the pairs with two bytes each, the vector and the flag.
pub const COUNT: usize = 0;

pub const DROPS: usize = 1;

pub const DROPS_LENGTH: usize = 4;

pub const PAIRS: usize = 5;

pub const PAIRS_LENGTH: usize = 32;

pub const PAIR: usize = 2;

pub const FLAG: usize = 1;

pub const RING_LENGTH: usize = 37;

pub const CAPACITY: usize = 16;

/// Within the numbers' body: the next number, and sixteen numbers of two bytes each, the low one first.
pub const NEXT_LENGTH: usize = 2;

pub const NUMBERS_LENGTH: usize = 32;

pub const NUMBER: usize = 2;

pub const NUMBER_BODY_LENGTH: usize = 34;

/// An event as it is drained: its pair, and then its number.
pub const EVENT: usize = 4;

/// The contents as numbers of eight bytes: from byte 0, from byte 8, from byte 14, and the last eight; where there are four bodies these are the third.
#[derive(Clone, Copy)]
pub struct Contents {
    pub first: u64,
    pub second: u64,
    pub third: u64,
    pub last: u64,
    pub last_at: usize,
}

/// ```text
/// ensures { ContentsOf (form_view form) result }
/// ```
#[inline]
pub fn contents_of(form: Form) -> Contents {
    match form {
        Form::One => Contents {
            first: 0x0200_4800_1601_0401,
            second: 0x4000_9e03_0040_005e,
            third: 0x0025_00de_0400_4000,
            last: 0x0025_00de_0400_4000,
            last_at: 14,
        },
        Form::Two => Contents {
            first: 0x0200_4000_1601_0402,
            second: 0x4000_9603_0040_0056,
            third: 0x0025_00d6_0400_4000,
            last: 0x0025_00d6_0400_4000,
            last_at: 14,
        },
        Form::Numbered => Contents {
            first: 0x0200_4000_1b01_0502,
            second: 0x4000_9b03_0040_005b,
            third: 0x0025_00db_0400_4000,
            last: 0x0022_0100_0500_2500,
            last_at: 19,
        },
    }
}
