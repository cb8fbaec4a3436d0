//! Fixed histories whose answers the papers state themselves: 01's marked dozen and worked session; a guest's start-up, in the order that
//! Linux's driver for this device keeps; and, by 02, C-19, how events are numbered. The papers' numbers are held against both sides.

use crate::call::Call;
use crate::image::Form;

/// What the papers say of a step.
pub enum Says {
    /// It is done; no value is named.
    Done,
    /// It is done and gives this value.
    Gives(u64),
    /// It is done and returns this vector, whatever its number is.
    Vector(u64),
    /// It is done and gives none.
    GivesNone,
    Refused(u8),
    /// It is done, and then these events wait, vector and flag, and so many were dropped.
    Waiting(Vec<(u8, u8)>, u32),
    /// It is done, and these events are drained, vector, flag and number.
    Drained(Vec<(u8, u8, u16)>),
    /// It is done, and the fifth body is this next number and these of waiting events.
    Numbers(u16, Vec<u16>),
}
use Says::*;

/// A history from reset; where the image has numbers, they begin with `next`.
pub struct History {
    pub name: &'static str,
    pub next: u16,
    pub steps: Vec<(Call, Says)>,
}

/// Those for images of that form.
pub fn histories(form: Form) -> Vec<History> {
    let mut all: Vec<History> = dozen().into_iter().map(|(name, steps)| History { name, next: 0, steps }).collect();
    all.push(History { name: "the worked session", next: 0, steps: worked_session() });
    all.push(History { name: "a guest's start-up", next: 0, steps: start_up() });
    if form.numbers.is_some() {
        all.push(History { name: "numbers", next: 0, steps: numbered(0) });
        all.push(History { name: "numbers past 65,535", next: 65_530, steps: numbered(65_530) });
    } else {
        all.push(History { name: "numbers within a call", next: 0, steps: numbered_within() });
    }
    all
}

fn read(width: u64, address: u64) -> Call {
    Call::Read { base: 0, size: 0x400, address, width }
}

fn write(width: u64, address: u64, value: u64) -> Call {
    Call::Write { base: 0, size: 0x400, address, width, value }
}

fn raise(input: u64) -> Call {
    Call::Level { input, level: 1 }
}

fn lower(input: u64) -> Call {
    Call::Level { input, level: 0 }
}

fn poll(input: u64) -> Call {
    Call::Poll { input }
}

/// M1 to M12 (01, The marked dozen).
fn dozen() -> Vec<(&'static str, Vec<(Call, Says)>)> {
    let mut m12 = vec![(write(4, 0x020, 0), Done)];
    m12.extend((0..=16).map(|input| (raise(input), Vector(input))));
    m12.push((write(4, 0x020, 0xffff_ffff), Waiting((0..16).map(|input| (input, 0)).collect(), 1)));
    vec![
        ("M1", vec![(read(4, 0x020), Gives(0xffff_ffff))]),
        ("M2", vec![(read(4, 0x004), Gives(0x003f_0001))]),
        ("M3", vec![(read(4, 0x13e), Gives(0x0000_0101))]),
        ("M4", vec![(read(8, 0x13c), Gives(0x0101_0101))]),
        ("M5", vec![(read(2, 0x0ff), Gives(0x0100))]),
        ("M6", vec![(read(4, 0x0fe), Gives(0))]),
        ("M7", vec![(read(4, 0x23e), Gives(0x0000_3f3e))]),
        ("M8", vec![(raise(0), GivesNone), (read(4, 0x380), Gives(1)), (read(1, 0x380), Gives(0))]),
        ("M9", vec![(raise(3), GivesNone), (raise(9), GivesNone), (write(4, 0x020, 0), Waiting(vec![(3, 1)], 0)), (poll(9), Vector(9))]),
        ("M10", vec![(raise(3), GivesNone), (raise(9), GivesNone), (write(2, 0x020, 0), Waiting(vec![(3, 1), (9, 1)], 0))]),
        ("M11", vec![(write(4, 0x3a0, 3), Done), (write(1, 0x3a1, 0), Done), (write(4, 0x020, 0), Done), (read(4, 0x3a0), Gives(0))]),
        ("M12", m12),
    ]
}

/// 01, The session program: its lines as calls.
fn worked_session() -> Vec<(Call, Says)> {
    vec![
        (raise(5), GivesNone),
        (write(4, 0x020, 0xffff_ffdf), Done),
        (read(4, 0x3a0), Gives(0x20)),
        (read(1, 0x380), Gives(0)),
        (lower(5), Vector(5)),
        (Call::Drain { place: 0 }, Gives(1)),
        (raise(0x40), Refused(3)),
    ]
}

/// Vectors and routes byte by byte, everything masked and cleared, then inputs unmasked, served and masked one after another.
fn start_up() -> Vec<(Call, Says)> {
    let mut steps = vec![(read(8, 0x000), Gives(0x003f_0001_0700_0000))];
    for input in 0..64 {
        steps.push((write(1, 0x200 + input, 0x40 + input), Done));
        steps.push((write(1, 0x100 + input, 1), Done));
    }
    for half in [0, 4] {
        for (register, value) in [(0x020, 0xffff_ffff), (0x080, 0xffff_ffff), (0x0c0, 0), (0x0e0, 0), (0x040, 0xffff_ffff)] {
            steps.push((write(4, register + half, value), Done));
        }
    }
    for input in [0, 5, 31, 32, 63] {
        let (half, bit) = (4 * (input / 32), 1 << (input % 32));
        steps.push((read(4, 0x060 + half), Done));
        steps.push((write(4, 0x060 + half, bit), Done));
        steps.push((write(4, 0x080 + half, bit), Done));
        steps.push((write(4, 0x020 + half, 0xffff_ffff ^ bit), Done));
        steps.push((raise(input), Vector(0x40 + input)));
        steps.push((read(4, 0x3a0 + half), Gives(bit)));
        steps.push((lower(input), Vector(0x40 + input)));
        steps.push((write(4, 0x020 + half, 0xffff_ffff), Waiting(vec![], 0)));
    }
    steps
}

/// A returned vector with its number.
fn with_number(vector: u64, number: u16) -> Says {
    Gives(vector + 65_536 * u64::from(number))
}

/// 02, C-19, on an image that has the fifth body: returned, kept and dropped events take their numbers in turn, and the numbers go round.
fn numbered(next: u16) -> Vec<(Call, Says)> {
    let number = |k: u16| next.wrapping_add(k);
    let drain = Call::Drain { place: 0 };
    let mut steps = vec![
        (raise(5), GivesNone),
        (write(4, 0x020, 0xffff_ffdf), Numbers(number(1), vec![number(0)])),
        (lower(5), with_number(5, number(1))),
        (drain, Drained(vec![(5, 1, number(0))])),
        (poll(5), GivesNone),
        (write(4, 0x020, 0), Numbers(number(2), vec![])),
    ];
    steps.extend((0..18).map(|input| (raise(input), with_number(input, number(2 + input as u16)))));
    // eighteen deasserts, of which two are dropped
    steps.push((write(4, 0x020, 0xffff_ffff), Numbers(number(38), (20..36).map(number).collect())));
    steps.push((Call::Drain { place: 65 }, Refused(7)));
    steps.push((raise(40), GivesNone));
    steps.push((write(4, 0x024, 0), Numbers(number(39), (20..36).map(number).collect())));
    steps.push((lower(40), with_number(40, number(39))));
    // half of them fit in 32 bytes
    steps.push((Call::Drain { place: 32 }, Gives(8)));
    steps.push((raise(41), with_number(41, number(40))));
    steps.push((write(4, 0x084, 1 << 9), Numbers(number(42), (28..36).chain([41]).map(number).collect())));
    steps.push((drain, Drained((8..16).map(|input| (input, 0, number(20 + u16::from(input)))).chain([(41, 0, number(41))]).collect())));
    steps.push((drain, Numbers(number(42), vec![])));
    steps
}

/// On an image without it, waiting events are numbered from 0 in each call, and the next comes after them.
fn numbered_within() -> Vec<(Call, Says)> {
    let drain = |place| Call::Drain { place };
    let mut steps = vec![
        (write(4, 0x020, 0), Done),
        (raise(5), with_number(5, 0)),
        (raise(6), with_number(6, 0)),
        (lower(5), with_number(5, 0)),
        (write(4, 0x080, 1 << 6), Waiting(vec![(6, 0)], 0)),
        (raise(7), with_number(7, 1)),
        (drain(0), Drained(vec![(6, 0, 0)])),
        (lower(7), with_number(7, 0)),
    ];
    steps.extend((0..18).map(|input| (raise(input), with_number(input, 0))));
    steps.push((write(4, 0x020, 0xffff_ffff), Waiting((0..16).map(|input| (input, 0)).collect(), 2)));
    steps.push((write(4, 0x020, 0xfffd_ffff), Waiting((0..16).map(|input| (input, 0)).collect(), 3)));
    steps.push((lower(17), with_number(17, 16)));
    steps.push((drain(48), Gives(4)));
    steps.push((drain(0), Drained((4..16).map(|input| (input, 0, u16::from(input) - 4)).collect())));
    steps
}
