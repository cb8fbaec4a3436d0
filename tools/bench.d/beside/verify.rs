//! Before anything is timed: the sides must leave the same bytes, a call with a board those of the plain call and the counts of its image, and a call that the
//! profile lets through those of the plain call.

use super::sides::{self, Side};
use super::{Asked, Kind, Lengths, Lent, WHOLE};
use crate::call::Call;
use crate::chance::Chance;
use crate::kinds::{BASE, LENGTH, LENGTH_2, LENGTHS, NUMBERED, Prepared, SIZE, count_at};
use crate::sides::{Lean, Library, Plain, Portable, Side as Plainly};
use crate::verify::{random_call, random_image};

/// The sides make the call; they must hand back the same number and leave the same bytes.
fn same(what: &str, asked: &Asked, lent: &mut Lent, lengths: Lengths) -> Result<u8, String> {
    fn by<S: Side + Plainly>(asked: &Asked, lent: &Lent, lengths: Lengths) -> (u8, Lent) {
        let mut lent = lent.clone();
        (sides::make::<S>(asked, &mut lent, lengths), lent)
    }
    let library = by::<Library>(asked, lent, lengths);
    let others = [
        ("plain Rust", by::<Plain>(asked, lent, lengths)),
        ("lean Rust", by::<Lean>(asked, lent, lengths)),
        ("portable Rust", by::<Portable>(asked, lent, lengths)),
    ];
    for (name, other) in others {
        if library != other {
            let numbers = (library.0, other.0);
            return Err(format!("{what}: {asked:?} on {lengths:?}: the library and {name} hand back {numbers:?}, or leave other bytes"));
        }
    }
    as_plain(asked, lent, &library, lengths).map_err(|why| format!("{what}: {asked:?} on {lengths:?}: {why}"))?;
    *lent = library.1;
    Ok(library.0)
}

/// What a call of the library must have to do with the plain call of it.
fn as_plain(asked: &Asked, before: &Lent, (number, left): &(u8, Lent), lengths: Lengths) -> Result<(), &'static str> {
    let (Asked::Board(call) | Asked::Hoist(call)) = asked else { return Ok(()) };
    let mut slot = before.slot.clone();
    let plainly = crate::sides::make::<Library>(call, &mut slot, lengths.image, lengths.answer);
    let board = matches!(asked, Asked::Board(_));
    if (*number == 0 || board && lengths.board == 256) && (plainly != *number || slot != left.slot) {
        return Err("the plain call hands back another number or leaves other bytes");
    }
    let counts = if board && *number == 0 { counts(&left.slot.image, lengths.image) } else { before.board };
    if left.board == counts { Ok(()) } else { Err("the board has other counts") }
}

/// How many inputs in service carry each vector.
fn counts(image: &[u8; NUMBERED], length: usize) -> [u8; 256] {
    let (isr, vectors) = match length {
        LENGTH => (62, 158),
        LENGTH_2 => (54, 150),
        _ => (59, 155),
    };
    let mut counts = [0; 256];
    for input in (0..64).filter(|input| image[isr + input / 8] >> (input % 8) & 1 == 1) {
        counts[usize::from(image[vectors + input])] += 1;
    }
    counts
}

/// A kind is what its name says, and the sides agree on it.
pub fn kind(kind: &Kind) -> Result<(), String> {
    match same(kind.name, &kind.asked, &mut kind.lent.clone(), WHOLE)? {
        number if number == kind.number => Ok(()),
        number => Err(format!("kind {} is not what it says: the number is {number}", kind.name)),
    }
}

/// How many random calls are compared.
pub const RANDOM: u64 = 100_000;

/// What the profile is asked for, mostly a Dword at an offset that 4 divides, and often of the vectors.
fn hoist(chance: &mut Chance) -> Asked {
    let aligned = BASE + 4 * if chance.percent(50) { 0x80 + chance.below(16) } else { chance.below(0x100) };
    let value = chance.number();
    let call = match random_call(chance) {
        Call::Read { base, size, address, width } if chance.percent(30) => Call::Read { base, size, address, width },
        Call::Write { base, size, address, width, value } if chance.percent(30) => Call::Write { base, size, address, width, value },
        Call::Reset => Call::Reset,
        Call::Read { .. } => Call::Read { base: BASE, size: SIZE, address: aligned, width: 4 },
        Call::Poll { .. } => return chance.one_of(&[Asked::EndStartup, Asked::Waiting, Asked::Waiting]),
        _ => Call::Write { base: BASE, size: SIZE, address: aligned, width: 4, value },
    };
    Asked::Hoist(call)
}

pub fn random_asked(chance: &mut Chance) -> Asked {
    match chance.below(20) {
        0 => Asked::Event { vector: chance.below(4) as u8, flag: chance.one_of(&[0, 1, 2, 255]) },
        1..10 => Asked::Board(random_call(chance)),
        _ => hoist(chance),
    }
}

/// Random calls on random states; gives how often each number came.
pub fn random() -> Result<[u64; 16], String> {
    let mut chance = Chance::new(13);
    let mut numbers = [0; 16];
    let mut lent = Lent::new(&Prepared::new(), NUMBERED, 0);
    let mut lengths = WHOLE;
    for k in 0..RANDOM {
        if k % 20 == 0 {
            lengths = Lengths { image: chance.one_of(&LENGTHS), ..WHOLE };
            lent.slot.image = random_image(&mut chance, lengths.image);
            lent.phase = [chance.one_of(&[0, 0, 0, 1, 255])];
            lent.board.fill_with(|| chance.one_of(&[0, 1, 254, 255]));
        }
        let mut lengths = lengths;
        match chance.below(200) {
            0 => lengths.answer = 15,
            1 => lengths.board = 255,
            2 => lengths.phase = 0,
            3 => lengths.image = chance.below(NUMBERED as u64 + 1) as usize,
            4 => lent.slot.image[chance.below(lengths.image as u64) as usize] = chance.one_of(&[0, 1, 2, 16, 17, 255]),
            5 => lent.slot.image[count_at(lengths.image)] = 17,
            _ => {}
        }
        let number = same("random", &random_asked(&mut chance), &mut lent, lengths)?;
        numbers[usize::from(number)] += 1;
        if number == 5 || (8..12).contains(&number) {
            lent.slot.image = random_image(&mut chance, lengths.image);
        }
    }
    // 02: there is no 6 any more; 12 and 13 are of traces
    match numbers.iter().enumerate().position(|(number, &met)| met == 0 && ![6, 12, 13].contains(&number)) {
        Some(number) => Err(format!("the random calls never met number {number}")),
        None => Ok(numbers),
    }
}
