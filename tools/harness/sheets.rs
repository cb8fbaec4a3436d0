//! The sheets of traces: first the harness's own reading held against small days that were counted by hand, then the library's against that reading.

use crate::bench::{Bench, FILL};
use crate::boundary::Boundary;
use crate::call::From;
use crate::case::{Case, Front};
use crate::cases::Cases;
use crate::chance::Chance;
use crate::days::{self, Day, EACH, any_bytes, cut, fields, random_records, some};
use crate::sheet::{self, LENGTH};
use crate::trace::{self, DRAIN, LOWER, POLL, RAISE, Record, WRITE};

const fn raise(input: u8) -> Record {
    fields(RAISE, input, 0, 0)
}
const fn lower(input: u8) -> Record {
    fields(LOWER, input, 0, 0)
}
const fn poll(input: u8) -> Record {
    fields(POLL, input, 0, 0)
}
const fn mask(bits: u64) -> Record {
    fields(WRITE, 8, 0x020, bits)
}
const fn clear(bits: u64) -> Record {
    fields(WRITE, 8, 0x080, bits)
}
const fn isr(bits: u64) -> Record {
    fields(WRITE, 8, 0x3a0, bits)
}
const ALL_BUT: fn(u8) -> u64 = |input| !(1 << input);

/// Days with the rows that they give, counted by hand: input, and the ten numbers in their order. All other rows but the total are zero.
pub fn by_hand() -> Vec<(&'static str, Vec<Record>, Vec<(usize, [u32; 10])>)> {
    vec![
        // raised while masked; the unmask asserts it two records later, into the ring; lowered, which is returned
        ("a wait", vec![raise(5), raise(5), mask(ALL_BUT(5)), lower(5)], vec![(5, [2, 1, 1, 1, 1, 1, 0, 2, 0, 0])]),
        // the raise itself made it
        ("no wait", vec![mask(0), raise(0), lower(0), raise(0)], vec![(0, [2, 1, 2, 1, 3, 0, 0, 0, 0, 0])]),
        // withdrawn by a lowering, withdrawn by CLEAR, and open at the end
        ("withdrawn", vec![raise(7), lower(7), raise(7), clear(1 << 7), raise(7)], vec![(7, [3, 1, 0, 0, 0, 0, 0, 0, 2, 1])]),
        // a CLEAR of others, or one that is refused, withdraws nothing
        (
            "not withdrawn",
            vec![raise(7), clear(ALL_BUT(7)), fields(WRITE, 3, 0x080, 0x80), raise(7)],
            vec![(7, [2, 0, 0, 0, 0, 0, 0, 0, 0, 1])],
        ),
        // a Byte of CLEAR withdraws the inputs of that byte alone
        (
            "a byte of CLEAR",
            vec![raise(7), raise(9), fields(WRITE, 1, 0x081, 0xff)],
            vec![(7, [1, 0, 0, 0, 0, 0, 0, 0, 0, 1]), (9, [1, 0, 0, 0, 0, 0, 0, 0, 1, 0])],
        ),
        // a Word of it withdraws those of both bytes whose bits are 1
        (
            "a word of CLEAR",
            vec![raise(7), raise(8), raise(9), fields(WRITE, 2, 0x080, 0x0280)],
            vec![(7, [1, 0, 0, 0, 0, 0, 0, 0, 1, 0]), (8, [1, 0, 0, 0, 0, 0, 0, 0, 0, 1]), (9, [1, 0, 0, 0, 0, 0, 0, 0, 1, 0])],
        ),
        // an unmask announces the lowest alone; the other waits for its poll, which is returned
        (
            "the lowest alone",
            vec![raise(4), raise(2), mask(0), poll(4)],
            vec![(2, [1, 0, 1, 0, 0, 1, 0, 1, 0, 0]), (4, [1, 0, 1, 0, 1, 0, 0, 3, 0, 0])],
        ),
        // refused records count as none, and keep their number
        ("refused", vec![raise(3), raise(64), lower(64), fields(WRITE, 4, 0xffff, 0), mask(0)], vec![(3, [1, 0, 1, 0, 0, 1, 0, 4, 0, 0])]),
        // ISR written ends no wait and makes no event; a poll after it is cleared does
        ("ISR written", vec![raise(3), isr(8), mask(0), poll(3), isr(0), poll(3)], vec![(3, [1, 0, 1, 0, 1, 0, 0, 5, 0, 0])]),
        // a raise that finds the input in service, but not latched, waits for nothing
        ("in service by ISR", vec![isr(8), raise(3), isr(0), mask(0)], vec![(3, [1, 0, 1, 0, 0, 1, 0, 0, 0, 0])]),
        // masking takes it out of service, which is offered, and the latch stays: no new wait by a raise
        ("masked", vec![mask(0), raise(3), mask(u64::MAX), raise(3), mask(0)], vec![(3, [2, 0, 2, 1, 1, 2, 0, 0, 0, 0])]),
        // the greatest of two waits
        (
            "two waits",
            vec![raise(3), poll(3), poll(3), mask(0), mask(u64::MAX), lower(3), raise(3), mask(0)],
            vec![(3, [2, 1, 2, 1, 0, 3, 0, 3, 0, 0])],
        ),
        dropped(),
    ]
}

/// Seventeen inputs go into service and are masked at once: the last deassert finds 16 waiting and is dropped; after a drain an unmask's assert is kept.
fn dropped() -> (&'static str, Vec<Record>, Vec<(usize, [u32; 10])>) {
    let mut day = vec![mask(0)];
    day.extend((10..27).map(raise));
    day.extend([mask(u64::MAX), fields(DRAIN, 0, 0, 0), mask(0)]);
    let rows = (10..27).map(|n| match n {
        10 => (n, [1, 0, 2, 1, 1, 2, 0, 0, 0, 0]),
        26 => (n, [1, 0, 1, 1, 1, 1, 1, 0, 0, 0]),
        _ => (n, [1, 0, 1, 1, 1, 1, 0, 0, 0, 0]),
    });
    ("dropped", day, rows.collect())
}

/// The harness's own reading on the days counted by hand.
fn own(bench: &mut Bench) {
    for (name, records, told) in by_hand() {
        let rows = sheet::rows(&mut Boundary::new(), &records);
        let mut wanted = [[0; 10]; 65];
        for (input, row) in told {
            wanted[input] = row.map(u64::from);
            for (k, number) in row.into_iter().enumerate() {
                let number = u64::from(number);
                wanted[64][k] = if k == 7 { number.max(wanted[64][k]) } else { wanted[64][k] + number };
            }
        }
        let other = (0..65).find(|&n| rows[n].numbers() != wanted[n]);
        if let Some(n) = other {
            bench.failed += 1;
            println!("FAILED: the harness's own sheet of '{name}', row {n}: {:?}, by hand {:?}", rows[n].numbers(), wanted[n]);
        } else {
            bench.passed += 1;
        }
    }
}

/// The days by hand; then these, every length of the areas, and faults several at a time.
pub fn sweep(bench: &mut Bench, chance: &mut Chance) {
    own(bench);
    let mut cases = Cases::new();
    for (_, records, _) in by_hand() {
        let blocks = cut(chance, records.len());
        make(bench, &mut cases, trace::bytes(&records, &blocks), LENGTH, 16);
    }
    let good = trace::bytes(&some(6), &[4, 2]);
    for length in (0..4).chain(LENGTH - 44..=LENGTH + 44) {
        make(bench, &mut cases, good.clone(), length, 16);
    }
    for answer in 0..=40 {
        make(bench, &mut cases, good.clone(), LENGTH + answer, answer);
    }
    faults(bench, &mut cases);
    // every kind of record with each byte of it another
    for good in EACH {
        for bit in 0..128 {
            let mut record = good;
            record[bit / 8] ^= 1 << (bit % 8);
            make(bench, &mut cases, trace::bytes(&[EACH[0], mask(0), EACH[0], record, EACH[1]], &[3, 2]), LENGTH, 16);
        }
    }
}

/// Several faults at once, of which the first in the order 7, 12, 13 is told.
pub fn faults(bench: &mut Bench, cases: &mut Cases) {
    for faults in 0..16 {
        let faulty = |bit: usize| faults & (1 << bit) != 0;
        let mut trace = trace::bytes(&some(6), &[4, 2]);
        if faulty(2) {
            trace[0] = 3;
        }
        if faulty(3) {
            trace[10] = 0;
        }
        make(bench, cases, trace, LENGTH - usize::from(faulty(1)), 16 - usize::from(faulty(0)));
    }
}

pub fn make(bench: &mut Bench, cases: &mut Cases, trace: Vec<u8>, sheet: usize, answer: usize) {
    let areas = vec![trace, vec![0xe5; sheet], vec![0xc3; answer]];
    if cases.make(bench, &Case { front: Front::Sheet, areas, null: sheet % 2 == 0 }) != Some(0) {
        return;
    }
    let number = |row: usize, k: usize| {
        let at = 40 * row + 4 * k;
        u32::from_le_bytes(cases.left(1)[at..at + 4].try_into().expect("four bytes"))
    };
    let met = &mut bench.met.fronts;
    met.records += u64::from_le_bytes(cases.left(2)[8..16].try_into().expect("a value has 8 bytes"));
    met.greatest_wait = met.greatest_wait.max(number(64, 7));
    met.withdrawn += u64::from(number(64, 8));
    met.open += u64::from(number(64, 9));
}

/// Random traces with so many records together, good and damaged.
pub fn random(bench: &mut Bench, chance: &mut Chance, records: u64) {
    let mut cases = Cases::new();
    let mut made = 0;
    while made < records && !bench.over() {
        let length = match chance.below(20) {
            0..=9 => chance.between(1, 40),
            10..=18 => chance.between(1, 500),
            _ => chance.between(1, 4000),
        }
        .min(records - made) as usize;
        made += length as u64;
        let records = if chance.percent(50) { random_records(chance, length) } else { waiting(chance, length) };
        let day = Day { from: From::Reset, records, blocks: cut(chance, length), image: any_bytes(chance, 290) };
        let play = day.play(length, 0, FILL);
        let length = if chance.percent(95) { LENGTH + chance.below(3) as usize } else { LENGTH - chance.one_of(&[1, 1, 4, 40]) };
        make(bench, &mut cases, play.trace.clone(), length, 16 + chance.below(3) as usize);
        if chance.percent(30) {
            make(bench, &mut cases, days::damaged(chance, play).trace, LENGTH, 16);
        }
    }
}

/// A day on which inputs wait: raised while masked, and then unmasked, polled, cleared or lowered.
pub fn waiting(chance: &mut Chance, count: usize) -> Vec<Record> {
    let few: [u8; 4] = std::array::from_fn(|_| chance.below(64) as u8);
    (0..count)
        .map(|_| {
            let input = if chance.percent(70) { chance.one_of(&few) } else { chance.below(66) as u8 };
            let bits = match chance.below(4) {
                0 => 1 << (input % 64),
                1 => !(1 << (input % 64)),
                2 => chance.number() & chance.number(),
                _ => chance.number() | chance.number(),
            };
            let width = chance.one_of(&[1, 2, 4, 8]);
            let at = chance.below(8) as u16;
            match chance.below(20) {
                0..=7 => raise(input),
                8..=9 => lower(input),
                10..=12 => poll(input),
                13..=15 => fields(WRITE, width, 0x020 + at, bits),
                16..=17 => fields(WRITE, width, 0x080 + at, bits & chance.number()),
                18 => fields(DRAIN, 0, 0, 0),
                _ => fields(WRITE, width, 0x3a0 + at, bits),
            }
        })
        .collect()
}
