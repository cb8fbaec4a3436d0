//! Tallies: first the harness's own reading held against days of several traces that were counted by hand, then the library's against that reading, day after day and on any bytes.

use crate::bench::Bench;
use crate::boundary::Boundary;
use crate::call::{Call, From};
use crate::case::{Case, Front};
use crate::cases::Cases;
use crate::chance::Chance;
use crate::days::{self, Day, EACH, any_bytes, cut, fields, random_records, some};
use crate::generate;
use crate::image::{FORMS, Form};
use crate::sheet::{self, Row};
use crate::sheets;
use crate::tally::{self, COUNTED, LENGTH};
use crate::trace::{self, DRAIN, LOWER, RAISE, Record, WRITE};

/// The records of a trace, and how its blocks divide them.
pub type Part = (Vec<Record>, Vec<usize>);

/// What is wrong with no number of a tally yet.
const LIMIT: u64 = 1 << 63;

/// The parts of a day, and the rows that they give: input, and the ten numbers in their order.
type ByHand = (&'static str, Vec<Vec<Record>>, Vec<(usize, [u64; 10])>);

/// Days with the rows that they give, counted by hand. All other rows but the total are zero.
pub fn by_hand() -> Vec<ByHand> {
    let (raise, lower) = (|input| fields(RAISE, input, 0, 0), |input| fields(LOWER, input, 0, 0));
    let (drain, unmask) = (fields(DRAIN, 0, 0, 0), |input: u8| fields(WRITE, 8, 0x020, !(1 << input)));
    vec![
        // raised in the first, asserted by the last record of the third: numbers 0 and 4
        ("carried", vec![vec![raise(5), drain], vec![drain], vec![drain, unmask(5)]], vec![(5, [1, 0, 1, 0, 0, 1, 0, 4, 0, 0])]),
        // raised by record 1, withdrawn by a lowering, and raised again by record 3, which waits for record 5
        (
            "withdrawn",
            vec![vec![drain, raise(9)], vec![lower(9), raise(9)], vec![drain, unmask(9)]],
            vec![(9, [2, 1, 1, 0, 0, 1, 0, 2, 1, 0])],
        ),
        // two inputs wait on; a second raise begins nothing
        (
            "open",
            vec![vec![raise(0), raise(63)], vec![raise(63), drain]],
            vec![(0, [1, 0, 0, 0, 0, 0, 0, 0, 0, 1]), (63, [2, 0, 0, 0, 0, 0, 0, 0, 0, 1])],
        ),
        // in service when the second begins: its lowering is returned
        ("in service", vec![vec![unmask(3), raise(3)], vec![lower(3)]], vec![(3, [1, 1, 1, 1, 2, 0, 0, 0, 0, 0])]),
    ]
}

/// The image after a reset.
pub fn reset(form: Form) -> Vec<u8> {
    let mut image = vec![0x5a; form.length];
    Boundary::new().perform(&Call::Reset, &mut image, &mut [0; 16], &mut [], &mut []);
    image
}

/// One part a trace of one block.
pub fn whole(records: &[Vec<Record>]) -> Vec<Part> {
    records.iter().map(|records| (records.clone(), vec![records.len()])).collect()
}

/// The bytes of rows with their total.
fn long(rows: &[Row]) -> Vec<u8> {
    rows.iter().flat_map(Row::numbers).flat_map(u64::to_le_bytes).collect()
}

pub fn begin(bench: &mut Bench, cases: &mut Cases, tally: Vec<u8>, answer: usize) -> Option<u8> {
    let null = tally.len() % 2 == 0;
    cases.make(bench, &Case { front: Front::TallyBegin, areas: vec![tally, vec![0xc3; answer]], null })
}

pub fn add(bench: &mut Bench, cases: &mut Cases, trace: Vec<u8>, image: Vec<u8>, tally: Vec<u8>, answer: usize) -> Option<u8> {
    let null = (trace.len() + image.len() + tally.len()) % 2 == 0;
    cases.make(bench, &Case { front: Front::TallyAdd, areas: vec![trace, image, tally, vec![0xc3; answer]], null })
}

pub fn sheet_of(bench: &mut Bench, cases: &mut Cases, tally: Vec<u8>, sheet: usize, answer: usize) -> Option<u8> {
    let null = (tally.len() + sheet) % 2 == 0;
    cases.make(bench, &Case { front: Front::TallySheet, areas: vec![tally, vec![0xe5; sheet], vec![0xc3; answer]], null })
}

/// Adds the traces of a day one after another, from the image on, with a sheet after each; what the last sheet has.
pub fn day(bench: &mut Bench, cases: &mut Cases, parts: &[Part], mut image: Vec<u8>, mut tally: Vec<u8>) -> Option<Vec<u8>> {
    let mut device = Boundary::new();
    let mut last = Vec::new();
    for (records, blocks) in parts {
        (add(bench, cases, trace::bytes(records, blocks), image.clone(), tally, 16)? == 0).then_some(())?;
        tally = cases.left(2).to_vec();
        (sheet_of(bench, cases, tally.clone(), LENGTH + records.len() % 3, 16)? == 0).then_some(())?;
        last = cases.left(1)[..LENGTH].to_vec();
        bench.met.fronts.carried += number(&last, 649);
        for record in records {
            device.perform(&trace::call(record, 0), &mut image, &mut [0; 16], &mut [0; trace::ROOM], &mut []);
        }
    }
    Some(last)
}

pub fn number(bytes: &[u8], k: usize) -> u64 {
    u64::from_le_bytes(bytes[8 * k..8 * k + 8].try_into().expect("eight bytes"))
}

/// A day from reset: its long sheet is that of all its records as one day, and of a single trace it has the numbers of that trace's sheet.
pub fn from_reset(bench: &mut Bench, cases: &mut Cases, parts: &[Part], form: Form) {
    if begin(bench, cases, vec![0xa5; LENGTH + form.length % 2], 16) != Some(0) {
        return;
    }
    let tally = cases.left(0).to_vec();
    let Some(last) = day(bench, cases, parts, reset(form), tally) else { return };
    let all: Vec<Record> = parts.iter().flat_map(|(records, _)| records.clone()).collect();
    tell(bench, "a day of traces and its records as one day", last == long(&sheet::rows(&mut Boundary::new(), &all)));
    if let [(records, blocks)] = parts {
        let areas = vec![trace::bytes(records, blocks), vec![0; sheet::LENGTH], vec![0; 16]];
        if cases.make(bench, &Case { front: Front::Sheet, areas, null: false }) == Some(0) {
            let short = cases.left(1).chunks_exact(4).map(|bytes| u64::from(u32::from_le_bytes(bytes.try_into().expect("four bytes"))));
            let equal = short.eq((0..650).map(|k| number(&last, k)));
            tell(bench, "the long sheet of one trace and its sheet", equal);
        }
    }
    let met = &mut bench.met.fronts;
    met.days += 1;
    met.most_traces = met.most_traces.max(parts.len() as u64);
}

fn tell(bench: &mut Bench, what: &str, equal: bool) {
    if equal {
        bench.passed += 1;
    } else {
        bench.failed += 1;
        println!("FAILED: {what} differ; seed {}, after {} calls", bench.seed, bench.passed + bench.failed);
    }
}

/// The harness's own reading on the days counted by hand.
fn own(bench: &mut Bench) {
    for (name, parts, told) in by_hand() {
        let (mut device, mut image, mut bytes) = (Boundary::new(), reset(FORMS[2]), vec![0; LENGTH]);
        for records in &parts {
            tally::add(&mut Boundary::new(), &trace::bytes(records, &[records.len()]), &image, &mut bytes, &mut [0; 16]);
            for record in records {
                device.perform(&trace::call(record, 0), &mut image, &mut [0; 16], &mut [0; trace::ROOM], &mut []);
            }
        }
        let (mut sheet, mut wanted) = (vec![0; LENGTH], [0; 650]);
        tally::sheet(&bytes, &mut sheet, &mut [0; 16]);
        for (input, row) in told {
            wanted[10 * input..10 * input + 10].copy_from_slice(&row);
            for (k, number) in row.into_iter().enumerate() {
                wanted[COUNTED + k] = if k == 7 { number.max(wanted[COUNTED + k]) } else { wanted[COUNTED + k] + number };
            }
        }
        let records: usize = parts.iter().map(Vec::len).sum();
        let right = (0..650).all(|k| number(&sheet, k) == wanted[k]) && number(&bytes, COUNTED) == records as u64;
        tell(bench, &format!("the harness's own sheet of '{name}' and that by hand"), right);
    }
}

/// The days by hand in all forms; every length of the areas; every number of a tally at its limits; faults several at a time.
pub fn sweep(bench: &mut Bench, chance: &mut Chance) {
    own(bench);
    let mut cases = Cases::new();
    for form in FORMS {
        for (_, parts, _) in by_hand() {
            from_reset(bench, &mut cases, &whole(&parts), form);
        }
        let parts: Vec<Part> = sheets::by_hand().into_iter().map(|(_, records, _)| (records.clone(), cut(chance, records.len()))).collect();
        for part in &parts {
            from_reset(bench, &mut cases, std::slice::from_ref(part), form);
        }
        from_reset(bench, &mut cases, &parts, form);
    }
    lengths(bench, &mut cases);
    limits(bench, &mut cases, 1);
    faults(bench, &mut cases);
    // every kind of record with each byte of it another
    for good in EACH {
        for bit in 0..128 {
            let mut record = good;
            record[bit / 8] ^= 1 << (bit % 8);
            let trace = trace::bytes(&[EACH[0], record, EACH[1]], &[2, 1]);
            add(bench, &mut cases, trace, generate::accepted(chance, FORMS[bit % 3]).to_vec(), sound(chance), 16);
        }
    }
}

fn lengths(bench: &mut Bench, cases: &mut Cases) {
    let good = trace::bytes(&some(6), &[4, 2]);
    for length in (0..4).chain(LENGTH - 84..=LENGTH + 84) {
        begin(bench, cases, vec![0x69; length], 16);
        add(bench, cases, good.clone(), reset(FORMS[length % 3]), vec![0; length], 16);
        sheet_of(bench, cases, vec![0; length], LENGTH, 16);
        sheet_of(bench, cases, vec![0; LENGTH], length, 16);
    }
    for answer in 0..=40 {
        begin(bench, cases, vec![0x69; LENGTH + answer], answer);
        add(bench, cases, good.clone(), reset(FORMS[answer % 3]), vec![0; LENGTH], answer);
        sheet_of(bench, cases, vec![0; LENGTH], LENGTH + answer, answer);
    }
}

/// Each number, or one in so many, as great as it can be, and one more.
pub fn limits(bench: &mut Bench, cases: &mut Cases, step: usize) {
    let good = trace::bytes(&some(6), &[4, 2]);
    for k in (0..650).step_by(step) {
        for (counted, number) in
            [(4000, LIMIT - 1), (4000, LIMIT), (LIMIT - 1, LIMIT - 1), (4000, 4000), (4000, 4001), (0, 1), (4000, u64::MAX)]
        {
            let mut tally = vec![0; LENGTH];
            put(&mut tally, COUNTED, counted);
            put(&mut tally, k, number);
            sheet_of(bench, cases, tally.clone(), LENGTH, 16);
            add(bench, cases, good.clone(), reset(FORMS[k % 3]), tally, 16);
        }
    }
}

fn put(tally: &mut [u8], k: usize, number: u64) {
    tally[8 * k..8 * k + 8].copy_from_slice(&number.to_le_bytes());
}

/// Several faults at once, of which the first in the order 7, image, 12, 13, 17 is told.
pub fn faults(bench: &mut Bench, cases: &mut Cases) {
    for faults in 0..128 {
        let faulty = |bit: usize| faults & (1 << bit) != 0;
        let (mut trace, mut image, mut tally) = (trace::bytes(&some(6), &[4, 2]), reset(FORMS[faults % 3]), vec![0; LENGTH]);
        if faulty(2) {
            image.push(0);
        }
        if faulty(3) {
            image[0] ^= 4;
        }
        if faulty(4) {
            trace[0] = 3;
        }
        if faulty(5) {
            trace[10 + 16 * 4] = 7;
        }
        if faulty(6) {
            put(&mut tally, 9, 1);
        }
        let answer = 16 - usize::from(faulty(0));
        tally.truncate(LENGTH - usize::from(faulty(1)));
        sheet_of(bench, cases, tally.clone(), LENGTH - usize::from(faulty(2)), answer);
        add(bench, cases, trace, image, tally, answer);
    }
}

/// A number that a tally may have.
fn size(chance: &mut Chance) -> u64 {
    match chance.below(4) {
        0 => chance.below(5000),
        1 => LIMIT - 1 - chance.below(5000),
        2 => chance.number() >> 1,
        _ => (chance.number() >> 1) >> chance.below(63),
    }
}

/// The bytes of a tally that any day could have left, and of many that none did.
pub fn sound(chance: &mut Chance) -> Vec<u8> {
    let counted = size(chance);
    let mut numbers: Vec<u64> = (0..650).map(|_| if chance.percent(50) { 0 } else { size(chance) }).collect();
    for n in 0..64 {
        numbers[10 * n + 9] = match chance.below(4) {
            0 => 0,
            1 => counted - chance.below(counted.min(5000) + 1),
            2 => chance.below(counted + 1),
            _ => counted,
        };
    }
    numbers[COUNTED] = counted;
    numbers.into_iter().flat_map(u64::to_le_bytes).collect()
}

/// One with a number that none can have, or any bytes.
pub fn unsound(chance: &mut Chance) -> Vec<u8> {
    if chance.percent(20) {
        return any_bytes(chance, LENGTH);
    }
    let mut tally = sound(chance);
    for _ in 0..chance.between(1, 3) {
        let k = if chance.percent(50) { chance.below(650) } else { 10 * chance.below(65) + 9 } as usize;
        let counted = number(&tally, COUNTED);
        put(&mut tally, k, chance.one_of(&[LIMIT, u64::MAX, LIMIT - 1, counted.wrapping_add(1), counted, 1 << 56]));
    }
    tally
}

pub fn part(chance: &mut Chance, length: usize) -> Part {
    let records = if chance.percent(50) { random_records(chance, length) } else { sheets::waiting(chance, length) };
    (records, cut(chance, length))
}

/// Random days with so many records together: from reset, from any image, on any tally, and damaged.
pub fn random(bench: &mut Bench, chance: &mut Chance, records: u64) {
    let mut cases = Cases::new();
    let mut made = 0;
    while made < records && !bench.over() {
        let parts: Vec<Part> = (0..chance.between(1, 5))
            .map(|_| {
                let most = chance.one_of(&[20, 60, 60, 300]);
                let most = if chance.percent(2) { 4000 } else { most };
                let length = chance.between(1, most) as usize;
                part(chance, length)
            })
            .collect();
        made += parts.iter().map(|(records, _)| records.len() as u64).sum::<u64>();
        let form = chance.one_of(&FORMS);
        match chance.below(4) {
            0 | 1 => from_reset(bench, &mut cases, &parts, form),
            2 => {
                let (image, tally) = (generate::accepted(chance, form).to_vec(), sound(chance));
                day(bench, &mut cases, &parts, image, tally);
            }
            _ => damaged(bench, chance, &mut cases, &parts[0], form),
        }
    }
}

/// Something of image, trace and tally damaged, or all of them.
pub fn damaged(bench: &mut Bench, chance: &mut Chance, cases: &mut Cases, (records, blocks): &Part, form: Form) {
    let mut image = generate::accepted(chance, form).to_vec();
    let mut trace = trace::bytes(records, blocks);
    let mut tally = sound(chance);
    match chance.below(4) {
        0 => generate::damage(chance, &mut image, form),
        1 => {
            let day = Day { from: From::Reset, records: records.clone(), blocks: blocks.clone(), image: vec![] };
            trace = days::damaged(chance, day.play(records.len(), 0, 0)).trace;
        }
        2 => tally = unsound(chance),
        _ => {
            if chance.percent(50) {
                image = any_bytes(chance, form.length);
            }
            if chance.percent(50) {
                let length = trace.len();
                trace = any_bytes(chance, length);
            }
            tally = unsound(chance);
        }
    }
    let more = chance.one_of(&[0, 0, 0, 1, 8, 80]);
    tally.extend(any_bytes(chance, more));
    if chance.percent(5) {
        tally.truncate(LENGTH - 1);
    }
    sheet_of(bench, cases, tally.clone(), LENGTH + more, 16 + more % 3);
    add(bench, cases, trace, image, tally, 16 + more % 3);
}
