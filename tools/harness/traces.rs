//! The traces that are played, from a reset and on from an image: those that are tried whole, and random ones, good and damaged.

use crate::bench::{Bench, FILL};
use crate::call::From;
use crate::chance::Chance;
use crate::days::{self, Day, EACH, Play, any_bytes, cut, cut_in, fields, random_records, some, with_number};
use crate::fixed;
use crate::generate;
use crate::image::{FORMS, NUMBERED};
use crate::plays::Stage;
use crate::trace::{self, DRAIN, ROOM, Record, WRITE};

/// What is small enough is tried whole.
pub fn sweep(bench: &mut Bench, chance: &mut Chance) {
    let parts: [(&str, Part); 11] = [
        ("the papers' histories", papers),
        ("contents", contents),
        ("lengths of the trace", lengths),
        ("numbers of blocks and records", sizes),
        ("records", records),
        ("bad records", bad_records),
        ("lengths of the areas and order of the refusals", areas),
        ("long days", long_days),
        ("played on: the papers' histories", papers_on),
        ("played on: images that are refused", images),
        ("played on: order of the refusals", orders_on),
    ];
    let mut counts = Vec::new();
    for (name, part) in parts {
        let before = bench.passed;
        part(bench, chance, &mut Stage::new());
        counts.push(format!("{name} {}", bench.passed - before));
    }
    eprintln!("differential: traces: {}", counts.join(", "));
}

type Part = fn(&mut Bench, &mut Chance, &mut Stage);

/// The fixed histories as traces, after each record, in each form; all drains are drains of all.
fn papers(bench: &mut Bench, chance: &mut Chance, stage: &mut Stage) {
    for form in FORMS {
        for history in fixed::histories(form) {
            let records: Vec<Record> = history.steps.iter().filter_map(|(call, _)| trace::record(call)).collect();
            let blocks = cut(chance, records.len());
            let all: Vec<usize> = (1..=records.len()).collect();
            stage.day(bench, &Day { from: From::Reset, records, blocks, image: any_bytes(chance, form.length) }, &all, 0, FILL);
        }
    }
}

/// Traces whose contents are damaged, from one block with one record to the most of both.
fn good_traces() -> Vec<Vec<usize>> {
    let mut most = vec![1; 63];
    most.push(4000 - 63);
    vec![vec![1], vec![2, 1, 3], vec![300, 2, 1], vec![1; 64], most, vec![4000]]
}

/// Every bit of the contents, and every field with numbers that are near it, of others, at the ends; entries changed for others; gaps, overlaps, an empty block.
fn contents(bench: &mut Bench, _: &mut Chance, stage: &mut Stage) {
    for blocks in good_traces() {
        let count = blocks.iter().sum();
        let good = trace::bytes(&some(count), &blocks);
        let ends = 2 + 4 * blocks.len();
        let mut try_bytes = |trace: Vec<u8>| {
            stage.play(bench, &roomy(trace, NUMBERED.length));
        };
        try_bytes(good.clone());
        // of the longest traces the first and last entries will do
        for bit in (0..8 * ends).filter(|bit| count < 1000 || *bit < 80 || *bit + 64 > 8 * ends) {
            let mut trace = good.clone();
            trace[bit / 8] ^= 1 << (bit % 8);
            try_bytes(trace);
        }
        let field = |place: usize| u16::from_le_bytes([good[place], good[place + 1]]);
        for place in (0..ends).step_by(2).filter(|place| *place < 10 || *place + 10 > ends) {
            let now = field(place);
            let near = [now.wrapping_add(1), now.wrapping_sub(1), now.wrapping_add(16), now.wrapping_sub(16), now.swap_bytes()];
            for number in near.into_iter().chain([0, 1, 2, 63, 64, 65, 66, 256, 4000, 4001, 0x7fff, 0x8000, u16::MAX]) {
                try_bytes(with_number(&good, place, number));
            }
        }
        for block in 1..blocks.len().min(6) {
            let entry = |block: usize| 2 + 4 * block..6 + 4 * block;
            // two entries in each other's place: the blocks are listed out of order
            let mut swapped = good.clone();
            swapped[entry(block - 1)].copy_from_slice(&good[entry(block)]);
            swapped[entry(block)].copy_from_slice(&good[entry(block - 1)]);
            try_bytes(swapped);
            // the same entry twice
            let mut twice = good.clone();
            twice[entry(block)].copy_from_slice(&good[entry(block - 1)]);
            try_bytes(twice);
            // the border between two blocks a record on, which is good while none gets empty; or told by one of the two entries alone
            let (offset, counts) = (2 + 4 * block, [4 * block, 4 + 4 * block]);
            let on = with_number(&good, counts[0], field(counts[0]) + 1);
            let off = with_number(&on, counts[1], field(counts[1]) - 1);
            try_bytes(with_number(&off, offset, field(offset) + 16));
            try_bytes(off);
            try_bytes(with_number(&on, offset, field(offset) + 16));
        }
        // bytes between the contents and the first block, or between two blocks, that the offsets know of
        for gap in [1, 2, 4, 16] {
            for from in [0, 1, blocks.len() - 1] {
                let mut trace = good.clone();
                for block in from..blocks.len() {
                    trace = with_number(&trace, 2 + 4 * block, field(2 + 4 * block).wrapping_add(gap));
                }
                let at = usize::from(field(2 + 4 * from.min(blocks.len() - 1)));
                trace.splice(at..at, vec![0; usize::from(gap)]);
                try_bytes(trace);
            }
        }
        // an empty block, first, in between and last, with offsets that know of it
        for at in [0, 1, blocks.len()] {
            let mut empty = blocks.clone();
            empty.insert(at, 0);
            try_bytes(trace::bytes(&some(count), &empty));
        }
    }
}

/// Every length of a short trace, cut and with zeros or records behind it; of long ones those near their own and to the ends of the buffer.
fn lengths(bench: &mut Bench, _: &mut Chance, stage: &mut Stage) {
    for blocks in good_traces() {
        let good = trace::bytes(&some(blocks.iter().sum()), &blocks);
        let length = good.len();
        let near: Vec<usize> = if length < 400 { (0..length + 40).collect() } else { (length - 18..length + 18).collect() };
        for length in near.into_iter().chain([0, 1, 2, 5, 6, 65_519, 65_535, 65_536, 65_537, 70_000]) {
            for more in [vec![0], EACH[0].to_vec()] {
                let trace: Vec<u8> = good.iter().chain(more.iter().cycle()).copied().take(length).collect();
                stage.play(bench, &roomy(trace, FORMS[length % 3].length));
            }
        }
    }
    stage.play(bench, &Play { null: true, ..roomy(Vec::new(), NUMBERED.length) });
}

/// Every number of blocks from 1 to 70; 4,000 records and more, up to where the offsets of two bytes go round; and numbers that are right for a few records only
/// where sums of them are cut to two bytes.
fn sizes(bench: &mut Bench, chance: &mut Chance, stage: &mut Stage) {
    for blocks in 1..=70 {
        for each in [1, 3] {
            stage.play(bench, &roomy(trace::bytes(&some(blocks * each), &vec![each; blocks]), NUMBERED.length));
        }
    }
    for count in [3999, 4000, 4001, 4002, 4079, 4095, 4096, 4097, 4112, 8000] {
        for parts in [1, 2, 3, 63, 64, 65] {
            let records = some(count);
            let mut even = vec![count / parts; parts];
            even[parts - 1] += count % parts;
            let mut uneven = vec![1; parts];
            uneven[0] = count + 1 - parts;
            for blocks in [even, uneven, cut_in(chance, count, parts)] {
                stage.play(bench, &roomy(trace::bytes(&records, &blocks), FORMS[count % 3].length));
            }
        }
    }
    for blocks in [vec![4097], vec![4096 + 6], vec![65_535, 2], vec![65_535, 4], vec![1, 4096], vec![4096, 3], vec![3, 8192, 1]] {
        let all: usize = blocks.iter().sum();
        for count in [0, 1, 2, 3, 6, all % 4096, all % 65_536] {
            let blocks = [trace::contents(&blocks), some(count.min(4000)).concat()];
            stage.play(bench, &roomy(blocks.concat(), NUMBERED.length));
        }
    }
}

/// A record of each kind, with every value of every byte.
fn records(bench: &mut Bench, _: &mut Chance, stage: &mut Stage) {
    for good in EACH {
        for at in 0..16 {
            for byte in 0..=255 {
                let mut record = good;
                record[at] = byte;
                // what comes before makes something of it, and what comes behind shows it
                let trace = trace::bytes(&[fields(WRITE, 8, 0x20, 0), EACH[0], record, EACH[5]], &[3, 1]);
                stage.play(bench, &roomy(trace, FORMS[usize::from(byte) % 3].length));
            }
        }
    }
}

/// A bad record, for each reason, in every place of a short trace and in some of the longest, alone and with another behind it: the first is told.
fn bad_records(bench: &mut Bench, chance: &mut Chance, stage: &mut Stage) {
    let reasons = |k: usize| -> Vec<Record> {
        let mut bad = vec![[0; 16], [0xff; 16], fields(7, 5, 0, 0), fields(0, 5, 0, 0), fields(DRAIN, 1, 0, 0)];
        for (at, byte) in [(2, 1), (3, 0x80), (4, 1), (5, 2), (6, 4), (7, 0x80), (8, 1), (15, 0x80)] {
            bad.extend(EACH.map(|mut record| {
                record[at] |= byte;
                record
            }));
        }
        bad.retain(trace::is_bad);
        bad.into_iter().skip(k % 5).step_by(5).collect()
    };
    let mut try_in = |stage: &mut Stage, blocks: &[usize], at: usize, bad: Record| {
        let mut records = some(blocks.iter().sum());
        records[at] = bad;
        stage.play(bench, &roomy(trace::bytes(&records, blocks), NUMBERED.length));
        if at + 1 < records.len() {
            let behind = chance.between(at as u64 + 1, records.len() as u64 - 1) as usize;
            records[behind] = [0; 16];
            stage.play(bench, &roomy(trace::bytes(&records, blocks), NUMBERED.length));
        }
    };
    for at in 0..13 {
        for bad in (0..5).flat_map(reasons) {
            try_in(stage, &[3, 1, 4, 5], at, bad);
        }
    }
    for at in [0, 1, 62, 63, 255, 256, 257, 3998, 3999] {
        let mut blocks = vec![1; 63];
        blocks.push(4000 - 63);
        for bad in reasons(at) {
            try_in(stage, &blocks, at, bad);
            try_in(stage, &[4000], at, bad);
        }
    }
}

/// Every length of each area, null ones too; and several faults at once, of which the first in the order 7, 4, 12, 13, 7 is told.
fn areas(bench: &mut Bench, chance: &mut Chance, stage: &mut Stage) {
    let good = |form: usize| {
        let records = vec![fields(WRITE, 8, 0x20, 0), EACH[0], EACH[5], EACH[4], EACH[1], EACH[5]];
        Day { from: From::Reset, blocks: vec![4, 2], image: vec![0x5c; FORMS[form].length], records }.play(6, 0, FILL)
    };
    for form in 0..3 {
        let play = good(form);
        for null in [false, true] {
            for length in 0..=16 * 6 + 40 {
                stage.play(bench, &Play { answers: length, null, ..play.clone() });
            }
            for length in 0..=ROOM * 2 + 70 {
                stage.play(bench, &Play { events: length, null, ..play.clone() });
            }
            for answer in 0..=48 {
                stage.play(bench, &Play { answer, null, ..play.clone() });
            }
            for length in 0..=320 {
                stage.play(bench, &Play { image: any_bytes(chance, length), null, ..play.clone() });
            }
        }
        for faults in 0..64 {
            let mut play = play.clone();
            let faulty = |bit: usize| faults & (1 << bit) != 0;
            if faulty(0) {
                play.answer = 15;
            }
            if faulty(1) {
                play.image.push(0);
            }
            if faulty(2) {
                play.trace[0] = 3;
            }
            if faulty(3) {
                play.trace[10] = 0;
            }
            if faulty(4) {
                play.answers -= 1;
            }
            if faulty(5) {
                play.events -= 1;
            }
            stage.play(bench, &play);
        }
    }
}

/// Days of 4,000 records, in each form: random ones, and one that makes events until their numbers went round.
fn long_days(bench: &mut Bench, chance: &mut Chance, stage: &mut Stage) {
    let lengths = [1, 2, 63, 64, 1000, 2049, 3999, 4000];
    for form in FORMS {
        for _ in 0..3 {
            let (records, blocks) = (random_records(chance, 4000), cut(chance, 4000));
            let day = Day { from: From::Reset, records, blocks, image: any_bytes(chance, form.length) };
            stage.day(bench, &day, &lengths, 7, chance.number());
        }
        // all inputs in service, all cleared: 64 events, of which 16 wait; now and then they are drained
        let round = [fields(WRITE, 8, 0x3a0, u64::MAX), fields(WRITE, 8, 0x080, u64::MAX), EACH[5]];
        let records: Vec<Record> = (0..4000).map(|k| if k % 57 == 56 { round[2] } else { round[k % 2] }).collect();
        let day = Day { from: From::Reset, records, blocks: vec![1000; 4], image: any_bytes(chance, form.length) };
        stage.day(bench, &day, &lengths, 0, chance.number());
    }
}

/// The fixed histories as traces, played on from an accepted image of each form, after each record and as a day of several traces.
fn papers_on(bench: &mut Bench, chance: &mut Chance, stage: &mut Stage) {
    for form in FORMS {
        for history in fixed::histories(form) {
            let records: Vec<Record> = history.steps.iter().filter_map(|(call, _)| trace::record(call)).collect();
            let (blocks, all, parts) =
                (cut(chance, records.len()), (1..=records.len()).collect::<Vec<usize>>(), cut(chance, records.len()));
            let day = Day { from: From::Image, records, blocks, image: generate::accepted(chance, form) };
            stage.day(bench, &day, &all, 0, FILL);
            stage.in_turn(bench, &day, &parts, chance.number());
        }
    }
}

/// Every byte of an accepted image of each form with one bit changed, every rule broken, and every length; under a good trace, and under one that is wrong and no room.
fn images(bench: &mut Bench, chance: &mut Chance, stage: &mut Stage) {
    for form in FORMS {
        let image = generate::with_events(chance, form);
        let good = Day { from: From::Image, records: some(6), blocks: vec![4, 2], image: image.clone() }.play(6, 3, FILL);
        let mut other: Vec<Vec<u8>> = (0..=320).map(|length| any_bytes(chance, length)).collect();
        let changed = |place: usize, byte: u8| image.iter().enumerate().map(|(at, old)| if at == place { byte } else { *old }).collect();
        other.extend((0..image.len()).map(|place| changed(place, image[place] ^ 1 << chance.below(8))));
        other.extend(generate::breaches(&image, form).into_iter().map(|(place, byte)| changed(place, byte)));
        for image in other {
            let play = Play { image, ..good.clone() };
            stage.play(bench, &play);
            stage.play(bench, &Play { trace: Vec::new(), answers: 0, events: 0, ..play });
        }
    }
}

/// Several faults at once, of which the first in the order 7, 4, 5 or 8 to 11, 12, 13, 7 is told; and every length of each area.
fn orders_on(bench: &mut Bench, chance: &mut Chance, stage: &mut Stage) {
    for form in FORMS {
        let image = generate::with_events(chance, form);
        let records = vec![fields(WRITE, 8, 0x20, 0), EACH[0], EACH[5], EACH[4], EACH[1], EACH[5]];
        let play = Day { from: From::Image, records, blocks: vec![4, 2], image }.play(6, 0, FILL);
        for breach in generate::breaches(&play.image, form) {
            for faults in 0..128 {
                let mut play = play.clone();
                let faulty = |bit: usize| faults & (1 << bit) != 0;
                if faulty(0) {
                    play.answer = 15;
                }
                if faulty(1) {
                    play.image[breach.0] = breach.1;
                }
                if faulty(2) {
                    play.image.push(0);
                }
                if faulty(3) {
                    play.trace[0] = 3;
                }
                if faulty(4) {
                    play.trace[10] = 0;
                }
                if faulty(5) {
                    play.answers -= 1;
                }
                if faulty(6) {
                    play.events -= 1;
                }
                stage.play(bench, &play);
            }
        }
        for length in 0..=16 * 6 + 40 {
            stage.play(bench, &Play { answers: length, ..play.clone() });
            stage.play(bench, &Play { events: length, null: true, ..play.clone() });
            stage.play(bench, &Play { answer: length % 40, ..play.clone() });
        }
    }
}

/// Random traces with so many records together: each good one is played in parts and whole, and then damaged.
pub fn random(bench: &mut Bench, chance: &mut Chance, records: u64) {
    let mut stage = Stage::new();
    let mut made = 0;
    while made < records && !bench.over() {
        let length = match chance.below(20) {
            0..=9 => chance.between(1, 24),
            10..=16 => chance.between(1, 200),
            17..=18 => chance.between(1, 1000),
            _ => chance.between(1, 4000),
        }
        .min(records - made) as usize;
        made += length as u64;
        let form = chance.one_of(&FORMS);
        let (from, image) = if chance.percent(50) {
            (From::Reset, any_bytes(chance, form.length))
        } else {
            (From::Image, generate::accepted(chance, form))
        };
        let day = Day { from, records: random_records(chance, length), blocks: cut(chance, length), image };
        let parts: Vec<usize> = if length <= 24 {
            (1..=length).collect()
        } else {
            let mut parts = vec![chance.between(1, length as u64) as usize, chance.between(1, length as u64) as usize, length];
            parts.sort_unstable();
            parts
        };
        let more = if chance.percent(50) { 0 } else { chance.below(40) as usize };
        stage.day(bench, &day, &parts, more, chance.number());
        stage.in_turn(bench, &day, &cut(chance, length), chance.number());
        for _ in 0..chance.below(4) {
            let play = day.play(length, more, chance.number());
            stage.play(bench, &days::damaged(chance, play));
        }
    }
}

/// A play of a trace whose records are some and a few others, with room for them and bytes past it.
fn roomy(trace: Vec<u8>, image: usize) -> Play {
    let records = trace.len() / 16;
    let (answers, events) = (16 * records + 5, ROOM * (records / 6 + 3) + 3);
    Play { from: From::Reset, trace, image: vec![0x5c; image], answers, events, answer: 20, null: false, fill: FILL }
}
