//! The traces that are salvaged: small ones with every set of damaged records, every length of the areas, and random ones with records damaged in any block.

use crate::bench::{Bench, FILL};
use crate::call::From;
use crate::case::{Case, Front};
use crate::cases::{Cases, tell_failed};
use crate::chance::Chance;
use crate::days::{self, Day, EACH, any_bytes, cut, fields, random_records, some};
use crate::image::FORMS;
use crate::plays::Stage;
use crate::trace::{self, DRAIN, Record};

/// Both sides, and a stage on which what was salvaged is played.
pub struct Salvages {
    pub cases: Cases,
    stage: Stage,
}

/// What is small enough is tried whole.
pub fn sweep(bench: &mut Bench, chance: &mut Chance) {
    let mut both = Salvages::new(Cases::new());
    sets(bench, &mut both);
    blocks(bench, chance, &mut both);
    reasons(bench, &mut both);
    lengths(bench, &mut both);
    faults(bench, &mut both.cases);
}

/// Every set of records of a short trace, damaged in three ways.
fn sets(bench: &mut Bench, both: &mut Salvages) {
    for blocks in [vec![2, 1, 3], vec![6], vec![1; 6]] {
        for set in 0..64 {
            for bad in [[0; 16], [0xff; 16], fields(DRAIN, 0, 0, 1)] {
                let mut records = some(6);
                for (k, record) in records.iter_mut().enumerate() {
                    if set & (1 << k) != 0 {
                        *record = bad;
                    }
                }
                both.try_bytes(bench, &trace::bytes(&records, &blocks), 3);
            }
        }
    }
}

/// Each block of the most blocks damaged alone, and each left alone; long blocks damaged in their last record.
fn blocks(bench: &mut Bench, chance: &mut Chance, both: &mut Salvages) {
    let good = days::cut_in(chance, 300, 64);
    for block in 0..64 {
        for alone in [false, true] {
            let mut records = Vec::new();
            for (k, &count) in good.iter().enumerate() {
                let mut block_records = some(count);
                if (k == block) != alone {
                    block_records[chance.below(count as u64) as usize] = [0; 16];
                }
                records.extend(block_records);
            }
            both.try_bytes(bench, &trace::bytes(&records, &good), 0);
        }
    }
    for (blocks, at) in [(vec![1, 3999], 3999), (vec![3999, 1], 3998), (vec![4000], 3999), (vec![1, 258, 3741], 258), (vec![2000; 2], 1999)]
    {
        let mut records = some(4000);
        both.try_bytes(bench, &trace::bytes(&records, &blocks), 1);
        records[at][4] = 1;
        both.try_bytes(bench, &trace::bytes(&records, &blocks), 1);
    }
}

/// A record of each kind with every bit of it turned, in the middle of three blocks.
fn reasons(bench: &mut Bench, both: &mut Salvages) {
    for good in EACH {
        for bit in 0..128 {
            let mut record = good;
            record[bit / 8] ^= 1 << (bit % 8);
            both.try_bytes(bench, &trace::bytes(&[EACH[4], EACH[0], record, EACH[5]], &[1, 2, 1]), 2);
        }
    }
}

/// A short torn trace on areas of these lengths. What is kept of it has 2 + 8 bytes and 4 records, the list two entries.
pub fn short_case([kept, list, answer]: [usize; 3], null: bool) -> Case {
    let mut records = some(7);
    (records[1], records[6]) = ([0; 16], [7; 16]);
    let areas = vec![trace::bytes(&records, &[2, 3, 1, 1]), vec![0xa1; kept], vec![0xb2; list], vec![0xc3; answer]];
    Case { front: Front::Salvage, areas, null }
}

/// Every length of each area, null ones too.
fn lengths(bench: &mut Bench, both: &mut Salvages) {
    for null in [false, true] {
        for length in 0..=80 {
            both.cases.make(bench, &short_case([length, 8, 16], null));
            both.cases.make(bench, &short_case([length, 7, 16], null));
        }
        for length in 0..=20 {
            both.cases.make(bench, &short_case([74, length, 16], null));
            both.cases.make(bench, &short_case([74, 8, length], null));
            both.cases.make(bench, &short_case([73, 8, length], null));
        }
    }
}

/// Several faults at once, of which the first in the order 7, 12, 16, 7 is told.
pub fn faults(bench: &mut Bench, cases: &mut Cases) {
    for faults in 0..32 {
        let faulty = |bit: usize| faults & (1 << bit) != 0;
        let lengths = [(3, 74), (4, 8), (0, 16)].map(|(bit, length)| length - usize::from(faulty(bit)));
        let mut case = short_case(lengths, false);
        if faulty(1) {
            case.areas[0].push(0);
        }
        if faulty(2) {
            // no block is left
            let bad: Vec<Record> = vec![[0; 16]; 7];
            case.areas[0].splice(18..18 + 7 * 16, bad.concat());
        }
        cases.make(bench, &case);
    }
}

/// Random traces with so many records together, each salvaged as it is, torn, and with damaged contents.
pub fn random(bench: &mut Bench, chance: &mut Chance, records: u64) {
    let mut both = Salvages::new(Cases::new());
    let mut made = 0;
    while made < records && !bench.over() {
        let length = match chance.below(20) {
            0..=11 => chance.between(1, 60),
            12..=18 => chance.between(1, 600),
            _ => chance.between(1, 4000),
        }
        .min(records - made) as usize;
        made += length as u64;
        let (good, blocks) = (random_records(chance, length), cut(chance, length));
        let more = chance.below(40) as usize;
        both.try_bytes(bench, &trace::bytes(&good, &blocks), more);
        for _ in 0..chance.between(1, 3) {
            let torn = torn(chance, &good, &blocks);
            let trace = trace::bytes(&torn, &blocks);
            both.try_bytes(bench, &trace, more);
            both.short(bench, chance, &trace);
            if chance.percent(40) {
                // damage of contents and length, and of records on top
                let day = Day { from: From::Reset, records: torn, blocks: blocks.clone(), image: any_bytes(chance, 290) };
                let damaged = days::damaged(chance, day.play(length, 0, FILL));
                both.try_bytes(bench, &damaged.trace, more);
            }
        }
    }
}

/// Some blocks damaged, from one to all: a record in any way that makes it bad, some that leave it good, or from a record on all that stands in the block.
pub fn torn(chance: &mut Chance, good: &[Record], blocks: &[usize]) -> Vec<Record> {
    let mut records = good.to_vec();
    let share = chance.one_of(&[3, 20, 50, 90, 100]);
    let mut first = 0;
    for (k, &count) in blocks.iter().enumerate() {
        if chance.percent(share) || (k == 0 && share == 3) {
            let at = first + chance.below(count as u64) as usize;
            if chance.percent(30) {
                let lost = chance.one_of(&[0, 0xff, 0x5a]);
                records[at..first + count].fill([lost; 16]);
            } else {
                spoil(chance, &mut records[at]);
            }
        }
        first += count;
    }
    records
}

fn spoil(chance: &mut Chance, record: &mut Record) {
    let other = chance.number() as u8 | 1;
    match chance.below(7) {
        0 => record[0] = chance.one_of(&[0, 7, 8, 0x81, 0xff]),
        1 => record[0] = chance.between(1, 6) as u8,
        2 => record[chance.between(4, 7) as usize] = other,
        3 => record[chance.between(8, 15) as usize] = other,
        4 => record[chance.between(2, 3) as usize] = other,
        5 => record[1] = other,
        _ => record[chance.below(16) as usize] ^= 1 << chance.below(8),
    }
}

impl Salvages {
    pub fn new(cases: Cases) -> Self {
        Salvages { cases, stage: Stage::new() }
    }

    /// Salvages with room and some bytes more. The outcome is salvaged again, which changes nothing, and it plays.
    pub fn try_bytes(&mut self, bench: &mut Bench, trace: &[u8], more: usize) {
        let filled = |byte: u8, length: usize| vec![byte; length];
        let case = |trace: &[u8]| {
            let areas = vec![trace.to_vec(), filled(0xa1, trace.len() + more), filled(0xb2, 256 + more), filled(0xc3, 16 + more)];
            Case { front: Front::Salvage, areas, null: more == 0 }
        };
        let first = case(trace);
        if self.cases.make(bench, &first) != Some(0) {
            return;
        }
        let length = u64::from_le_bytes(self.cases.left(3)[8..16].try_into().expect("a value has 8 bytes")) as usize;
        let new = self.cases.left(1)[..length].to_vec();
        let [old_blocks, new_blocks] = [trace, &new].map(|trace| u64::from(u16::from_le_bytes([trace[0], trace[1]])));
        bench.met.fronts.kept += new_blocks;
        bench.met.fronts.dropped += old_blocks - new_blocks;
        if trace::test(trace).is_ok() {
            if new != trace {
                return tell_failed(bench, &first, "a good trace comes out as another".into());
            }
            bench.met.fronts.unchanged += 1;
        }
        let again = case(&new);
        let number = self.cases.make(bench, &again);
        if number != Some(0) || !self.cases.left(1).starts_with(&new) || self.cases.left(2) != again.areas[2] {
            return tell_failed(bench, &again, "salvaging the outcome again changes it".into());
        }
        bench.met.fronts.again += 1;
        let records = (new.len() - 2 - 4 * new_blocks as usize) / 16;
        let play = days::Play {
            from: From::Reset,
            trace: new,
            image: vec![0x5c; FORMS[records % 3].length],
            answers: 16 * records,
            events: trace::ROOM * records,
            answer: 16,
            null: false,
            fill: FILL,
        };
        if records <= 300 && !bench.over() && self.stage.play(bench, &play) != Some(0) {
            tell_failed(bench, &again, "the outcome does not play".into());
        }
    }

    /// Salvages with the least room that is enough, and with less.
    pub fn short(&mut self, bench: &mut Bench, chance: &mut Chance, trace: &[u8]) {
        let Some(blocks) = trace::blocks(trace) else { return };
        let good = |block: &&Vec<Record>| !block.iter().any(trace::is_bad);
        let kept: Vec<&Vec<Record>> = blocks.iter().filter(good).collect();
        let length = 2 + kept.iter().map(|block| 4 + 16 * block.len()).sum::<usize>();
        let list = 4 * (blocks.len() - kept.len());
        let less = |chance: &mut Chance, length: usize| length.saturating_sub(1 + chance.below(3) as usize);
        for (kept, list, answer) in [
            (length, list, 16),
            (length - 1, list, 16),
            (length, list.saturating_sub(1), 16),
            (less(chance, length), less(chance, list), 16 - chance.below(2) as usize),
        ] {
            let areas = vec![trace.to_vec(), vec![0xa1; kept], vec![0xb2; list], vec![0xc3; answer]];
            self.cases.make(bench, &Case { front: Front::Salvage, areas, null: chance.percent(50) });
        }
    }
}
