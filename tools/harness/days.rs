//! Days of calls and plays of them as data: by hand, at random, and damaged.

use crate::call::From;
use crate::chance::Chance;
use crate::generate;
use crate::image::FORMS;
use crate::lent::{Block, Five};
use crate::trace::{self, BASE, DRAIN, LOWER, POLL, RAISE, READ, ROOM, Record, SIZE, WRITE};

/// A play, from a reset or on: the trace, the image's bytes before it, how long the other areas are, whether empty ones are null, and what they hold before.
#[derive(Clone)]
pub struct Play {
    pub from: From,
    pub trace: Vec<u8>,
    pub image: Vec<u8>,
    pub answers: usize,
    pub events: usize,
    pub answer: usize,
    pub null: bool,
    pub fill: u64,
}

impl Play {
    pub fn lent(&self) -> Five {
        let Play { ref trace, ref image, answers, events, answer, null, fill, .. } = *self;
        Five {
            trace: Block::of(trace, null),
            image: Block::of(image, null),
            answers: Block::filled(answers, fill.rotate_left(41), null),
            events: Block::filled(events, fill.rotate_left(29), null),
            answer: Block::filled(answer, fill, null),
        }
    }
}

/// Records, cut into blocks of so many, to be played on bytes of some length, or on from an image.
#[derive(Clone)]
pub struct Day {
    pub from: From,
    pub records: Vec<Record>,
    pub blocks: Vec<usize>,
    pub image: Vec<u8>,
}

impl Day {
    /// Its first records as a trace, with the room that they need and so many bytes more.
    pub fn play(&self, records: usize, more: usize, fill: u64) -> Play {
        let mut blocks = Vec::new();
        let mut rest = records;
        for &block in &self.blocks {
            blocks.push(block.min(rest));
            rest -= block.min(rest);
            if rest == 0 {
                break;
            }
        }
        let first = &self.records[..records];
        let drains = first.iter().filter(|record| record[0] == DRAIN).count();
        Play {
            from: self.from,
            trace: trace::bytes(first, &blocks),
            image: self.image.clone(),
            answers: 16 * records + more,
            events: ROOM * drains + more,
            answer: 16 + more,
            null: more == 0,
            fill,
        }
    }
}

/// A record by its fields.
pub const fn fields(kind: u8, byte: u8, offset: u16, value: u64) -> Record {
    let ([o, p], v) = (offset.to_le_bytes(), value.to_le_bytes());
    [kind, byte, o, p, 0, 0, 0, 0, v[0], v[1], v[2], v[3], v[4], v[5], v[6], v[7]]
}

/// One good record of each kind, each with something in every field that it uses.
pub const EACH: [Record; 6] = [
    fields(RAISE, 5, 0, 0),
    fields(LOWER, 5, 0, 0),
    fields(POLL, 9, 0, 0),
    fields(READ, 8, 0x03a0, 0),
    fields(WRITE, 8, 0x0020, 0x0102_0304_0506_0708),
    fields(DRAIN, 0, 0, 0),
];

/// So many records, all good, every kind among them.
pub fn some(count: usize) -> Vec<Record> {
    EACH.into_iter().cycle().skip(4).take(count).collect()
}

/// So many records as a guest and its host may make them. Numbers that no field holds are cut, so some calls are refused.
pub fn random_records(chance: &mut Chance, count: usize) -> Vec<Record> {
    let mut mood = generate::mood_in(chance, BASE, SIZE);
    (0..count)
        .map(|_| {
            if chance.percent(1) {
                mood = generate::mood_in(chance, BASE, SIZE);
            }
            let call = generate::call(chance, &mood);
            trace::record(&call).expect("a record has a kind for each of them")
        })
        .collect()
}

/// So many records in any number of blocks that there may be.
pub fn cut(chance: &mut Chance, records: usize) -> Vec<usize> {
    let parts = match chance.below(4) {
        0 => 1,
        1 => 64,
        _ => chance.between(1, 64) as usize,
    };
    cut_in(chance, records, parts.min(records))
}

/// So many records in so many blocks, none empty.
pub fn cut_in(chance: &mut Chance, records: usize, parts: usize) -> Vec<usize> {
    let mut blocks = vec![1; parts];
    for _ in 0..records - parts {
        blocks[chance.below(parts as u64) as usize] += 1;
    }
    blocks
}

/// Bytes for an image that is reset before a trace is played, whatever they are.
pub fn any_bytes(chance: &mut Chance, length: usize) -> Vec<u8> {
    match (chance.below(4), FORMS.into_iter().find(|form| form.length == length)) {
        (0, Some(form)) => generate::accepted(chance, form),
        (1, _) => vec![0; length],
        _ => (0..length).map(|_| chance.number() as u8).collect(),
    }
}

pub fn with_number(trace: &[u8], place: usize, number: u16) -> Vec<u8> {
    let mut trace = trace.to_vec();
    trace[place..place + 2].copy_from_slice(&number.to_le_bytes());
    trace
}

/// A play that is damaged in one or two ways; some damages leave it good.
pub fn damaged(chance: &mut Chance, mut play: Play) -> Play {
    for _ in 0..chance.between(1, 2) {
        let length = play.trace.len() as u64;
        let listed = (2 + 4 * u64::from(play.trace.first().copied().unwrap_or(0))).min(length);
        match chance.below(10) {
            // the contents
            0..=1 if listed > 0 => play.trace[chance.below(listed) as usize] ^= 1 << chance.below(8),
            2 if listed > 2 => {
                let place = 2 * chance.below(listed / 2) as usize;
                let now = u16::from_le_bytes([play.trace[place], play.trace[place + 1]]);
                let near = [now.wrapping_add(1), now.wrapping_sub(1), now.wrapping_add(16), now.wrapping_sub(16), 0, u16::MAX];
                play.trace = with_number(&play.trace, place, chance.one_of(&near));
            }
            // a byte of a record, any or its first
            3..=4 if length > listed => play.trace[chance.between(listed, length - 1) as usize] ^= 1 << chance.below(8),
            5 if length > listed => {
                let record = chance.below((length - listed) / 16 + 1) * 16 + listed;
                if record < length {
                    play.trace[record as usize] = chance.below(9) as u8;
                }
            }
            // the length
            6 => {
                let other = if chance.percent(50) { length + chance.between(1, 33) } else { chance.below(length + 1) };
                play.trace.resize(other as usize, 0);
            }
            // the areas
            // the image: of one that is played on some byte, in half of them
            7 if play.from == From::Image && chance.percent(50) => {
                if let Some(form) = FORMS.into_iter().find(|form| form.length == play.image.len()) {
                    generate::damage(chance, &mut play.image, form);
                }
            }
            7 => {
                let length = generate::length(chance);
                play.image = any_bytes(chance, length);
            }
            8 => {
                play.answers = play.answers.saturating_sub(chance.between(1, 50) as usize);
                play.events = play.events.saturating_sub(chance.below(50) as usize);
            }
            _ => {
                play.answer = chance.below(20) as usize;
                play.events = play.events.saturating_sub(chance.below(3) as usize);
            }
        }
    }
    play
}
