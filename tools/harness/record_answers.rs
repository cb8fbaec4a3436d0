//! Makes the files of recorded answers and of recorded cases: the published Rust answers, by the boundary that 01 states, and beside it the harness's own reading of 02.
//! `tools/record-answers` runs this.

// the modules are shared with the other programs, and not all of each is used here
#![allow(dead_code)]

mod bench;
mod board;
mod boards;
mod boundary;
mod call;
mod case;
mod case_records;
mod cases;
mod caught;
mod chance;
mod chosen;
mod days;
mod expected;
mod fixed;
mod fronts;
mod generate;
mod hoist;
mod hoists;
mod image;
mod lent;
mod numbers;
mod played;
mod plays;
mod quiet;
mod records;
mod salvaged;
mod salvages;
mod sheet;
mod sheets;
mod tallies;
mod tally;
mod text;
mod told;
mod trace;
mod under_test;

use bench::Bench;
use boundary::Boundary;
use call::Call;
use case_records::Writer;
use cases::Cases;
use chance::Chance;
use chosen::{Choice, FILES, File};
use image::{FORMS, Form};
use records::{
    ANSWER_AREA, ANSWER_FILL, Answered, BYTE, EVENT_BUFFER, EVENT_FILL, IMAGE, IMAGE_BUFFER, IMAGE_RECORDS, MAGIC, RECORD, WHOLE,
};
use std::collections::BTreeMap;

/// The recorder keeps the three areas as a replayer does.
struct Recorder {
    rust: Boundary,
    image: [u8; IMAGE_BUFFER],
    file: Vec<u8>,
    calls: u32,
    // how many calls of each kind there are, and how many answers of each number
    kinds: [u32; 7],
    numbers: [u32; 12],
}

impl Recorder {
    fn new() -> Self {
        Recorder { rust: Boundary::new(), image: [0; IMAGE_BUFFER], file: vec![0; RECORD], calls: 0, kinds: [0; 7], numbers: [0; 12] }
    }

    /// How many records there are, the header left aside.
    fn records(&self) -> usize {
        self.file.len() / RECORD - 1
    }

    fn load(&mut self, image: &[u8]) {
        self.image.fill(0);
        self.image[..image.len()].copy_from_slice(image);
        self.with_image(IMAGE);
    }

    /// A record of this kind, and the image buffer as it is now.
    fn with_image(&mut self, kind: u8) {
        let start = self.file.len();
        self.file.resize(start + RECORD * (1 + IMAGE_RECORDS), 0);
        self.file[start] = kind;
        self.file[start + RECORD..start + RECORD + IMAGE_BUFFER].copy_from_slice(&self.image);
    }

    fn set_byte(&mut self, place: usize, byte: u8) {
        self.image[place] = byte;
        let mut record = [0; RECORD];
        record[0] = BYTE;
        record[16..24].copy_from_slice(&(place as u64).to_le_bytes());
        record[24..32].copy_from_slice(&u64::from(byte).to_le_bytes());
        self.file.extend_from_slice(&record);
    }

    fn call(&mut self, call: Call, image: usize, answer: usize, events: usize) {
        let mut answer_area = [ANSWER_FILL; ANSWER_AREA];
        let mut event_buffer = [EVENT_FILL; EVENT_BUFFER];
        let lent = &mut self.image[..image];
        let number = self.rust.perform(&call, lent, &mut answer_area[..answer], &mut event_buffer[..events], &mut []);
        let present = number != 7 && answer_area[1] == 1;
        let drain = matches!(call, Call::Drain { .. });
        let answered = Answered {
            call,
            image,
            answer,
            events,
            number,
            value: present.then(|| u64::from_le_bytes(answer_area[8..16].try_into().unwrap())),
            image_sum: records::checksum(&self.image),
            event_sum: if drain { records::checksum(&event_buffer) } else { 0 },
        };
        let record = answered.write();
        assert_eq!(Answered::read(&record), Some(answered), "a record reads back as it was written");
        self.file.extend_from_slice(&record);
        self.calls += 1;
        self.kinds[record[0] as usize] += 1;
        self.numbers[number as usize] += 1;
    }

    fn finish(mut self) -> Vec<u8> {
        let records = self.records() as u32;
        self.file[..8].copy_from_slice(MAGIC);
        self.file[8..12].copy_from_slice(&records.to_le_bytes());
        self.file[12..16].copy_from_slice(&self.calls.to_le_bytes());
        self.file
    }
}

/// The fixed histories, the read sweep and broken rules in all forms, and random histories, in one form after the other, until there are so many records.
const RECORDS: usize = 9000;
const SEED: u64 = 20;

fn main() {
    quiet::on_closed_pipes();
    let path = std::env::args().nth(1).expect("the path of the file to write");
    let folder = std::env::args().nth(2).expect("the folder of the files of cases");
    let mut recorder = Recorder::new();
    let mut chance = Chance::new(SEED);
    for form in FORMS {
        for history in fixed::histories(form) {
            recorder.call(Call::Reset, form.length, 16, 0);
            if let Some(numbers) = form.numbers
                && history.next != 0
            {
                let [low, high] = history.next.to_le_bytes();
                recorder.set_byte(numbers, low);
                recorder.set_byte(numbers + 1, high);
            }
            for (call, _) in history.steps {
                let events = if let Call::Drain { .. } = call { EVENT_BUFFER } else { 0 };
                recorder.call(call, form.length, 16, events);
            }
            recorder.with_image(WHOLE);
        }
        read_sweep(&mut recorder, &mut chance, form);
        broken_rules(&mut recorder, &mut chance, form);
    }
    let mut forms = FORMS.into_iter().cycle();
    while recorder.records() < RECORDS {
        history(&mut recorder, &mut chance, forms.next().unwrap());
    }
    let (records, calls) = (recorder.records(), recorder.calls);
    let [_, reset, read, write, level, poll, drain] = recorder.kinds;
    println!(
        "reset {reset}, read {read}, write {write}, level {level}, poll {poll}, drain {drain}; numbers 0 to 11: {:?}",
        recorder.numbers
    );
    let file = recorder.finish();
    keep(&path, &file);
    println!("{path}: {records} records, {calls} of them calls, {} bytes", file.len());
    for file in &FILES {
        cases(file, &format!("{folder}/{}.bin", file.name));
    }
}

fn keep(path: &str, file: &[u8]) {
    if let Err(error) = std::fs::write(path, file) {
        eprintln!("record-answers: {path}: {error}");
        std::process::exit(2);
    }
}

/// Makes the cases that are chosen for a file, with what is expected of them; the numbers that each call hands back are told.
fn cases(file: &File, path: &str) {
    let mut cases = Cases::new();
    cases.made = Some(Vec::new());
    let mut choice = Choice { bench: Bench::new(SEED, 1), chance: Chance::new(SEED), cases };
    (file.choose)(&mut choice);
    assert_eq!(choice.bench.failed, 0, "the stand-in does what is expected");
    let (mut writer, mut numbers) = (Writer::new(), BTreeMap::<String, BTreeMap<u8, u32>>::new());
    for made in choice.cases.made.iter().flatten() {
        writer.add(made);
        *numbers.entry(text::front_name(&made.case.front)).or_default().entry(made.number).or_default() += 1;
    }
    for (call, wanted) in file.numbers {
        let missing: Vec<&u8> = wanted.iter().filter(|&number| numbers.get(*call).is_none_or(|met| !met.contains_key(number))).collect();
        assert!(missing.is_empty(), "{path}: no {call} hands back {missing:?}");
    }
    let count: u32 = numbers.values().flat_map(BTreeMap::values).sum();
    let bytes = writer.finish();
    keep(path, &bytes);
    println!("{path}: {count} cases, {} bytes; by the number handed back", bytes.len());
    for (call, met) in numbers {
        println!("  {call} {met:?}");
    }
}

/// Every register half and the ends of the tables, with their neighbours, by every width, on an image where much is set.
fn read_sweep(recorder: &mut Recorder, chance: &mut Chance, form: Form) {
    recorder.load(&generate::accepted(chance, form));
    let mut offsets: Vec<u64> = generate::REGISTERS.iter().flat_map(|&low| [low, low + 3, low + 4, low + 8]).collect();
    offsets.extend([0x0fd, 0x0ff, 0x100, 0x120, 0x13c, 0x13d, 0x13e, 0x13f, 0x140, 0x1fd, 0x200, 0x23c, 0x23e, 0x23f, 0x240]);
    offsets.extend([0x37c, 0x37f, 0x39c, 0x39e, 0x39f, 0x3fc, 0x400, u64::MAX - 8, u64::MAX - 4, u64::MAX - 3, u64::MAX - 1]);
    for address in offsets {
        for width in [1, 2, 4, 8] {
            recorder.call(Call::Read { base: 0, size: u64::MAX, address, width }, form.length, 16, 0);
        }
    }
}

/// Each rule of the form broken in turn, for a call of each kind.
fn broken_rules(recorder: &mut Recorder, chance: &mut Chance, form: Form) {
    let image = generate::with_events(chance, form);
    recorder.load(&image);
    let (base, size) = (0, 0x400);
    for (place, byte) in generate::breaches(&image, form) {
        recorder.set_byte(place, byte);
        recorder.call(Call::Read { base, size, address: 0x3a0, width: 8 }, form.length, 16, 0);
        recorder.call(Call::Write { base, size, address: 0x020, width: 4, value: 0 }, form.length, 16, 0);
        recorder.call(Call::Level { input: 7, level: 0 }, form.length, 16, 0);
        recorder.call(Call::Poll { input: 64 }, form.length, 16, 0);
        recorder.call(Call::Drain { place: 0 }, form.length, 16, EVENT_BUFFER);
        recorder.set_byte(place, image[place]);
    }
}

/// A short random history, from reset or a random accepted image, with damage now and then.
fn history(recorder: &mut Recorder, chance: &mut Chance, form: Form) {
    let mood = generate::mood(chance);
    if chance.percent(60) {
        recorder.call(Call::Reset, form.length, 16, 0);
    } else {
        recorder.load(&generate::accepted(chance, form));
    }
    for _ in 0..chance.between(20, 90) {
        let mut call = generate::call(chance, &mood);
        let mut events = 0;
        if let Call::Drain { place } = &mut call {
            events = chance.below(EVENT_BUFFER as u64 + 1) as usize;
            *place = generate::place(chance, events);
        }
        let answer = if chance.percent(97) { chance.between(16, 32) } else { chance.below(16) } as usize;
        let image = if chance.percent(98) { form.length } else { chance.below(IMAGE_BUFFER as u64 + 1) as usize };
        if chance.percent(4) {
            // one byte is damaged for one call, and then it is as it was, unless the image was accepted and the call changed it
            let at = chance.below(form.length as u64) as usize;
            let byte = recorder.image[at];
            recorder.set_byte(at, byte ^ (1 << chance.below(8)));
            let damaged = recorder.image;
            recorder.call(call, image, answer, events);
            if recorder.image == damaged {
                recorder.set_byte(at, byte);
            }
        } else {
            recorder.call(call, image, answer, events);
        }
    }
    if chance.percent(40) {
        recorder.with_image(WHOLE);
    }
}
