//! One play made on both sides, and everything compared: the number handed back, and every byte of trace, image, answers, events, answer area and of the
//! edges around them. A good trace is also held, record by record, against the library's own calls made one by one.

use crate::bench::{Bench, FILL};
use crate::boundary::Boundary;
use crate::call::{Call, From};
use crate::caught::caught;
use crate::days::{Day, Play};
use crate::image::FORMS;
use crate::lent::{Areas, Five};
use crate::played::{self, Lent};
use crate::trace::{self, DRAIN, LOWER, POLL, RAISE, ROOM, WRITE};
use crate::under_test;

/// What the library's own calls leave, made one by one: each record's answer, the drained events, and after each record how many bytes of them there are and the image.
struct OneByOne {
    answers: Vec<u8>,
    events: Vec<u8>,
    after: Vec<(usize, Vec<u8>)>,
}

fn one_by_one(day: &Day) -> OneByOne {
    let mut areas = Areas::new();
    (areas.image.len, areas.answer.len, areas.events.len) = (day.image.len(), 16, ROOM);
    areas.image.slice().copy_from_slice(&day.image);
    if day.from == From::Reset {
        assert_eq!(under_test::call(&Call::Reset, &mut areas), 0, "bytes of a form's length can be reset");
    }
    let mut left = OneByOne { answers: Vec::new(), events: Vec::new(), after: Vec::new() };
    for record in &day.records {
        areas.answer.fill(FILL);
        let number = under_test::call(&trace::call(record, 0), &mut areas);
        left.answers.extend_from_slice(areas.answer.bytes());
        if record[0] == DRAIN && number == 0 {
            left.events.extend_from_slice(&areas.events.bytes()[..4 * usize::from(areas.answer.bytes()[8])]);
        }
        left.after.push((left.events.len(), areas.image.bytes().to_vec()));
    }
    left
}

pub struct Stage {
    expected: Boundary,
    /// What the last play left on the expected side, and on the library's.
    want: Option<Five>,
    got: Option<Five>,
}

impl Stage {
    pub fn new() -> Self {
        Stage { expected: Boundary::new(), want: None, got: None }
    }

    /// Plays on both sides, unless the run is over. Gives the number that 02 expects where all is equal; else the failure was printed.
    pub fn play(&mut self, bench: &mut Bench, play: &Play) -> Option<u8> {
        if bench.over() {
            return None;
        }
        let (mut got, mut want) = (play.lent(), play.lent());
        let number = caught(|| under_test::play(play.from, &mut got));
        let Five { trace, image, answers, events, answer } = &mut want;
        let expected = &mut self.expected;
        let lent = Lent { trace: trace.bytes(), image: image.slice(), answers: answers.slice(), events: events.slice() };
        let wanted = caught(|| played::play(expected, play.from, lent, answer.slice()));
        let same = number.is_ok() && number == wanted && got == want;
        let what = match (number, &wanted) {
            (_, Err(words)) => {
                self.expected = Boundary::new();
                vec![format!("the expected side panicked: {words}")]
            }
            (Err(words), _) => vec![format!("the library panicked: {words}")],
            (Ok(number), Ok(wanted)) => {
                let other = (number != *wanted).then(|| format!("number {number}, expected {wanted}"));
                other.into_iter().chain(got.differences(&want)).collect()
            }
        };
        (self.got, self.want) = (Some(got), Some(want));
        if same {
            bench.passed += 1;
            let number = wanted.unwrap_or_default();
            self.meet(bench, play, number);
            return Some(number);
        }
        tell_failed(bench, play, what.join("; "));
        None
    }

    /// Plays the first records of a day, for each of these lengths, on both sides, and holds what is left against the library's own calls made one by one.
    pub fn day(&mut self, bench: &mut Bench, day: &Day, lengths: &[usize], more: usize, fill: u64) {
        if bench.over() {
            return;
        }
        let whole = day.play(day.records.len(), more, fill);
        let left = match caught(|| one_by_one(day)) {
            Ok(left) => left,
            Err(words) => return tell_failed(bench, &whole, format!("made one by one, the library's calls panicked: {words}")),
        };
        for &records in lengths {
            let play = day.play(records, more, fill);
            let (Some(number), Some(got)) = (self.play(bench, &play), &self.got) else { return };
            let (used, image) = &left.after[records - 1];
            let same = number == 0
                && got.image.bytes() == image
                && got.answers.bytes()[..16 * records] == left.answers[..16 * records]
                && got.events.bytes()[..*used] == left.events[..*used];
            if !same {
                bench.passed -= 1;
                return tell_failed(bench, &play, format!("number {number}; made one by one, the library's own calls leave other bytes"));
            }
            bench.met.traces.one_by_one += records as u64;
        }
    }

    /// Plays a day as several traces of so many records, the first as the day says and each other on from the image that the one before left, and holds all of it against the library's own
    /// calls made one by one.
    pub fn in_turn(&mut self, bench: &mut Bench, day: &Day, parts: &[usize], fill: u64) {
        if bench.over() {
            return;
        }
        let left = match caught(|| one_by_one(day)) {
            Ok(left) => left,
            Err(words) => {
                return tell_failed(
                    bench,
                    &day.play(day.records.len(), 0, fill),
                    format!("made one by one, the library's calls panicked: {words}"),
                );
            }
        };
        let (mut part, mut done, mut used) = (Day { blocks: Vec::new(), ..day.clone() }, 0, 0);
        for &records in parts {
            (part.records, part.blocks) = (day.records[done..done + records].to_vec(), vec![records]);
            let play = part.play(records, 0, fill);
            let (Some(number), Some(got)) = (self.play(bench, &play), &self.got) else { return };
            let (answers, (events, image)) = (&left.answers[16 * done..16 * (done + records)], &left.after[done + records - 1]);
            let same = number == 0
                && got.image.bytes() == image
                && got.answers.bytes() == answers
                && got.events.bytes()[..events - used] == left.events[used..*events];
            if !same {
                bench.passed -= 1;
                return tell_failed(
                    bench,
                    &play,
                    format!("number {number}; a day of traces: made one by one, the library's own calls leave other bytes"),
                );
            }
            (part.from, part.image, done, used) = (From::Image, image.clone(), done + records, *events);
            bench.met.traces.in_turn += records as u64;
        }
    }

    /// The bytes after the last play, on both sides where they differ.
    pub fn show(&self) {
        let (Some(got), Some(want)) = (&self.got, &self.want) else { return };
        // of long ones the first bytes
        let hex = |bytes: &[u8]| {
            let first: String = bytes.iter().take(1024).map(|byte| format!("{byte:02x}")).collect();
            if bytes.len() > 1024 { first + " .." } else { first }
        };
        let tell = |whose: &str, five: &Five| {
            println!("{whose} image {}", hex(five.image.bytes()));
            println!("{whose} answers {}", hex(five.answers.bytes()));
            println!("{whose} events {}", hex(five.events.bytes()));
            println!("{whose} answer area {}", hex(five.answer.bytes()));
        };
        if got != want {
            tell("the library's", got);
        }
        tell("expected", want);
    }

    fn meet(&self, bench: &mut Bench, play: &Play, number: u8) {
        let Some(want) = &self.want else { return };
        let met = &mut bench.met.traces;
        met.plays[usize::from(play.from == From::Image)][usize::from(number)] += 1;
        if number != 0 {
            return;
        }
        for (met, form) in met.forms.iter_mut().zip(FORMS) {
            *met += u64::from(want.image.bytes().len() == form.length);
        }
        let records = trace::test(want.trace.bytes()).expect("what was played is good");
        met.records += records.len() as u64;
        met.longest = met.longest.max(records.len() as u64);
        let mut made = 0;
        for (record, answer) in records.iter().zip(want.answers.bytes().chunks(16)) {
            let value = u64::from_le_bytes(answer[8..].try_into().expect("a value has 8 bytes"));
            match record[0] {
                _ if answer[0] != 0 => met.refused += 1,
                RAISE | LOWER | POLL => (met.returned, made) = (met.returned + u64::from(answer[1]), made + u64::from(answer[1])),
                WRITE => (met.dropped, made) = (met.dropped + value, made + value),
                DRAIN => (met.drained, made) = (met.drained + value, made + value),
                _ => {}
            }
        }
        met.round += u64::from(made > 65_536);
    }
}

/// A failure, with the words that make the play again. A trace is too long for them, so it goes to a file beside the program.
fn tell_failed(bench: &mut Bench, play: &Play, what: String) {
    bench.failed += 1;
    println!("FAILED: a play: {what}");
    let beside = std::env::current_exe().unwrap_or_default();
    let file = beside.with_file_name(format!("failed-{}.trace", bench.failed));
    if let Err(error) = std::fs::write(&file, &play.trace) {
        println!("  {}: {error}", file.display());
    }
    println!("  seed {}, after {} calls; the call alone:", bench.seed, bench.passed + bench.failed);
    println!("  tools/differential --one {}", crate::text::play_line(play, &file.display().to_string()));
}
