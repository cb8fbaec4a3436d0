//! Replays files of recorded answers and of recorded cases through the library under test. `tools/replay-answers` builds and runs this. It needs no
//! Rust source of the device.

// the modules are shared with the other programs, and not all of each is used here
#![allow(dead_code)]

mod call;
mod case;
mod case_records;
mod fronts;
mod lent;
mod quiet;
mod records;
mod under_test;

use case_records::Reader;
use lent::Areas;
use records::{
    ANSWER_AREA, ANSWER_FILL, Answered, BYTE, EVENT_BUFFER, EVENT_FILL, IMAGE, IMAGE_BUFFER, IMAGE_RECORDS, MAGIC, RECORD, WHOLE,
};
use std::process::ExitCode;

fn main() -> ExitCode {
    quiet::on_closed_pipes();
    let (mut passed, mut failed) = (0, 0);
    for path in std::env::args().skip(1) {
        match std::fs::read(&path).map_err(|error| error.to_string()).and_then(|file| replay(&file)) {
            Ok((held, not)) => {
                println!("{path}: {held} passed, {not} failed");
                (passed, failed) = (passed + held, failed + not);
            }
            Err(message) => {
                eprintln!("replay-answers: {path}: {message}");
                return ExitCode::from(2);
            }
        }
    }
    println!("{passed} passed, {failed} failed");
    if failed == 0 { ExitCode::SUCCESS } else { ExitCode::FAILURE }
}

/// How many comparisons held and how many did not, or what is wrong with the file.
fn replay(file: &[u8]) -> Result<(u64, u64), String> {
    if file.starts_with(case_records::MAGIC) && file.len() >= case_records::HEADER {
        return replay_cases(file);
    }
    if file.len() < RECORD || file.len() % RECORD != 0 || &file[..8] != MAGIC {
        return Err("this is no file of recorded answers".into());
    }
    let word = |at: usize| u32::from_le_bytes(file[at..at + 4].try_into().unwrap()) as usize;
    let records: Vec<&[u8]> = file[RECORD..].chunks(RECORD).collect();
    if word(8) != records.len() {
        return Err(format!("the header tells of {} records, and there are {}", word(8), records.len()));
    }
    let (mut passed, mut failed, mut calls, mut at) = (0, 0, 0, 0);
    let mut areas = Areas::new();
    areas.image.len = IMAGE_BUFFER;
    while at < records.len() {
        let record = records[at];
        let number = |from: usize| u64::from_le_bytes(record[from..from + 8].try_into().unwrap()) as usize;
        let mut check = |holds: bool, what: &str| {
            if holds {
                passed += 1;
            } else {
                failed += 1;
                println!("FAILED: record {at}: {what}");
            }
        };
        match record[0] {
            IMAGE | WHOLE => {
                let bytes = records.get(at + 1..=at + IMAGE_RECORDS).ok_or("an image is cut off")?.concat();
                if record[0] == WHOLE {
                    check(areas.image.bytes() == &bytes[..IMAGE_BUFFER], "the image is another");
                }
                areas.image.slice().copy_from_slice(&bytes[..IMAGE_BUFFER]);
                at += IMAGE_RECORDS;
            }
            BYTE => areas.image.slice()[number(16)] = number(24) as u8,
            _ => {
                let answered = Answered::read(record).ok_or(format!("record {at} is of no known kind"))?;
                calls += 1;
                let holds = make(&answered, &mut areas);
                check(holds.is_ok(), holds.err().unwrap_or(""));
            }
        }
        at += 1;
    }
    if word(12) != calls {
        return Err(format!("the header tells of {} calls, and there are {calls}", word(12)));
    }
    Ok((passed, failed))
}

/// Makes a call and holds all that it left against the record.
fn make(answered: &Answered, areas: &mut Areas) -> Result<(), &'static str> {
    areas.answer.len = ANSWER_AREA;
    areas.answer.slice().fill(ANSWER_FILL);
    areas.events.len = EVENT_BUFFER;
    areas.events.slice().fill(EVENT_FILL);
    areas.image.len = answered.image;
    areas.answer.len = answered.answer;
    areas.events.len = answered.events;
    let number = under_test::call(&answered.call, areas);
    areas.image.len = IMAGE_BUFFER;
    areas.answer.len = ANSWER_AREA;
    areas.events.len = EVENT_BUFFER;

    let mut wanted = [ANSWER_FILL; ANSWER_AREA];
    if answered.number != 7 {
        wanted[..8].copy_from_slice(&[answered.number, answered.value.is_some() as u8, 0, 0, 0, 0, 0, 0]);
        wanted[8..16].copy_from_slice(&answered.value.unwrap_or(0).to_le_bytes());
    }
    let drain = matches!(answered.call, call::Call::Drain { .. });
    if number != answered.number {
        Err("another number is handed back")
    } else if areas.answer.bytes() != wanted {
        Err("the answer area is another")
    } else if records::checksum(areas.image.bytes()) != answered.image_sum {
        Err("the image's checksum is another")
    } else if drain && records::checksum(areas.events.bytes()) != answered.event_sum {
        Err("the event buffer's checksum is another")
    } else {
        Ok(())
    }
}

/// The same of recorded cases.
fn replay_cases(file: &[u8]) -> Result<(u64, u64), String> {
    let (mut passed, mut failed) = (0, 0);
    let (mut reader, told) = Reader::new(file);
    while !reader.is_over() {
        let number = passed + failed;
        let made = reader.case().ok_or(format!("case {number} is cut off, or is none"))?;
        let mut lent = made.case.lent();
        let handed_back = fronts::make(&made.case.front, &mut lent);
        match case_records::holds(&made, handed_back, &lent) {
            Ok(()) => passed += 1,
            Err(what) => {
                failed += 1;
                println!("FAILED: case {number}, {:?}: {what}", made.case.front);
            }
        }
    }
    if told != passed + failed {
        return Err(format!("the header tells of {told} cases, and there are {}", passed + failed));
    }
    Ok((passed, failed))
}
