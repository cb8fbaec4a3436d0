//! A record in words: what was asked, what it gave, and the events that it made.

use crate::text::milliseconds;
use pch_pic::history::{Fate, Made, Moment};
use pch_pic::{Record, reg};

const REGISTERS: [(u64, &str); 11] = [
    (reg::ID, "ID"),
    (reg::MASK, "MASK"),
    (reg::HTMSI_EN, "HTMSI_EN"),
    (reg::EDGE, "EDGE"),
    (reg::CLEAR, "CLEAR"),
    (reg::AUTO0, "AUTO0"),
    (reg::AUTO1, "AUTO1"),
    (reg::IRR, "IRR"),
    (reg::ISR, "ISR"),
    (reg::POL, "POL"),
    (reg::ROUTES, "routes"),
];

/// What stands at an offset.
fn place(offset: u16) -> String {
    let at = u64::from(offset);
    let name = match at {
        reg::ROUTES..0x140 => format!(" (route of {})", at - reg::ROUTES),
        reg::VECTORS..0x240 => format!(" (vector of {})", at - reg::VECTORS),
        _ => match REGISTERS.iter().find(|(first, _)| (*first..first + 8).contains(&at)) {
            Some((first, name)) => format!(" ({name}{})", if at < first + reg::HIGH { "" } else { ", high half" }),
            None => String::new(),
        },
    };
    format!("{offset:#05x}{name}")
}

fn width(bytes: u8) -> String {
    match bytes {
        1 => "Byte".into(),
        2 => "Word".into(),
        4 => "Dword".into(),
        8 => "Qword".into(),
        _ => format!("{bytes} bytes"),
    }
}

fn asked(record: Record) -> String {
    match record {
        Record::Raise(input) => format!("raise {input}"),
        Record::Lower(input) => format!("lower {input}"),
        Record::Poll(input) => format!("poll {input}"),
        Record::Read { offset, width: bytes } => format!("read {} {}", width(bytes), place(offset)),
        Record::Write { offset, width: bytes, value } => format!("write {} {}: {value:#x}", width(bytes), place(offset)),
        Record::Drain => "drain".into(),
    }
}

/// What it gave beside events.
fn gave(moment: &Moment) -> Option<String> {
    match (moment.record, moment.outcome) {
        (_, Err(why)) => Some(format!("refused with {}", why.number())),
        (Record::Read { .. }, Ok(value)) => Some(format!("gave {:#x}", value.unwrap_or(0))),
        (Record::Drain, Ok(count)) => Some(format!("gave {} events", count.unwrap_or(0))),
        _ => None,
    }
}

fn fate(made: &Made) -> &'static str {
    match made.fate {
        Fate::Returned => "returned",
        Fate::Kept => "kept",
        Fate::Dropped => "DROPPED",
    }
}

/// Events of one kind that come one after another and fare alike; a single one is told with its vector.
fn made(events: &[Made]) -> String {
    let first = &events[0];
    let what = if first.event.asserted { "assert" } else { "deassert" };
    if events.len() == 1 {
        return format!("{what} of {} (vector {:#04x}) {}", first.input, first.event.vector, fate(first));
    }
    let inputs: Vec<String> = events.iter().map(|made| made.input.to_string()).collect();
    format!("{what} of {} {}", inputs.join(" "), fate(first))
}

/// What was asked; and what it gave, and what it made.
pub fn parts(moment: &Moment) -> (String, String) {
    let alike = |one: &Made, next: &Made| one.event.asserted == next.event.asserted && one.fate == next.fate;
    let parts: Vec<String> = gave(moment).into_iter().chain(moment.made.chunk_by(alike).map(made)).collect();
    (asked(moment.record), parts.join(", "))
}

/// One line: the number, when it was, where that is known, what was asked, what it gave, and what it made.
pub fn line(moment: &Moment, time: Option<u64>) -> String {
    let (asked, gave) = parts(moment);
    let time = time.map_or(String::new(), |time| format!("{:>14}  ", milliseconds(time)));
    format!("{:>4}  {time}{asked:44}  {gave}", moment.number).trim_end().to_string()
}
