//! A record and the device after it, as a piece of a page: what was asked and given, the registers, the inputs, the ring and the board's outputs.

use crate::files::Opened;
use crate::text::{counted, escaped, milliseconds};
use crate::words;
use pch_pic::history::{Moment, Walk};
use pch_pic::{EVENTS, Event, INPUTS, PchPic, Record, Width, Window, reg};
use std::fmt::Write;

/// What a 1 means in each, for inputs.
const REGISTERS: [(u64, &str, &str); 8] = [
    (reg::MASK, "MASK", "masked"),
    (reg::IRR, "IRR", "latched"),
    (reg::ISR, "ISR", "in service"),
    (reg::EDGE, "EDGE", "edges"),
    (reg::POL, "POL", ""),
    (reg::HTMSI_EN, "HTMSI_EN", ""),
    (reg::AUTO0, "AUTO0", ""),
    (reg::AUTO1, "AUTO1", ""),
];

/// A register as it is stored: ISR too, which the guest reads without the masked inputs.
fn register(pic: &PchPic, at: u64) -> u64 {
    let read = |at| pic.read(Window::at(0), at, Width::Qword).unwrap_or(0);
    if at == reg::ISR { pic.in_service() } else { read(at) }
}

fn byte(pic: &PchPic, base: u64, input: usize) -> u64 {
    pic.read(Window::at(0), base + input as u64, Width::Byte).unwrap_or(0)
}

/// The events that wait, oldest first.
fn ring(pic: &PchPic) -> Vec<Event> {
    let mut events = [Event::default(); EVENTS];
    let count = pic.clone().drain(&mut events);
    events[..count].to_vec()
}

/// Inputs that have a bit on, or those that have not, where these are fewer.
fn inputs(bits: u64) -> String {
    let of = |bits: u64| (0..INPUTS).filter(|input| bits >> input & 1 == 1).map(|input| input.to_string()).collect::<Vec<_>>().join(" ");
    match bits {
        0 => "none".into(),
        u64::MAX => "all".into(),
        _ if bits.count_ones() > 40 => format!("all but {}", of(!bits)),
        _ => of(bits),
    }
}

fn changed(is: bool) -> &'static str {
    if is { " class=\"changed\"" } else { "" }
}

fn registers(before: &PchPic, after: &PchPic) -> String {
    let mut rows = String::new();
    for (at, name, means) in REGISTERS {
        let (old, new) = (register(before, at), register(after, at));
        let means = if means.is_empty() { String::new() } else { format!(" <small>{means}</small>") };
        let class = changed(old != new);
        let _ = writeln!(
            rows,
            "<tr{class}><th scope=\"row\">{name}{means}</th><td class=\"hex\">{:08x} {:08x}</td><td>{}</td></tr>",
            new >> 32,
            new & 0xffff_ffff,
            inputs(new)
        );
    }
    format!(
        "<section><h3>Registers</h3>\n<table class=\"registers\"><thead><tr><th>register</th><th>hex, inputs 63 to 0</th><th>inputs with a 1</th></tr></thead><tbody>\n{rows}</tbody></table></section>\n"
    )
}

/// What is told of an input: an empty word for what it has not.
fn told(pic: &PchPic, input: usize) -> [String; 6] {
    let bit = |bits: u64, yes: &str| if bits >> input & 1 == 1 { yes.to_string() } else { String::new() };
    [
        bit(register(pic, reg::MASK), "masked"),
        bit(register(pic, reg::IRR), "latched"),
        bit(register(pic, reg::ISR), "in service"),
        bit(pic.waiting_inputs(), "waits"),
        byte(pic, reg::ROUTES, input).to_string(),
        format!("{:#04x}", byte(pic, reg::VECTORS, input)),
    ]
}

/// The inputs that are unmasked, latched or in service, and those that the record changed.
fn lines(opened: &Opened, before: &PchPic, after: &PchPic) -> String {
    let busy = !register(after, reg::MASK) | register(after, reg::IRR) | register(after, reg::ISR);
    let mut rows = String::new();
    for input in 0..INPUTS {
        let (old, new) = (told(before, input), told(after, input));
        if busy >> input & 1 == 0 && old == new {
            continue;
        }
        let cells: String = old.iter().zip(&new).map(|(old, new)| format!("<td{}>{new}</td>", changed(old != new))).collect();
        let name = opened.names().get(&input).map_or(String::new(), |name| escaped(name));
        let _ = writeln!(rows, "<tr><th scope=\"row\">{input}</th><td class=\"named\">{name}</td>{cells}</tr>");
    }
    let head = "<th>input</th><th></th><th>MASK</th><th>IRR</th><th>ISR</th><th></th><th>route</th><th>vector</th>";
    let table = if rows.is_empty() {
        "<p>Every input is masked, and neither latched nor in service.</p>\n".to_string()
    } else {
        format!("<table class=\"lines\"><thead><tr>{head}</tr></thead><tbody>\n{rows}</tbody></table>\n")
    };
    format!("<section><h3>Inputs that are unmasked, latched or in service</h3>\n{table}</section>\n")
}

/// The bytes that each input has, eight in a row.
fn bytes(name: &str, base: u64, before: &PchPic, after: &PchPic) -> String {
    let cell = |input: usize| {
        let (old, new) = (byte(before, base, input), byte(after, base, input));
        format!("<td{}>{new:02x}</td>", changed(old != new))
    };
    let row = |first: usize| format!("<tr><th scope=\"row\">{first}</th>{}</tr>\n", (first..first + 8).map(cell).collect::<String>());
    let rows: String = (0..INPUTS).step_by(8).map(row).collect();
    format!("<section><h3>{name}, hex, by input</h3>\n<table class=\"bytes\"><tbody>\n{rows}</tbody></table></section>\n")
}

fn event(event: &Event) -> String {
    format!("{} of vector {:#04x}, number {}", if event.asserted { "assert" } else { "deassert" }, event.vector, event.number)
}

fn queue(before: &PchPic, after: &PchPic) -> String {
    let (old, new) = (ring(before), ring(after));
    let item = |one: &Event| format!("<li{}>{}</li>\n", changed(!old.contains(one)), event(one));
    let items: String = new.iter().map(item).collect();
    let list = if new.is_empty() { "<p>No event waits.</p>\n".to_string() } else { format!("<ol>\n{items}</ol>\n") };
    let drops = format!("<p{}>{} dropped so far.</p>\n", changed(before.drops() != after.drops()), counted(after.drops() as usize));
    format!("<section><h3>The ring, {} of {EVENTS}</h3>\n{list}{drops}</section>\n", new.len())
}

fn outputs(before: &PchPic, after: &PchPic) -> String {
    let (old, new) = (before.board(), after.board());
    let item = |vector: u8| {
        let (was, count) = (old.count(vector), new.count(vector));
        let what = match count {
            0 => "off".to_string(),
            1 => "on".to_string(),
            more => format!("on, for {more} inputs"),
        };
        format!("<li{}>vector {vector:#04x} is {what}</li>\n", changed(was != count))
    };
    let items: String = (0..=u8::MAX).filter(|vector| old.is_on(*vector) || new.is_on(*vector)).map(item).collect();
    let list = if items.is_empty() { "<p>No vector is on.</p>\n".to_string() } else { format!("<ul>\n{items}</ul>\n") };
    format!("<section><h3>The board's outputs</h3>\n{list}</section>\n")
}

/// What a drain took out of the ring.
fn drained(moment: &Moment, before: &PchPic) -> String {
    let events = if moment.record == Record::Drain { ring(before) } else { Vec::new() };
    events.iter().map(|one| format!("<li>{}</li>\n", event(one))).collect()
}

fn heading(opened: &Opened, moment: &Moment, before: &PchPic) -> String {
    let (asked, gave) = words::parts(moment);
    let drained = drained(moment, before);
    let gave = if gave.is_empty() { "nothing".to_string() } else { escaped(gave.strip_prefix("gave ").unwrap_or(&gave)) };
    let took = if drained.is_empty() { String::new() } else { format!("<ul>\n{drained}</ul>\n") };
    let time = opened.time(moment.number).map_or(String::new(), |time| format!("<dt>at</dt><dd>{}</dd>\n", milliseconds(time)));
    let wrong = if opened.is_wrong(moment.number) { "<p class=\"warning\">Behind a hole: not the day's.</p>\n" } else { "" };
    format!(
        "{wrong}<dl class=\"record\">\n<dt>in</dt><dd>{}</dd>\n{time}<dt>asked</dt><dd>{}</dd>\n<dt>gave</dt><dd>{gave}{took}</dd>\n</dl>\n",
        escaped(&opened.place(moment.number)),
        escaped(&asked)
    )
}

/// The record of this number, counted over the whole day; none where the day has no such record.
pub fn step(opened: &Opened, number: usize) -> Option<String> {
    let (before, one) = opened.before(number)?;
    let mut walk = Walk::at(number, before.clone());
    let history = walk.through(&one);
    let (moment, after) = (history.moments().first()?, walk.pic());
    let states = [
        registers(&before, after),
        queue(&before, after),
        outputs(&before, after),
        lines(opened, &before, after),
        bytes("Vectors", reg::VECTORS, &before, after),
        bytes("Routes", reg::ROUTES, &before, after),
    ];
    Some(heading(opened, moment, &before) + &states.concat())
}
