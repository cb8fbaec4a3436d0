//! A guest's day with a PCH-PIC, told in plain words: start-up as Linux's driver does it, a load sample's line up and down, the device saved
//! to a file and loaded into a fresh host, what comes after sixteen events, a guest that is unkind, a button that is an edge, a recorder that puts
//! events in order, and its own board.
//!
//! `load_sample FILE` plays it, and the device goes to FILE, with the numbers of its events; `load_sample --show FILE` tells what a saved device holds;
//! `load_sample --form F FROM TO` saves what FROM holds to TO, in form 1, 2 or numbered: a host of before version 0.8.0 does not load numbered, and one of
//! before 0.6.0 loads form 1 alone. It prints the same as `hosts/c/load_sample.c`.

#[macro_use]
mod common;

use pch_pic::{file, reg, Board, Change, Error, Event, Form, PchPic, Width, Window, Wires};
use std::ffi::OsString;
use std::path::Path;
use std::process::ExitCode;

const WINDOW: Window = Window::at(0x1000_0000);
const SAMPLE: u64 = 21;
const SAMPLE_BIT: u64 = 1 << SAMPLE;
const BUTTON: u64 = 7;
const BUTTON_BIT: u64 = 1 << BUTTON;
const FIRST_VECTOR: u64 = 0x40;
const OTHER_VECTOR: u64 = 0x77;

type Failure = Box<dyn std::error::Error>;

/// The host's side: the device and its wires.
struct Host {
    pic: PchPic,
    wires: Wires,
}

/// A real host asserts or deasserts the vector at its CPUs here.
fn route(change: Change) {
    say!("  {change}");
}

impl Host {
    fn new(pic: PchPic) -> Self {
        Host { pic, wires: Wires::new() }
    }

    fn line(&mut self, input: u64, high: bool) -> Result<(), Error> {
        self.wires.line(&mut self.pic, input, high, route)
    }

    fn guest_reads(&self, offset: u64, width: Width) -> Result<u64, Error> {
        self.pic.read(WINDOW, WINDOW.base + offset, width)
    }

    /// After each write of its guest the host settles. A drop is no harm then, but worth a word.
    fn guest_writes(&mut self, offset: u64, width: Width, value: u64) -> Result<(), Error> {
        let dropped = self.pic.write(WINDOW, WINDOW.base + offset, width, value)?;
        self.wires.settle(&mut self.pic, route);
        if dropped != 0 {
            say!("Dropped: {dropped}. What no event told is read from the board.");
        }
        Ok(())
    }
}

/// The order of Linux's driver: vectors and routes byte by byte, then everything masked and cleared, half by half.
fn start_up(host: &mut Host) -> Result<(), Error> {
    let inputs = (host.guest_reads(reg::ID, Width::Qword)? >> 48 & 0xff) + 1;
    say!("The guest starts up and finds {inputs} inputs.");
    for input in 0..inputs {
        host.guest_writes(reg::VECTORS + input, Width::Byte, FIRST_VECTOR + input)?;
        host.guest_writes(reg::ROUTES + input, Width::Byte, 1)?;
    }
    for half in [0, reg::HIGH] {
        host.guest_writes(reg::MASK + half, Width::Dword, 0xffff_ffff)?;
        host.guest_writes(reg::CLEAR + half, Width::Dword, 0xffff_ffff)?;
        host.guest_writes(reg::AUTO0 + half, Width::Dword, 0)?;
        host.guest_writes(reg::AUTO1 + half, Width::Dword, 0)?;
        host.guest_writes(reg::HTMSI_EN + half, Width::Dword, 0xffff_ffff)?;
    }
    say!("Input n has vector {FIRST_VECTOR:#04x} + n; all inputs are masked.");
    Ok(())
}

fn mask_without_sample(host: &Host) -> Result<u64, Error> {
    Ok(host.guest_reads(reg::MASK, Width::Dword)? & !SAMPLE_BIT)
}

/// The driver sets the trigger to level, and clears an input before it unmasks it.
fn one_sample(host: &mut Host) -> Result<(), Error> {
    say!("The guest unmasks input {SAMPLE}.");
    host.guest_writes(reg::EDGE, Width::Dword, 0)?;
    host.guest_writes(reg::CLEAR, Width::Dword, SAMPLE_BIT)?;
    host.guest_writes(reg::MASK, Width::Dword, mask_without_sample(host)?)?;
    say!("A load sample is ready: line {SAMPLE} goes up.");
    host.line(SAMPLE, true)?;
    let service = host.guest_reads(reg::ISR, Width::Dword)?;
    say!("The guest reads ISR {service:#010x} and takes the sample; the line goes down.");
    host.line(SAMPLE, false)
}

fn loaded(path: &Path) -> Result<PchPic, Failure> {
    file::load(path).map_err(|why| format!("cannot load {}: {why}", path.display()).into())
}

fn save(pic: &PchPic, form: Form, path: &Path) -> Result<(), Failure> {
    file::save(pic, form, path).map_err(|why| format!("cannot save {}: {why}", path.display()).into())
}

/// A sample comes while its input is masked. The unmask announces it, and that event waits in the image while it is saved.
fn save_and_load(host: &mut Host, path: &Path) -> Result<(), Failure> {
    say!("The guest masks input {SAMPLE}, and the next sample comes: the line goes up.");
    host.guest_writes(reg::MASK, Width::Dword, 0xffff_ffff)?;
    host.line(SAMPLE, true)?;
    say!("The guest clears and unmasks it. The event waits, and the device is saved.");
    host.guest_writes(reg::CLEAR, Width::Dword, SAMPLE_BIT)?;
    let mask = mask_without_sample(host)?;
    host.pic.write(WINDOW, WINDOW.base + reg::MASK, Width::Dword, mask)?;
    save(&host.pic, Form::Numbered, path)?;
    say!("A fresh host loads it; line {SAMPLE} is still high there.");
    *host = Host::new(loaded(path)?);
    host.wires.resume(&mut host.pic, SAMPLE_BIT, route);
    say!("The line goes down.");
    Ok(host.line(SAMPLE, false)?)
}

fn after_sixteen(host: &mut Host) -> Result<(), Error> {
    say!("The guest masks everything, and seventeen lines go up.");
    host.guest_writes(reg::MASK, Width::Dword, 0xffff_ffff)?;
    for input in 0..=16 {
        host.line(input, true)?;
    }
    say!("The guest unmasks them with one write: the device announces the lowest, one sweep wakes the others.");
    host.guest_writes(reg::MASK, Width::Dword, 0xfffe_0000)?;
    say!("The guest masks them with one write: seventeen events, and sixteen can wait.");
    host.guest_writes(reg::MASK, Width::Dword, 0xffff_ffff)?;
    for input in 0..=16 {
        host.line(input, false)?;
    }
    Ok(())
}

/// Here events do not tell the whole story: a deassert comes for a vector that was never asserted, or none comes at all.
fn unkind(host: &mut Host) -> Result<(), Error> {
    say!("The guest unmasks everything, and line 0 goes up.");
    host.guest_writes(reg::MASK, Width::Qword, 0)?;
    host.line(0, true)?;
    say!("The guest gives input 0 another vector while it is in service.");
    host.guest_writes(reg::VECTORS, Width::Byte, OTHER_VECTOR)?;
    say!("The guest takes input 0 out of service by a write to ISR; its line is still high.");
    host.guest_writes(reg::ISR, Width::Qword, 0)?;
    say!("Input 1 gets the same vector, its line goes up, and line 0 goes down.");
    host.guest_writes(reg::VECTORS + 1, Width::Byte, OTHER_VECTOR)?;
    host.line(1, true)?;
    host.line(0, false)?;
    say!("Line 1 goes down.");
    host.line(1, false)
}

/// The button is an edge: pressed and let go before the guest looks, it has come all the same, and held down it comes once.
fn button(host: &mut Host) -> Result<(), Error> {
    println!("The guest makes input {BUTTON} an edge, for a button, and unmasks it alone.");
    host.guest_writes(reg::MASK, Width::Qword, !BUTTON_BIT)?;
    host.guest_writes(reg::EDGE, Width::Dword, BUTTON_BIT)?;
    println!("The button is pressed and let go: the line goes up and down.");
    host.line(BUTTON, true)?;
    host.line(BUTTON, false)?;
    println!("The guest clears the edge and takes the press.");
    host.guest_writes(reg::CLEAR, Width::Dword, BUTTON_BIT)?;
    println!("The button is held down: the line goes up and stays.");
    host.line(BUTTON, true)?;
    println!("The guest clears the edge; the line is still up, and no second edge.");
    host.guest_writes(reg::CLEAR, Width::Dword, BUTTON_BIT)?;
    host.line(BUTTON, false)?;
    host.guest_writes(reg::EDGE, Width::Dword, 0)
}

fn print_events(events: &[Event]) {
    for event in events {
        say!("  number {}: {event}", event.number);
    }
}

/// A recorder keeps every event. One that is returned comes to it at once, one that waits only when the host drains; the numbers say in which order
/// the device made them. This host drains late, and so the order is another.
fn recorded(host: &mut Host) -> Result<(), Error> {
    say!("The guest masks everything, and line 3 goes up. It unmasks inputs 3 and 5, line 3 goes down, line 5 up, and it clears input 5.");
    host.guest_writes(reg::MASK, Width::Dword, 0xffff_ffff)?;
    host.line(3, true)?;
    let mut events = Vec::new();
    host.pic.write(WINDOW, WINDOW.base + reg::MASK, Width::Dword, !0x28)?;
    events.extend(host.pic.set_level(3, false)?);
    events.extend(host.pic.set_level(5, true)?);
    host.pic.write(WINDOW, WINDOW.base + reg::CLEAR, Width::Dword, 0x28)?;
    events.extend(host.pic.drain_events());
    say!("The recorder gets what is returned at once, and the rest from a drain at the end:");
    print_events(&events);
    say!("By their numbers it puts them in the order in which they were made:");
    Event::sort(&mut events);
    print_events(&events);
    host.line(3, false)?;
    host.line(5, false)
}

fn print_on(whose: &str, board: &Board) {
    let on: String = board.vectors_on().map(|vector| format!(" {vector:#04x}")).collect();
    say!("{whose}{on}");
}

/// A recorder that has the events of a device since its reset, and not the device, knows which vectors are on all the same.
fn second_board() -> Result<(), Error> {
    say!(
        "A fresh device: line 5 goes up, the guest unmasks everything, line 5 goes down and line 9 up. \
         A recorder hears the events in the order of making."
    );
    let (mut pic, mut events, mut heard) = (PchPic::new(), Vec::new(), Board::new());
    events.extend(pic.set_level(5, true)?);
    pic.write(WINDOW, WINDOW.base + reg::MASK, Width::Dword, 0)?;
    events.extend(pic.set_level(5, false)?);
    events.extend(pic.set_level(9, true)?);
    events.extend(pic.drain_events());
    Event::sort_from_reset(&mut events);
    for event in events {
        heard.hear(event);
    }
    print_on("On by the device's board:", pic.board());
    print_on("On by the recorder's:", &heard);
    Ok(())
}

fn play(path: &Path) -> Result<ExitCode, Failure> {
    let mut host = Host::new(PchPic::new());
    start_up(&mut host)?;
    one_sample(&mut host)?;
    save_and_load(&mut host, path)?;
    after_sixteen(&mut host)?;
    unkind(&mut host)?;
    button(&mut host)?;
    recorded(&mut host)?;
    second_board()?;
    let left = host.wires.vectors_on().count();
    say!("Vectors left on: {left}.");
    Ok(if left == 0 { ExitCode::SUCCESS } else { ExitCode::FAILURE })
}

fn show(path: &Path) -> Result<ExitCode, Failure> {
    let host = Host::new(loaded(path)?);
    let masked = host.guest_reads(reg::MASK, Width::Qword)?;
    say!("Latched {:#018x}, in service {:#018x}, masked {masked:#018x}.", host.pic.latched(), host.pic.in_service());
    say!("Waiting events: {}. Dropped: {}.", host.pic.waiting(), host.pic.drops());
    say!("The next event gets number {}.", host.pic.next_number());
    Ok(ExitCode::SUCCESS)
}

fn convert(form: Form, from: &Path, to: &Path) -> Result<ExitCode, Failure> {
    save(&loaded(from)?, form, to)?;
    Ok(ExitCode::SUCCESS)
}

fn main() -> ExitCode {
    let words: Vec<OsString> = std::env::args_os().skip(1).collect();
    // A file's name may be anything, and the other words are text.
    let text: Vec<Option<&str>> = words.iter().map(|word| word.to_str()).collect();
    let path = |at: usize| Path::new(&words[at]);
    let done = match text[..] {
        [word] if !word.is_some_and(|word| word.starts_with('-')) => play(path(0)),
        [Some("--show"), _] => show(path(1)),
        [Some("--form"), Some("1"), _, _] => convert(Form::One, path(2), path(3)),
        [Some("--form"), Some("2"), _, _] => convert(Form::Two, path(2), path(3)),
        [Some("--form"), Some("numbered"), _, _] => convert(Form::Numbered, path(2), path(3)),
        _ => {
            eprintln!("usage: load_sample FILE | load_sample --show FILE | load_sample --form 1|2|numbered FROM TO");
            return ExitCode::from(2);
        }
    };
    done.unwrap_or_else(|why| {
        eprintln!("load_sample: {why}");
        ExitCode::FAILURE
    })
}
