//! Writes a session's lines, random ones and such as are nearly right, and beside them the answers of the published Rust, by 01's text rules.
//! `tools/mutants` and `tools/play-lines` run this.

// the modules are shared with the other programs, and not all of each is used here
#![allow(dead_code)]

mod boundary;
mod call;
mod chance;
mod image;
mod numbers;
mod quiet;
mod told;

use boundary::Boundary;
use call::Call;
use chance::Chance;
use image::ONE;
use std::process::ExitCode;

const SIZE: u64 = 0x400;

/// The device behind the expected answers.
struct Device {
    rust: Boundary,
    image: image::Image,
}

impl Device {
    fn new() -> Self {
        let mut device = Device { rust: Boundary::new(), image: vec![0; ONE.length] };
        device.answer(&Call::Reset);
        device
    }

    /// The call's answer as a line.
    fn answer(&mut self, call: &Call) -> String {
        let (mut answer, mut events) = ([0; 16], [0; 64]);
        let number = self.rust.perform(call, &mut self.image, &mut answer, &mut events, &mut []);
        let value = u64::from_le_bytes(answer[8..].try_into().unwrap());
        match (number, call) {
            (0, Call::Read { .. }) => format!("= {value:016x}"),
            (0, Call::Write { .. }) => "ok".into(),
            (0, Call::Drain { .. }) => {
                // a session prints no numbers
                let event = |event: &[u8]| format!(" {}{:02x}", if event[1] == 1 { '+' } else { '-' }, event[0]);
                let drained: String = events.chunks(4).take(value as usize).map(event).collect();
                format!("d{drained}")
            }
            (0, _) if answer[1] == 1 => format!("v {:02x}", value % 65_536),
            (0, _) => "-".into(),
            (number, _) => format!("e{number}"),
        }
    }
}

/// So many lower-case hex digits, and nothing else.
fn hex(word: &str, digits: usize) -> Option<u64> {
    let fits = word.len() == digits && word.bytes().all(|byte| matches!(byte, b'0'..=b'9' | b'a'..=b'f'));
    fits.then(|| u64::from_str_radix(word, 16).unwrap())
}

/// What a line asks for, by 01: words parted by single spaces.
fn request(line: &[u8]) -> Option<Call> {
    let line = std::str::from_utf8(line).ok()?;
    let words: Vec<&str> = line.split(' ').collect();
    let access = |width: &str, address: &str| Some((hex(width, 1)?, hex(address, 4)?));
    Some(match words[..] {
        ["l", input, level @ ("0" | "1")] => Call::Level { input: hex(input, 2)?, level: (level == "1") as u64 },
        ["p", input] => Call::Poll { input: hex(input, 2)? },
        ["r", width, address] => {
            let (width, address) = access(width, address)?;
            Call::Read { base: 0, size: SIZE, address, width }
        }
        ["w", width, address, value] => {
            let (width, address) = access(width, address)?;
            Call::Write { base: 0, size: SIZE, address, width, value: hex(value, 16)? }
        }
        ["d"] => Call::Drain { place: 0 },
        _ => return None,
    })
}

fn asking(chance: &mut Chance) -> Vec<u8> {
    let near = [0, 0x20, 0x40, 0x60, 0x80, 0xc0, 0xe0, 0xfe, 0x100, 0x138, 0x200, 0x238, 0x380, 0x39c, 0x3a0, 0x3e0, 0x3fc];
    let input = if chance.percent(95) { chance.below(16) * 4 + chance.below(4) } else { chance.below(256) };
    let width = if chance.percent(97) { chance.one_of(&[1, 2, 4, 8]) } else { chance.below(16) };
    let lines = chance.one_of(&[0x20, 0x20, 0x24, 0x80, 0x84, 0x3a0, 0x3a4]);
    let address = match chance.below(20) {
        0 => chance.below(0x1_0000),
        1..4 => chance.below(SIZE),
        4..12 => lines,
        _ => chance.one_of(&near) + chance.one_of(&[0, 0, 0, 4, 4, 1, 2, 3, 5, 6, 7]),
    };
    let value = match chance.below(4) {
        0 => chance.one_of(&[0, !0, 0xffff_ffff, 0xffff_ffff_0000_0000]),
        1 => 1 << chance.below(64),
        2 => !(1 << chance.below(64)),
        _ => chance.number(),
    };
    let line = match chance.below(20) {
        0..6 => format!("l {input:02x} {}", chance.below(3).min(1)),
        6..8 => format!("p {input:02x}"),
        8..12 => format!("r {width:x} {address:04x}"),
        12..19 => format!("w {width:x} {address:04x} {value:016x}"),
        _ => "d".into(),
    };
    line.into_bytes()
}

/// A line with one byte too many, too few or another.
fn nearly(chance: &mut Chance) -> Vec<u8> {
    let mut line = asking(chance);
    let at = chance.below(line.len() as u64 + 1) as usize;
    let byte = chance.one_of(b" 0123456789abcdefgABFlprwdx/:`\t\r\x00\x7f\x80\xff");
    match chance.below(4) {
        0 => line.insert(at, byte),
        1 if at < line.len() => drop(line.remove(at)),
        2 => line.truncate(at),
        _ if at < line.len() => line[at] = byte,
        _ => line.extend(std::iter::repeat_n(byte, chance.below(80) as usize)),
    }
    line
}

fn write(words: &[String]) -> Result<(), String> {
    let [seed, count, lines, answers] = words else { return Err("it wants SEED COUNT LINES ANSWERS".into()) };
    let number = |word: &String| word.parse::<u64>().map_err(|_| format!("'{word}' is no number"));
    let (mut chance, count) = (Chance::new(number(seed)?), number(count)?);
    let mut device = Device::new();
    let (mut input, mut output) = (Vec::new(), String::new());
    for k in 0..count {
        // The last is a single byte, so that one is told from none.
        let line = if k + 1 == count {
            b"d".to_vec()
        } else if chance.percent(15) {
            nearly(&mut chance)
        } else {
            asking(&mut chance)
        };
        let answer = request(&line).map_or("?".into(), |call| device.answer(&call));
        output.push_str(&answer);
        output.push('\n');
        input.extend(&line);
        // The last line needs no ending, if there is something in it.
        if k + 1 < count || line.is_empty() {
            input.push(b'\n');
        }
    }
    let drops = u32::from_le_bytes(device.image[ONE.drops..ONE.drops + 4].try_into().unwrap());
    output.push_str(&format!("drops {drops:08x}\n"));
    let put = |path: &String, bytes: &[u8]| std::fs::write(path, bytes).map_err(|error| format!("{path}: {error}"));
    put(lines, &input)?;
    put(answers, output.as_bytes())
}

fn main() -> ExitCode {
    quiet::on_closed_pipes();
    let words: Vec<String> = std::env::args().skip(1).collect();
    match write(&words) {
        Ok(()) => ExitCode::SUCCESS,
        Err(message) => {
            eprintln!("lines: {message}");
            ExitCode::from(2)
        }
    }
}
