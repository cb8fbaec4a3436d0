//! The scripts of the comparison with QEMU's model: their steps as data, and how they are read from text (tools/qemu/scripts.txt).

use crate::chance::Chance;

/// Where the machine `virt` has its controller, and how long its window is there. The library is given the same window.
pub const BASE: u64 = 0x1000_0000;
pub const SIZE: u64 = 0x1000;

#[derive(Clone, Copy, Debug, PartialEq, Eq)]
pub enum Step {
    Raise(u64),
    Lower(u64),
    Read { width: u64, offset: u64 },
    Write { width: u64, offset: u64, value: u64 },
}

/// A step that is known to differ: the entry's name in docs/DIFFERENCES.md, and what either side shows at this step.
pub struct Known {
    pub entry: String,
    pub ours: String,
    pub theirs: String,
}

/// A line of a script: one step, or many of a kind.
pub struct Line {
    pub text: String,
    pub steps: Vec<Step>,
    /// Whether our side does a host's duties too: then a CLEAR takes no line that is high, and only what has changed at the end of a step is compared.
    pub hosted: bool,
    pub known: Option<Known>,
}

pub struct Script {
    pub name: String,
    pub lines: Vec<Line>,
}

impl std::fmt::Display for Step {
    fn fmt(&self, f: &mut std::fmt::Formatter) -> std::fmt::Result {
        match *self {
            Step::Raise(input) => write!(f, "raise {input:02x}"),
            Step::Lower(input) => write!(f, "lower {input:02x}"),
            Step::Read { width, offset } => write!(f, "read {width} {offset:03x}"),
            Step::Write { width, offset, value } => write!(f, "write {width} {offset:03x} {value:0digits$x}", digits = 2 * width as usize),
        }
    }
}

/// All scripts of a text, or what is wrong with it.
pub fn scripts(text: &str) -> Result<Vec<Script>, String> {
    let mut scripts: Vec<Script> = Vec::new();
    for (at, line) in text.lines().enumerate() {
        let line = line.split('#').next().unwrap_or("").trim();
        if line.is_empty() {
            continue;
        }
        if let Some(name) = line.strip_prefix("script ") {
            scripts.push(Script { name: name.into(), lines: Vec::new() });
            continue;
        }
        let wrong = || format!("line {}: '{line}' is no step", at + 1);
        scripts.last_mut().ok_or_else(wrong)?.lines.push(one_line(line).ok_or_else(wrong)?);
    }
    Ok(scripts)
}

fn one_line(line: &str) -> Option<Line> {
    let (text, known) = match line.split_once('!') {
        None => (line, None),
        Some((text, mark)) => {
            let (entry, shown) = mark.split_once(':')?;
            let (ours, theirs) = shown.split_once('/')?;
            (text.trim(), Some(Known { entry: entry.trim().into(), ours: ours.trim().into(), theirs: theirs.trim().into() }))
        }
    };
    let words: Vec<&str> = text.split_whitespace().collect();
    Some(Line { text: text.into(), steps: steps(&words)?, hosted: matches!(words[0], "driver" | "calm"), known })
}

fn hex(word: &str) -> Option<u64> {
    u64::from_str_radix(word, 16).ok()
}

fn steps(words: &[&str]) -> Option<Vec<Step>> {
    Some(match *words {
        ["raise", input] => vec![Step::Raise(below(hex(input)?, 64)?)],
        ["lower", input] => vec![Step::Lower(below(hex(input)?, 64)?)],
        ["read", width, offset] => vec![Step::Read { width: hex(width)?, offset: aligned(width, offset)? }],
        ["write", width, offset, value] => {
            vec![Step::Write { width: hex(width)?, offset: aligned(width, offset)?, value: fits(width, value)? }]
        }
        ["reads", width, first, last] => {
            each(width, first, last)?.map(|offset| Step::Read { width: hex(width).unwrap(), offset }).collect()
        }
        ["writes", width, first, last, value] => {
            let value = fits(width, value)?;
            each(width, first, last)?.map(|offset| Step::Write { width: hex(width).unwrap(), offset, value }).collect()
        }
        ["numbers", first, last] => {
            let from = hex(first)?;
            each("1", first, last)?.map(|offset| Step::Write { width: 1, offset, value: offset - from }).collect()
        }
        ["random", seed, count] => random(hex(seed)?, count.parse().ok()?),
        ["driver", seed, count] => driver(hex(seed)?, count.parse().ok()?, false),
        ["calm", seed, count] => driver(hex(seed)?, count.parse().ok()?, true),
        _ => return None,
    })
}

fn below(number: u64, end: u64) -> Option<u64> {
    (number < end).then_some(number)
}

fn aligned(width: &str, offset: &str) -> Option<u64> {
    let (width, offset) = (hex(width)?, hex(offset)?);
    (matches!(width, 1 | 2 | 4 | 8) && offset % width == 0 && offset + width <= SIZE).then_some(offset)
}

fn fits(width: &str, value: &str) -> Option<u64> {
    (value.len() as u64 <= 2 * hex(width)?).then(|| hex(value))?
}

fn each(width: &str, first: &str, last: &str) -> Option<impl Iterator<Item = u64>> {
    let step = hex(width)?;
    Some((aligned(width, first)?..=aligned(width, last)?).step_by(step as usize))
}

/// What a driver of level-triggered inputs may do, by chance. First each input gets a vector of its own; then inputs are raised and
/// lowered, any number of them unmasked at a time but at most one masked, routes and stored registers written, registers read. It leaves
/// alone what is known to differ: EDGE, CLEAR and ISR are not written, IRR and AUTO not read, and vectors neither shared nor changed later.
fn random(seed: u64, count: u64) -> Vec<Step> {
    let mut chance = Chance::new(seed);
    let mut mask = [0xffff_ffffu64; 2];
    let mut vectors: Vec<u64> = (0..64).collect();
    for at in (1..64).rev() {
        vectors.swap(at, chance.below(at as u64 + 1) as usize);
    }
    let first = vectors.iter().enumerate().map(|(input, &value)| Step::Write { width: 1, offset: 0x200 + input as u64, value });
    first.chain((0..count).map(|_| random_step(&mut chance, &mut mask))).collect()
}

fn random_step(chance: &mut Chance, mask: &mut [u64; 2]) -> Step {
    let registers = [0x000, 0x020, 0x040, 0x060, 0x080, 0x3a0, 0x3e0];
    let width = chance.one_of(&[1, 2, 4, 8]);
    let entry = chance.below(64) / width * width;
    match chance.below(100) {
        0..30 => Step::Raise(chance.below(64)),
        30..50 => Step::Lower(chance.below(64)),
        50..70 => {
            let half = chance.below(2);
            let now = &mut mask[half as usize];
            *now &= !(chance.number() & chance.number() & 0xffff_ffff);
            *now |= 1 << chance.below(32);
            Step::Write { width: 4, offset: 0x020 + 4 * half, value: *now }
        }
        70..75 => Step::Write { width, offset: 0x100 + entry, value: chance.number() & (u64::MAX >> (64 - 8 * width)) },
        75..80 => Step::Write { width: 4, offset: chance.one_of(&[0x040, 0x044, 0x3e0, 0x3e4]), value: chance.number() & 0xffff_ffff },
        80..90 => Step::Read { width: 4, offset: chance.one_of(&registers) + 4 * chance.below(2) },
        90..95 => Step::Read { width: 8, offset: chance.one_of(&registers) },
        _ => Step::Read { width, offset: chance.one_of(&[0x100, 0x200]) + entry },
    }
}

/// What Linux's driver does with level-triggered inputs 0 to 31, by chance, with lines that move in between: a CLEAR of the input just before each unmask, one bit of MASK
/// at a time. A calm one masks no input whose line is high.
fn driver(seed: u64, count: usize, calm: bool) -> Vec<Step> {
    let mut chance = Chance::new(seed);
    let (mut mask, mut lines) = (0xffff_ffff_u64, 0_u64);
    let mut steps: Vec<Step> = (0..32).map(|input| Step::Write { width: 1, offset: 0x200 + input, value: input }).collect();
    while steps.len() < count {
        let input = chance.below(32);
        let bit = 1 << input;
        match chance.below(10) {
            0..3 => {
                lines |= bit;
                steps.push(Step::Raise(input));
            }
            3..5 => {
                lines &= !bit;
                steps.push(Step::Lower(input));
            }
            5..7 => {
                mask &= !bit;
                steps.push(Step::Write { width: 4, offset: 0x080, value: bit });
                steps.push(Step::Read { width: 4, offset: 0x020 });
                steps.push(Step::Write { width: 4, offset: 0x020, value: mask });
            }
            7..9 if !calm || lines & bit == 0 => {
                mask |= bit;
                steps.push(Step::Write { width: 4, offset: 0x020, value: mask });
            }
            _ => steps.push(Step::Read { width: 4, offset: 0x3a0 }),
        }
    }
    steps
}
