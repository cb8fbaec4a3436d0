//! Plays scripts on the library and on QEMU's model of the same controller, and prints where they agree. `tools/compare-qemu` builds and
//! runs this.

// the modules are shared with the other programs, and not all of each is used here
#![allow(dead_code)]

mod call;
mod chance;
mod lent;
mod qtest;
mod quiet;
mod steps;
mod under_test;

use call::Call;
use lent::Areas;
use qtest::{Qemu, Shown};
use std::process::ExitCode;
use steps::{BASE, Line, SIZE, Script, Step};

/// The library, and the lines of a controller above that takes its events as levels. QEMU shows changes of lines, and so must this.
struct Ours {
    areas: Areas,
    high: [bool; 256],
    /// The lines that are up, for a host's duties.
    lines: u64,
}

impl Ours {
    fn start() -> Result<Self, String> {
        let mut areas = Areas::new();
        (areas.image.len, areas.answer.len, areas.events.len) = (259, 16, 64);
        let mut ours = Ours { areas, high: [false; 256], lines: 0 };
        ours.call(Call::Reset)?;
        Ok(ours)
    }

    /// The value that the call handed back. No call of a script is one that may be refused.
    fn call(&mut self, call: Call) -> Result<Option<u64>, String> {
        let number = under_test::call(&call, &mut self.areas);
        let answer = self.areas.answer.bytes();
        match number {
            0 => Ok((answer[1] == 1).then(|| u64::from_le_bytes(answer[8..16].try_into().unwrap()))),
            _ => Err(format!("the library refuses {call:?} with {number}")),
        }
    }

    /// A host's duties after a write: each input is polled, and each line that is up is raised again. What that made is behind the step's own.
    fn settles(&mut self) -> Result<Vec<(u8, bool)>, String> {
        let mut events = Vec::new();
        for input in 0..64 {
            events.extend(self.call(Call::Poll { input })?.map(|vector| (vector as u8, true)));
            if self.lines >> input & 1 == 1 {
                events.extend(self.call(Call::Level { input, level: 1 })?.map(|vector| (vector as u8, true)));
            }
        }
        events.retain(|&(vector, level)| std::mem::replace(&mut self.high[vector as usize], level) != level);
        Ok(events)
    }

    fn make_as_host(&mut self, step: Step) -> Result<Shown, String> {
        let (read, mut events) = self.make(step)?;
        match step {
            Step::Raise(input) => self.lines |= 1 << input,
            Step::Lower(input) => self.lines &= !(1 << input),
            Step::Write { .. } => events.extend(self.settles()?),
            Step::Read { .. } => {}
        }
        Ok((read, at_the_end(&events)))
    }

    fn make(&mut self, step: Step) -> Result<Shown, String> {
        let (base, size) = (BASE, SIZE);
        let (mut read, mut events) = (None, Vec::new());
        match step {
            Step::Raise(input) => events.extend(self.call(Call::Level { input, level: 1 })?.map(|vector| (vector as u8, true))),
            Step::Lower(input) => events.extend(self.call(Call::Level { input, level: 0 })?.map(|vector| (vector as u8, false))),
            Step::Read { width, offset } => read = self.call(Call::Read { base, size, address: BASE + offset, width })?,
            Step::Write { width, offset, value } => {
                self.call(Call::Write { base, size, address: BASE + offset, width, value })?;
            }
        }
        let drained = self.call(Call::Drain { place: 0 })?.unwrap_or(0) as usize;
        events.extend(self.areas.events.bytes().chunks(4).take(drained).map(|event| (event[0], event[1] == 1)));
        events.retain(|&(vector, level)| std::mem::replace(&mut self.high[vector as usize], level) != level);
        Ok((read, events))
    }
}

/// Of the changes of a step, those that hold at its end: a line that went off and on has not changed.
fn at_the_end(changes: &[(u8, bool)]) -> Vec<(u8, bool)> {
    let mut net: Vec<(u8, bool)> = Vec::new();
    for &(vector, level) in changes {
        match net.iter().position(|change| change.0 == vector) {
            Some(at) => drop(net.remove(at)),
            None => net.push((vector, level)),
        }
    }
    net.sort_unstable();
    net
}

/// What a step showed, in words: the value read, or the lines that changed.
fn words(step: Step, (value, changes): &Shown) -> String {
    let mut words = Vec::new();
    if let (Step::Read { width, .. }, Some(value)) = (step, value) {
        // qtest prints eight bytes; of those the width's are meant
        let value = if width == 8 { *value } else { value & ((1 << (8 * width)) - 1) };
        words.push(format!("{value:0digits$x}", digits = 2 * width as usize));
    }
    words.extend(changes.iter().map(|(vector, level)| format!("{}{vector:02x}", if *level { '+' } else { '-' })));
    if words.is_empty() { "-".into() } else { words.join(" ") }
}

#[derive(Clone, Copy, PartialEq, Eq)]
enum Verdict {
    Agree,
    Known,
    Unexpected,
}

#[derive(Default)]
struct Counts {
    agree: u64,
    known: u64,
    unexpected: u64,
}

impl Counts {
    fn add(&mut self, verdict: Verdict, count: u64) {
        match verdict {
            Verdict::Agree => self.agree += count,
            Verdict::Known => self.known += count,
            Verdict::Unexpected => self.unexpected += count,
        }
    }
}

fn row(step: &str, ours: &str, theirs: &str, verdict: &str) {
    println!("  {step:<28} {ours:<20} {theirs:<20} {verdict}");
}

/// Whether a step agrees, differs as is known, or surprises. A mark on one step says that it differs; on a line of many, that some do.
fn judge(line: &Line, ours: &str, theirs: &str) -> (Verdict, String) {
    let Some(known) = &line.known else {
        return if ours == theirs { (Verdict::Agree, "agree".into()) } else { (Verdict::Unexpected, "UNEXPECTED".into()) };
    };
    let as_told = theirs == known.theirs && (ours == known.ours || known.ours == "*");
    if ours != theirs && as_told {
        (Verdict::Known, format!("differ: {}", known.entry))
    } else if ours == theirs && line.steps.len() > 1 {
        (Verdict::Agree, "agree".into())
    } else {
        (Verdict::Unexpected, format!("UNEXPECTED: {} has {} / {}", known.entry, known.ours, known.theirs))
    }
}

fn play_line(line: &Line, ours: &mut Ours, qemu: &mut Qemu, all: bool, counts: &mut Counts) -> Result<(), String> {
    let mut counted = Counts::default();
    for &step in &line.steps {
        let (mine, theirs) = if line.hosted {
            let (read, changes) = qemu.make(step)?;
            (ours.make_as_host(step)?, (read, at_the_end(&changes)))
        } else {
            (ours.make(step)?, qemu.make(step)?)
        };
        let (mine, theirs) = (words(step, &mine), words(step, &theirs));
        let (verdict, said) = judge(line, &mine, &theirs);
        if verdict != Verdict::Agree || all || line.steps.len() == 1 {
            row(&step.to_string(), &mine, &theirs, &said);
        }
        counted.add(verdict, 1);
    }
    if line.steps.len() > 1 {
        row(&line.text, "", "", &format!("agree, {} steps of {}", counted.agree, line.steps.len()));
    }
    if line.known.is_some() && counted.known == 0 && counted.unexpected == 0 {
        row(&line.text, "", "", "UNEXPECTED: no step differs");
        counted.unexpected += 1;
    }
    for (verdict, count) in [(Verdict::Agree, counted.agree), (Verdict::Known, counted.known), (Verdict::Unexpected, counted.unexpected)] {
        counts.add(verdict, count);
    }
    Ok(())
}

fn play(script: &Script, program: &str, device: &str, all: bool, counts: &mut Counts) -> Result<(), String> {
    println!("\n{}", script.name);
    row("step", "ours", "QEMU", "");
    let (mut ours, mut qemu) = (Ours::start()?, Qemu::start(program, device)?);
    script.lines.iter().try_for_each(|line| play_line(line, &mut ours, &mut qemu, all, counts))
}

/// Every entry that the scripts name must stand in the page of differences.
fn entries_stand(scripts: &[Script], page: &str) -> Result<(), String> {
    for known in scripts.iter().flat_map(|script| &script.lines).filter_map(|line| line.known.as_ref()) {
        if !page.contains(&format!("`{}`", known.entry)) {
            return Err(format!("docs/DIFFERENCES.md has no entry `{}`", known.entry));
        }
    }
    Ok(())
}

fn run(words: &[String]) -> Result<Counts, String> {
    let [program, device, file, page, all] = words else { return Err("five words are needed".into()) };
    let text = |path: &str| std::fs::read_to_string(path).map_err(|error| format!("{path}: {error}"));
    let scripts = steps::scripts(&text(file)?).map_err(|error| format!("{file}: {error}"))?;
    entries_stand(&scripts, &text(page)?)?;
    let mut counts = Counts::default();
    scripts.iter().try_for_each(|script| play(script, program, device, all == "all", &mut counts))?;
    Ok(counts)
}

fn main() -> ExitCode {
    quiet::on_closed_pipes();
    match run(&std::env::args().skip(1).collect::<Vec<_>>()) {
        Ok(Counts { agree, known, unexpected }) => {
            let steps = agree + known + unexpected;
            println!("\n{steps} steps: {agree} agree, {known} differ as docs/DIFFERENCES.md says, {unexpected} unexpected");
            if unexpected == 0 && steps > 0 { ExitCode::SUCCESS } else { ExitCode::FAILURE }
        }
        Err(message) => {
            eprintln!("compare-qemu: {message}");
            ExitCode::from(2)
        }
    }
}
