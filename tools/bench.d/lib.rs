//! The driver of tools/bench: reads what is asked, holds the sides against each other, measures, and prints the table.

mod beside;
#[path = "../harness/call.rs"]
mod call;
#[allow(dead_code)]
#[path = "../harness/chance.rs"]
mod chance;
mod count;
mod day;
#[cfg(oracle)]
mod device;
#[cfg(oracle)]
#[allow(dead_code)]
#[path = "../harness/image.rs"]
mod image;
mod kinds;
mod measure;
#[cfg(oracle)]
#[allow(dead_code)]
#[path = "../harness/numbers.rs"]
mod numbers;
mod plays;
#[path = "../harness/quiet.rs"]
mod quiet;
mod sides;
mod stack;
mod table;
mod verify;

use call::Call;
use day::DAYS;
use kinds::Kind;
use measure::{BATCH, Bench, Best};
use plays::{Lent, Play, RECORDS};
use std::process::ExitCode;
use table::Row;

const WITH_C: bool = cfg!(oracle);

/// What is asked for on the command line.
pub struct Asked {
    rounds: usize,
    calls: usize,
    day: usize,
    kinds: Vec<String>,
    sides: Vec<char>,
    times: bool,
    instructions: bool,
    markdown: bool,
    stack: bool,
    list: bool,
    counted: bool,
}

fn asked() -> Result<Asked, String> {
    let mut asked = Asked {
        rounds: 600,
        calls: 6400,
        day: 20_000,
        kinds: vec!["all".into()],
        sides: if WITH_C { vec!['n', 'a', 'b', 'c', 'd', 'p'] } else { vec!['n', 'a', 'b', 'd', 'p'] },
        times: true,
        instructions: true,
        markdown: false,
        stack: false,
        list: false,
        counted: false,
    };
    let mut words = std::env::args().skip(1);
    while let Some(word) = words.next() {
        let mut value = || words.next().ok_or(format!("{word} needs a value"));
        let number = |text: String| text.parse::<usize>().ok().filter(|&n| n > 0).ok_or(format!("{text} is no number above 0"));
        match word.as_str() {
            "--rounds" => asked.rounds = number(value()?)?.next_multiple_of(PASSES),
            "--calls" => asked.calls = number(value()?)?.next_multiple_of(BATCH),
            "--day" => asked.day = number(value()?)?,
            "--kind" => asked.kinds = value()?.split(',').map(String::from).collect(),
            "--side" => asked.sides = sides(&value()?)?,
            "--no-time" => asked.times = false,
            "--no-instructions" => asked.instructions = false,
            "--markdown" => asked.markdown = true,
            "--stack" => asked.stack = true,
            "--list" => asked.list = true,
            "--counted" => asked.counted = true,
            _ => return Err(format!("unknown word {word}; see tools/bench --help")),
        }
    }
    Ok(asked)
}

fn sides(list: &str) -> Result<Vec<char>, String> {
    let mut sides = Vec::new();
    for side in list.split(',') {
        match side {
            "c" if !WITH_C => eprintln!("bench: side c is left out: it was built without the published Rust"),
            "a" | "b" | "c" | "d" | "p" | "n" => sides.extend(side.chars()),
            _ => return Err(format!("no side {side}: a, b, c, d, p or n")),
        }
    }
    if sides.is_empty() { Err("no side is left".into()) } else { Ok(sides) }
}

/// What is measured: kinds of call, those beside them, the calls of the day where it is asked for, and plays and salvages.
pub struct Chosen {
    kinds: Vec<Kind>,
    besides: Vec<beside::Kind>,
    day: Option<Vec<Call>>,
    plays: Vec<Play>,
}

impl Chosen {
    /// The day, once for each length of its images.
    fn days(&self) -> impl Iterator<Item = (usize, &[Call])> {
        DAYS.into_iter().flat_map(|length| self.day.as_deref().map(|calls| (length, calls)))
    }
}

/// What is asked for. A name's beginning with a star stands for all that begin so.
fn chosen(asked: &Asked) -> Result<Chosen, String> {
    let (kinds, besides, plays) = (kinds::all(), beside::all(), plays::all());
    let fits = |pattern: &str, name: &str| match pattern.strip_suffix('*') {
        Some(beginning) => name.starts_with(beginning),
        None => pattern == "all" || pattern == name,
    };
    let of_calls = kinds.iter().map(|kind| kind.name).chain(besides.iter().map(|kind| kind.name));
    let names: Vec<&str> = of_calls.chain(plays.iter().map(|play| play.name.as_str())).chain(["day"]).collect();
    if let Some(pattern) = asked.kinds.iter().find(|pattern| !names.iter().any(|name| fits(pattern, name))) {
        return Err(format!("no kind {pattern} (see tools/bench --list)"));
    }
    let asked_for = |name: &str| asked.kinds.iter().any(|pattern| fits(pattern, name));
    Ok(Chosen {
        day: asked_for("day").then(|| day::calls(asked.day)),
        plays: plays.into_iter().filter(|play| asked_for(&play.name)).collect(),
        kinds: kinds.into_iter().filter(|kind| asked_for(kind.name)).collect(),
        besides: besides.into_iter().filter(|kind| asked_for(kind.name)).collect(),
    })
}

fn verified(day: &[Call]) -> Result<(), String> {
    for kind in kinds::all() {
        verify::kind(&kind)?;
    }
    for length in day::DAYS {
        verify::day(day, length)?;
    }
    let numbers = verify::random()?;
    let besides = beside::all();
    besides.iter().try_for_each(beside::verify::kind)?;
    let of_besides = beside::verify::random()?;
    let plays = plays::all();
    plays.iter().try_for_each(verify::played)?;
    let of_traces = verify::traces()?;
    let (of_salvages, of_sheets, of_tallies) = (verify::damaged()?, verify::sheets()?, verify::tallies()?);
    let beside = if WITH_C { ", on kinds and day beside the published Rust too" } else { "" };
    eprintln!(
        "bench: {} kinds, a day of {} calls and {} random calls left the same bytes on the sides{beside}; random numbers 0..11: {numbers:?}",
        kinds::all().len(),
        day.len(),
        verify::RANDOM
    );
    eprintln!(
        "bench: {} kinds with a board or of the profile and {} random calls left the same bytes on the sides, and as the plain calls; random numbers \
         0..15: {of_besides:?}",
        besides.len(),
        beside::verify::RANDOM
    );
    eprintln!(
        "bench: {} plays, salvages, sheets and tallies and {} random traces left the same bytes on the sides, what is played as its calls one by one; random numbers 0..13: \
         {of_traces:?}; of as many damaged ones, salvaged, 0..16: {of_salvages:?}; of as many summed up, 0..13: {of_sheets:?}; of as many added to a tally and its sheets, 0..17: {of_tallies:?}",
        plays.len(),
        verify::TRACES
    );
    Ok(())
}

/// How often all kinds are gone through.
const PASSES: usize = 20;

fn timed(asked: &Asked, chosen: &Chosen) -> Vec<Vec<f64>> {
    let mut bench = Bench::new();
    let best = |calls| Best::new(asked.sides.len(), calls);
    let mut kinds: Vec<Best> = chosen.kinds.iter().map(|_| best(asked.calls)).collect();
    let mut besides: Vec<Best> = chosen.besides.iter().map(|_| best(asked.calls)).collect();
    let mut days: Vec<Best> = chosen.days().map(|(_, calls)| best(calls.len())).collect();
    // As many plays in a round as have the records of the longest.
    let times: Vec<usize> = chosen.plays.iter().map(|play| RECORDS / play.calls.len()).collect();
    let mut plays: Vec<Best> = chosen.plays.iter().zip(&times).map(|(play, times)| best(times * play.calls.len())).collect();
    let mut lent: Vec<Lent> = chosen.plays.iter().map(Lent::of).collect();
    let rounds = asked.rounds / PASSES;
    for pass in 0..PASSES {
        eprint!("\rbench: timing, pass {} of {PASSES} ", pass + 1);
        measure::deeper(pass, &mut || {
            for (row, kind) in kinds.iter_mut().zip(&chosen.kinds) {
                row.rounds(rounds, &asked.sides, |side| bench.kind(side, kind, asked.calls / BATCH));
            }
            for (row, kind) in besides.iter_mut().zip(&chosen.besides) {
                row.rounds(rounds, &asked.sides, |side| bench.beside(side, kind, asked.calls / beside::BATCH));
            }
            for (row, (length, calls)) in days.iter_mut().zip(chosen.days()) {
                row.rounds(rounds, &asked.sides, |side| bench.day(side, calls, length));
            }
            for (k, row) in plays.iter_mut().enumerate() {
                row.rounds(rounds, &asked.sides, |side| measure::played(side, &chosen.plays[k], &mut lent[k], times[k]));
            }
        });
    }
    eprintln!();
    kinds.iter().chain(&besides).chain(&days).chain(&plays).map(Best::per_call).collect()
}

fn run(mut asked: Asked, chosen: Chosen) -> Result<(), String> {
    if asked.list {
        chosen.kinds.iter().for_each(|kind| println!("{:22}{}", kind.name, kind.title));
        chosen.besides.iter().for_each(|kind| println!("{:22}{}", kind.name, kind.title));
        println!("{:22}a mixed day of calls, on one image: of form 1, and with numbers", "day");
        chosen.plays.iter().for_each(|play| println!("{:22}{}", play.name, play.title));
        return Ok(());
    }
    if asked.counted {
        count::counted(&asked, &chosen);
        return Ok(());
    }
    if asked.stack {
        return stack::print(asked.markdown);
    }
    let cpu = measure::pin();
    verified(&day::calls(asked.day))?;
    let times = if asked.times { timed(&asked, &chosen) } else { Vec::new() };
    let instructions = if asked.instructions {
        eprintln!("bench: counting instructions with {}", count::counter());
        count::per_call(&asked, &chosen).unwrap_or_else(|why| {
            eprintln!("bench: instructions are left out: {why}");
            asked.instructions = false;
            Vec::new()
        })
    } else {
        Vec::new()
    };
    let days = chosen.days().zip(["mixed day", "numbers: mixed day"]).map(|(_, title)| (title, true));
    let besides = chosen.besides.iter().map(|kind| (kind.title, false));
    let plays = chosen.plays.iter().map(|play| (play.title.as_str(), false));
    let titles = chosen.kinds.iter().map(|kind| (kind.title, has_c(kind))).chain(besides).chain(days).chain(plays);
    let row = |(k, (title, c)): (usize, (&str, bool))| Row {
        title: title.into(),
        times: times.get(k).cloned().unwrap_or_default(),
        instructions: instructions.get(k).cloned().unwrap_or_default(),
        c,
    };
    let rows: Vec<Row> = titles.enumerate().map(row).collect();
    table::print(&rows, &asked.sides, asked.times, asked.instructions, asked.markdown);
    // In a play, a salvage or a sheet there is one loop and one call for all its records.
    tell(&asked, &rows[..rows.len() - chosen.plays.len()], cpu, chosen.day.as_deref());
    Ok(())
}

fn has_c(_kind: &Kind) -> bool {
    #[cfg(oracle)]
    return device::has(_kind);
    #[cfg(not(oracle))]
    false
}

/// What the figures are.
fn tell(asked: &Asked, rows: &[Row], cpu: Option<usize>, day: Option<&[Call]>) {
    println!();
    println!(
        "a: the library. b: plain Rust, whole load and save. c: the published Rust in memory, with a mutex. d: lean Rust, in place. p: the library's sources as Rust."
    );
    if let Some(empty) = table::empty(rows, &asked.sides) {
        println!("An empty call in the same loop, not subtracted: {empty}.");
    }
    if asked.times {
        let pinned = cpu.map_or("not pinned".into(), |cpu| format!("pinned to CPU {cpu}"));
        let (rounds, calls) = (asked.rounds, asked.calls);
        println!("Time: best of {rounds} rounds of {calls} calls, sides in turn, {pinned}; areas prepared outside the clock.");
    }
    if let Some(calls) = day {
        let share = |&(sort, count): &(&str, usize)| format!("{sort} {:.1}", 100.0 * count as f64 / calls.len() as f64);
        let shares: Vec<String> = day::shares(calls).iter().map(share).collect();
        println!("Mixed day: {} calls on one image, back to back; in a hundred: {}.", calls.len(), shares.join(", "));
    }
    let processor = std::fs::read_to_string("/proc/cpuinfo").unwrap_or_default();
    let model = processor.lines().find_map(|line| line.strip_prefix("model name")?.split(": ").nth(1));
    println!("Machine: {}; {}.", model.unwrap_or("unknown"), std::env::var("BENCH_RUSTC").unwrap_or_default());
}

pub fn main() -> ExitCode {
    quiet::on_closed_pipes();
    let told = |why: String, status: u8| {
        eprintln!("bench: {why}");
        ExitCode::from(status)
    };
    let asked = match asked() {
        Ok(asked) => asked,
        Err(why) => return told(why, 2),
    };
    match chosen(&asked) {
        Ok(chosen) => run(asked, chosen).map_or_else(|why| told(why, 1), |()| ExitCode::SUCCESS),
        Err(why) => told(why, 2),
    }
}
