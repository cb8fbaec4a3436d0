//! The differential runs: the library under test and the published Rust side by side. `tools/differential` builds and runs this.

mod bench;
mod board;
mod boards;
mod boundary;
mod call;
mod case;
mod cases;
mod caught;
mod chance;
mod days;
mod differences;
mod expected;
mod fixed;
mod fronts;
mod generate;
mod histories;
mod hoist;
mod hoists;
mod image;
mod lent;
mod numbers;
mod played;
mod plays;
mod quiet;
mod salvaged;
mod salvages;
mod sheet;
mod sheets;
mod sweeps;
mod tallies;
mod tally;
mod text;
mod told;
mod trace;
mod traces;
mod under_test;

use bench::Bench;
use call::From;
use chance::Chance;
use std::process::ExitCode;
use std::time::Instant;

const BAD_USAGE: u8 = 2;

fn main() -> ExitCode {
    quiet::on_closed_pipes();
    caught::prepare();
    match run(std::env::args().skip(1).collect()) {
        Ok(code) => code,
        Err(message) => {
            eprintln!("differential: {message}");
            ExitCode::from(BAD_USAGE)
        }
    }
}

/// What is asked for: how many of each, and what is left out.
struct Asked {
    seed: u64,
    calls: u64,
    records: u64,
    fronts: [u64; 5],
    failures: u64,
    random_only: bool,
    fronts_only: bool,
}

fn run(mut words: Vec<String>) -> Result<ExitCode, String> {
    let mut asked =
        Asked { seed: 1, calls: 1_000_000, records: 100_000, fronts: [40_000; 5], failures: 10, random_only: false, fronts_only: false };
    while !words.is_empty() {
        let word = words.remove(0);
        let mut number = || {
            let value = if words.is_empty() { String::new() } else { words.remove(0) };
            value.parse::<u64>().map_err(|_| format!("{word} wants a number"))
        };
        match word.as_str() {
            "--seed" => asked.seed = number()?,
            "--calls" => asked.calls = number()?,
            "--records" => asked.records = number()?,
            "--salvages" => asked.fronts[0] = number()?,
            "--boards" => asked.fronts[1] = number()?,
            "--hoists" => asked.fronts[2] = number()?,
            "--sheets" => asked.fronts[3] = number()?,
            "--tallies" => asked.fronts[4] = number()?,
            "--failures" => asked.failures = number()?,
            "--random-only" => asked.random_only = true,
            "--fronts-only" => asked.fronts_only = true,
            "--boxed" => under_test::box_areas(),
            "--differences" => {
                differences::show();
                return Ok(ExitCode::SUCCESS);
            }
            "--one" => return one(&words),
            _ => return Err(format!("'{word}' is no option")),
        }
    }
    let mut bench = Bench::new(asked.seed, asked.failures);
    if !asked.fronts_only {
        calls_and_traces(&mut bench, &asked);
        tell(&bench);
    }
    later_fronts(&mut bench, &asked);
    tell_fronts(&bench);
    Ok(verdict(&bench))
}

fn calls_and_traces(bench: &mut Bench, asked: &Asked) {
    let Asked { seed, calls, records, .. } = *asked;
    // those of the traces are their own, so that neither moves the other's
    let (mut chance, mut of_traces) = (Chance::new(seed), Chance::new(!seed));
    if !asked.random_only {
        let start = Instant::now();
        bench.set_lengths(16, 64, false);
        for form in image::FORMS {
            for history in fixed::histories(form) {
                bench.play(&history, form);
            }
        }
        sweeps::run(bench, &mut chance);
        eprintln!("differential: fixed histories and sweeps: {} calls in {:.1} s", bench.passed, start.elapsed().as_secs_f64());
        let (swept, start) = (bench.passed, Instant::now());
        traces::sweep(bench, &mut of_traces);
        eprintln!("differential: sweeps of traces: {} plays in {:.1} s", bench.passed - swept, start.elapsed().as_secs_f64());
    }
    let (swept, start) = (bench.passed, Instant::now());
    histories::run(bench, &mut chance, calls);
    let rate = (bench.passed - swept) as f64 / start.elapsed().as_secs_f64();
    eprintln!("differential: random histories, seed {seed}: {} calls, {rate:.0} a second", bench.passed - swept);
    let (before, start) = (bench.passed, Instant::now());
    traces::random(bench, &mut of_traces, records);
    let (plays, seconds) = (bench.passed - before, start.elapsed().as_secs_f64());
    eprintln!("differential: random traces of {records} records together, seed {seed}: {plays} plays in {seconds:.1} s");
}

fn later_fronts(bench: &mut Bench, asked: &Asked) {
    let parts: [(&str, Sweep, Random); 5] = [
        ("salvages", salvages::sweep, salvages::random),
        ("boards", boards::sweep, boards::random),
        ("hoists", hoists::sweep, hoists::random),
        ("sheets", sheets::sweep, sheets::random),
        ("tallies", tallies::sweep, tallies::random),
    ];
    for (k, ((name, sweep, random), count)) in (1..).zip(parts.into_iter().zip(asked.fronts)) {
        // and those of each front are its own
        let mut chance = Chance::new(asked.seed.rotate_left(16 * k) ^ u64::from(k));
        let (before, start) = (bench.passed, Instant::now());
        if !asked.random_only {
            sweep(bench, &mut chance);
        }
        let swept = bench.passed;
        random(bench, &mut chance, count);
        let (fixed, by_chance, seconds) = (swept - before, bench.passed - swept, start.elapsed().as_secs_f64());
        eprintln!("differential: {name}: {fixed} tried whole, {by_chance} random ones, seed {}, in {seconds:.1} s", asked.seed);
    }
}

type Sweep = fn(&mut Bench, &mut Chance);
type Random = fn(&mut Bench, &mut Chance, u64);

/// One call alone, as a failure printed it.
fn one(words: &[String]) -> Result<ExitCode, String> {
    let from = words.first().and_then(|word| match word.as_str() {
        "play" => Some(From::Reset),
        "play-on" => Some(From::Image),
        _ => None,
    });
    if let Some(from) = from {
        let play = text::parse_play(from, &words[1..])?;
        let (mut bench, mut stage) = (Bench::new(0, u64::MAX), plays::Stage::new());
        stage.play(&mut bench, &play);
        stage.show();
        return Ok(verdict(&bench));
    }
    if let Some(case) = text::parse_front(words) {
        let (case, mut bench, mut cases) = (case?, Bench::new(0, u64::MAX), cases::Cases::new());
        cases.make(&mut bench, &case);
        cases.show(&case);
        return Ok(verdict(&bench));
    }
    let line = text::parse(words)?;
    let mut bench = Bench::new(0, u64::MAX);
    bench.set_head(line.head);
    bench.set_image(&line.image);
    if line.null && line.image.is_empty() {
        bench.null_image();
    }
    bench.set_lengths(line.answer, line.events, line.null);
    bench.call(&line.call, line.fill);
    bench.show();
    Ok(verdict(&bench))
}

/// What the run met, so that one sees that nothing was left out.
fn tell(bench: &Bench) {
    let met = &bench.met;
    let [reset, read, write, level, poll, drain, convert] = met.kinds;
    let differences = met.differences;
    eprintln!(
        "differential: reset {reset}, read {read}, write {write}, level {level}, poll {poll}, drain {drain}, convert {convert}, \
         difference {differences}"
    );
    let [one, two, numbered] = met.forms;
    eprintln!(
        "differential: calls on form 1 {one}, on form 2 {two}, with numbers {numbered}, calls made again in another form {}",
        met.again
    );
    let numbers: Vec<String> = met.numbers.iter().enumerate().map(|(number, count)| format!("{number}: {count}")).collect();
    eprintln!("differential: numbers handed back {}", numbers.join(", "));
    eprintln!(
        "differential: vectors returned {}, events drained {}, calls on a full ring {}, calls that dropped {}, count at its stop {}, \
         masked bits in ISR {}, accesses over the window's end {}, numbers that went round {}",
        met.vectors_returned, met.events_drained, met.full_ring, met.dropping, met.at_stop, met.masked_isr, met.straddling, met.wrapping
    );
    let looks: Vec<String> =
        met.looks.iter().enumerate().filter(|(_, count)| **count > 0).map(|(n, count)| format!("{n}: {count}")).collect();
    eprintln!(
        "differential: who waits after a call, by the number handed back {}; some did {}, at most {}",
        looks.join(", "),
        met.waiting,
        met.most_waiting
    );
    let met = &met.traces;
    let plays = met.plays.map(|met| {
        let met = met.iter().enumerate().filter(|(_, count)| **count > 0).map(|(number, count)| format!("{number}: {count}"));
        met.collect::<Vec<_>>().join(", ")
    });
    let [one, two, numbered] = met.forms;
    eprintln!(
        "differential: plays by the number handed back {}; played on {}; done on form 1 {one}, on form 2 {two}, with numbers {numbered}",
        plays[0], plays[1]
    );
    eprintln!(
        "differential: records played {}, of these refused {}, at most in a trace {}, held against calls made one by one {}, as a day of several traces {}, events returned {}, \
         drained {}, dropped {}, traces whose numbers went round {}",
        met.records, met.refused, met.longest, met.one_by_one, met.in_turn, met.returned, met.drained, met.dropped, met.round
    );
}

/// The same of the later fronts.
fn tell_fronts(bench: &Bench) {
    let met = &bench.met.fronts;
    let numbers = |met: &[u64]| {
        let met = met.iter().enumerate().filter(|(_, count)| **count > 0).map(|(number, count)| format!("{number}: {count}"));
        met.collect::<Vec<_>>().join(", ")
    };
    eprintln!(
        "differential: salvages by the number handed back {}; blocks kept {}, dropped {}, good traces unchanged {}, outcomes salvaged again {}",
        numbers(&met.salvages),
        met.kept,
        met.dropped,
        met.unchanged,
        met.again
    );
    eprintln!(
        "differential: calls with a board {}; on a board that held other counts {}, on one that was right {}, loads {}, greatest count {}; events heard {}; second boards equal {}, \
         driven by {} events, at most {}, of these not seen in the order of making {}",
        numbers(&met.boards),
        met.garbage,
        met.frames,
        met.loads,
        met.greatest,
        numbers(&met.heard),
        met.seconds,
        met.events,
        met.most_events,
        met.reordered
    );
    eprintln!(
        "differential: calls under the profile {}; ends of start-up {}; plain calls between {}; vectors changed beside one in service {}, accounts held {}",
        numbers(&met.hoists),
        numbers(&met.ends),
        numbers(&met.plain),
        met.beside_service,
        met.accounts
    );
    eprintln!(
        "differential: sheets {}; records {}, greatest wait {}, withdrawn {}, open {}",
        numbers(&met.sheets),
        met.records,
        met.greatest_wait,
        met.withdrawn,
        met.open
    );
    eprintln!(
        "differential: calls on a tally {}; days held against their records as one {}, at most {} traces, open waits carried on {}",
        numbers(&met.tallies),
        met.days,
        met.most_traces,
        met.carried
    );
}

fn verdict(bench: &Bench) -> ExitCode {
    if bench.over() {
        println!("ended early: {} failed", bench.failed);
    }
    println!("{} passed, {} failed", bench.passed, bench.failed);
    if bench.failed == 0 { ExitCode::SUCCESS } else { ExitCode::FAILURE }
}
