//! Instructions per call, counted on this same program: by valgrind's callgrind or, on a machine that runs it on QEMU, by a plugin (count.c). Only the
//! timed loops are counted, of each kind over one slot and over a whole batch, of a play or a salvage once and twice, so that in the difference nothing but the calls is
//! left. The figures come out the same each time.

use crate::beside;
use crate::measure::{self, BATCH, Bench};
use crate::plays::Lent;
use crate::{Asked, Chosen};
use std::hint::black_box;
use std::path::Path;
use std::process::{Command, Stdio};

/// Callgrind writes what it has collected, and begins anew, each time this returns.
#[unsafe(no_mangle)]
#[inline(never)]
pub fn bench_mark() {
    black_box(());
}

/// Tells the plugin where a count begins or ends: a system call that takes no words, with words that it knows. To anyone else it is nothing.
pub fn sign(what: u64) {
    const GETPID: i64 = 39;
    const SIGN: u64 = 0x636e_7431;
    unsafe extern "C" {
        fn syscall(number: i64, ...) -> i64;
    }
    // SAFETY: getpid looks at no memory.
    unsafe { syscall(GETPID, SIGN, what) };
}
pub const BEGIN: u64 = 1;
pub const END: u64 = 2;

/// What is run under the counter: the runs of one side after another, a mark after each.
pub fn counted(asked: &Asked, chosen: &Chosen) {
    let mut bench = Bench::new();
    for &side in &asked.sides {
        for kind in &chosen.kinds {
            for slots in [1, BATCH] {
                bench.once(side, kind, slots);
                bench_mark();
            }
        }
        for kind in &chosen.besides {
            for lents in [1, beside::BATCH] {
                bench.beside_once(side, kind, lents);
                bench_mark();
            }
        }
        for (length, calls) in chosen.days() {
            for calls in [&calls[..1], calls] {
                bench.day_once(side, calls, length);
                bench_mark();
            }
        }
        for play in &chosen.plays {
            for times in [1, 2] {
                measure::play_counted(side, play, &mut Lent::of(play), times);
                bench_mark();
            }
        }
    }
}

/// Instructions per call: for each kind, each beside them, the day on each of its images, and each play or salvage and each of its records, those of each side.
pub fn per_call(asked: &Asked, chosen: &Chosen) -> Result<Vec<Vec<f64>>, String> {
    let folder = std::env::temp_dir().join(format!("bench-{}", std::process::id()));
    std::fs::create_dir_all(&folder).map_err(|error| error.to_string())?;
    let totals = run(asked, &folder);
    let _ = std::fs::remove_dir_all(&folder);
    let totals = totals?;
    // How many calls are in the difference of a row's two counts.
    let kinds = chosen.kinds.iter().map(|_| BATCH - 1);
    let besides = chosen.besides.iter().map(|_| beside::BATCH - 1);
    let days = chosen.days().map(|(_, calls)| calls.len() - 1);
    let calls: Vec<usize> = kinds.chain(besides).chain(days).chain(chosen.plays.iter().map(|play| play.calls.len())).collect();
    if totals.len() != 2 * calls.len() * asked.sides.len() {
        return Err(format!("there are {} totals, expected {}", totals.len(), 2 * calls.len() * asked.sides.len()));
    }
    let of = |side: usize, row: usize| {
        let at = 2 * (side * calls.len() + row);
        (totals[at + 1] - totals[at]) as f64 / calls[row] as f64
    };
    Ok((0..calls.len()).map(|row| (0..asked.sides.len()).map(|side| of(side, row)).collect()).collect())
}

/// What counts, by name.
pub fn counter() -> &'static str {
    if std::env::var_os("BENCH_COUNTER").is_some() { "QEMU" } else { "callgrind" }
}

fn run(asked: &Asked, folder: &Path) -> Result<Vec<u64>, String> {
    let out = folder.join("out");
    let program = std::env::current_exe().map_err(|error| error.to_string())?;
    let sides = asked.sides.iter().map(char::to_string).collect::<Vec<_>>().join(",");
    let words = ["--counted", "--side", &sides, "--kind", &asked.kinds.join(","), "--day", &asked.day.to_string()];
    let mut command = match std::env::var_os("BENCH_COUNTER") {
        Some(counter) => {
            let mut command = Command::new(counter);
            command.arg(&out);
            command
        }
        None => {
            let mut command = Command::new("valgrind");
            command.args(["--tool=callgrind", "--quiet", "--toggle-collect=bench_timed_*", "--dump-after=bench_mark"]);
            command.arg(format!("--callgrind-out-file={}", out.display()));
            command
        }
    };
    let status = command.arg(program).args(words).stdout(Stdio::null()).status();
    let status = status.map_err(|error| format!("{} cannot be run: {error}", counter()))?;
    if !status.success() {
        return Err(format!("{} ended with {status}", counter()));
    }
    // The plugin writes a file with a line for each, callgrind a file for each; what is left at the end some of its versions write without a number.
    if std::env::var_os("BENCH_COUNTER").is_some() {
        let text = std::fs::read_to_string(&out).map_err(|error| error.to_string())?;
        let totals: Result<Vec<u64>, _> = text.lines().map(str::parse).collect();
        return totals.map_err(|_| "the plugin wrote something else than numbers".into());
    }
    let mut totals = Vec::new();
    while let Ok(text) = std::fs::read_to_string(folder.join(format!("out.{}", totals.len() + 1))) {
        let total = text.lines().find_map(|line| line.strip_prefix("totals: ")?.trim().parse().ok());
        totals.push(total.ok_or("a dump of callgrind has no totals")?);
    }
    Ok(totals)
}
