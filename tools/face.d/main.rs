//! Holds the published module's face against the published module, call by call. Words: a seed, and how many calls for each of the long runs.

mod broken;
mod bus;
mod call;
#[path = "../harness/caught.rs"]
mod caught;
#[path = "../harness/chance.rs"]
mod chance;
mod choose;
mod compare;
mod expected;
mod module;
#[path = "../harness/quiet.rs"]
mod quiet;

use broken::{Broken, FAULTS};
use chance::Chance;
use compare::{Difference, Sides, Tally};
use module::{HostLock, Module};
use pch_pic::PchPic;
use pch_pic::axdevice::{AccessWidth, LoongArchPchPic};
use std::cell::RefCell;
use std::process::exit;
use std::sync::Mutex;

/// The published module, byte for byte.
mod published {
    use oracle as text;
    include!("side.rs");
}

/// The published module after the swap of docs/SWAP.md.
mod swapped_module {
    use swapped as text;
    include!("side.rs");
}

#[derive(Default)]
struct Score {
    passed: u64,
    failed: u64,
}

impl Score {
    /// A run that has to find nothing, and in which enough has to happen.
    fn agrees(&mut self, what: &str, run: Result<Tally, Difference>) {
        match run {
            Ok(tally) if [tally.returned, tally.handed, tally.refused, tally.dropped].iter().all(|&count| count > 0) => {
                self.passed += tally.calls;
                let Tally { calls, returned, handed, refused, dropped } = tally;
                println!(
                    "{what}: {calls} calls agree; {returned} vectors returned, {handed} events handed over, {dropped} dropped, {refused} accesses refused"
                );
            }
            Ok(tally) => self.fails(what, &format!("too little happened in {} calls", tally.calls)),
            Err(difference) => {
                self.passed += difference.calls - 1;
                self.fails(what, &format!("call {}, {}", difference.calls, difference.words));
            }
        }
    }

    /// A run of a broken face, which has to find it.
    fn caught(&mut self, what: &str, run: Result<Tally, Difference>) {
        match run {
            Err(difference) => {
                self.passed += 1;
                println!("broken, {what}: caught at call {}", difference.calls);
            }
            Ok(tally) => self.fails(what, &format!("the broken face was not caught in {} calls", tally.calls)),
        }
    }

    fn fails(&mut self, what: &str, words: &str) {
        self.failed += 1;
        println!("FAILED: {what}: {words}");
    }
}

fn run<P: Module, N: Module>(
    published: fn(usize, usize) -> P,
    under_test: impl Fn(usize, usize) -> N,
    (seed, calls): (u64, u64),
) -> Result<Tally, Difference> {
    Sides { published, under_test, whole: false }.run(seed, calls)
}

fn face<L: pch_pic::axdevice::Lock>(base: usize, size: usize) -> LoongArchPchPic<L> {
    LoongArchPchPic::new(base.into(), size)
}

/// What the bus fronts say of themselves, in every window that is tried.
fn fronts_tell(score: &mut Score, seed: u64) {
    let mut chance = Chance::new(seed);
    for _ in 0..100 {
        let (base, size) = choose::window(&mut chance);
        let (wanted, given) = (published::Front::new(base, size).told(), swapped_module::Front::new(base, size).told());
        if wanted == given {
            score.passed += 1;
        } else {
            score.fails("the swapped module's front", &format!("published: {wanted:?}\n  here: {given:?}"));
        }
    }
}

/// The far end, where the published text panics or goes round: the face has an answer, and it is told beside the published one.
fn far_end(score: &mut Score) {
    for addr in [usize::MAX - 3, usize::MAX - 2, usize::MAX - 1] {
        let published = match caught::caught(|| published::Direct::new(0, usize::MAX).read_register(addr, AccessWidth::Qword)) {
            Ok(Ok(value)) => format!("{value:#x}"),
            Ok(Err(refused)) => format!("{refused:x?}"),
            Err(words) => format!("panics, '{words}'"),
        };
        let pic = face::<RefCell<PchPic>>(0, usize::MAX);
        let here =
            (Module::read_register(&pic, addr, AccessWidth::Qword), Module::write_register(&pic, addr, AccessWidth::Qword, usize::MAX));
        if here == (Ok(0), Ok(())) && pic.snapshot() == PchPic::new() {
            score.passed += 1;
            println!("a Qword at {addr:#x}, base 0: published: {published}; the face: 0x0");
        } else {
            score.fails("a Qword at the far end", &format!("{here:x?}"));
        }
    }
}

fn number(word: Option<String>) -> u64 {
    word.and_then(|word| word.parse().ok()).unwrap_or_else(|| {
        eprintln!("face: it wants a seed and a number of calls");
        exit(2);
    })
}

fn main() {
    quiet::on_closed_pipes();
    caught::prepare();
    let mut words = std::env::args().skip(1);
    let (seed, calls) = (number(words.next()), number(words.next()));
    let (long, short) = ((seed, calls), (seed + 1, calls.div_ceil(4)));
    let mut score = Score::default();
    score.agrees("the face, for one thread", run(published::Direct::new, face::<RefCell<PchPic>>, long));
    score.agrees("the face, over std's lock", run(published::Direct::new, face::<Mutex<PchPic>>, short));
    score.agrees("the face, over a host's own lock", run(published::Direct::new, face::<HostLock>, short));
    let strict = |base: usize, size| LoongArchPchPic::<RefCell<_>>::wholly_inside(base.into(), size);
    score.agrees(
        "the face, accesses wholly inside",
        Sides { published: published::Direct::new, under_test: strict, whole: true }.run(seed, short.1),
    );
    score.agrees("the module after the swap", run(published::Direct::new, swapped_module::Direct::new, long));
    score.agrees("its bus front, with a sink", run(published::Front::new, swapped_module::Front::new, short));
    fronts_tell(&mut score, seed);
    far_end(&mut score);
    for fault in FAULTS {
        score.caught(
            &format!("{fault:?}"),
            run(published::Direct::new, |base, size| Broken::new(base, size, fault), (seed, calls.max(100_000))),
        );
    }
    println!("{} passed, {} failed", score.passed, score.failed);
    exit(i32::from(score.failed > 0));
}
