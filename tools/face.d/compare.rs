//! Histories, made on both sides call by call: every outcome has to be the same, and the drop count after each.

use crate::call::{Call, Gave};
use crate::caught::caught;
use crate::chance::Chance;
use crate::choose::{Habit, closing};
use crate::expected::{Expected, Window};
use crate::module::{Module, Refused};

/// What a run was about: a run in which nothing happened would show nothing.
#[derive(Default)]
pub struct Tally {
    pub calls: u64,
    pub returned: u64,
    pub handed: u64,
    pub refused: u64,
    pub dropped: u64,
}

impl Tally {
    fn count(&mut self, gave: &[Gave]) {
        self.calls += 1;
        for one in gave {
            match one {
                Gave::Vector(Some(_)) => self.returned += 1,
                Gave::Taken(Some(_)) | Gave::Handed(_) => self.handed += 1,
                Gave::Read(Err(Refused::OutOfRange(_))) | Gave::Write(Err(Refused::OutOfRange(_))) => self.refused += 1,
                _ => {}
            }
        }
    }
}

/// The first difference, in words.
pub struct Difference {
    pub calls: u64,
    pub words: String,
}

/// One side's devices, each in a window.
pub struct Sides<P, M> {
    pub published: fn(usize, usize) -> P,
    pub under_test: M,
    pub whole: bool,
}

impl<P: Module, M> Sides<P, M> {
    /// Histories until so many calls were compared, or one differs.
    pub fn run<N: Module>(&self, seed: u64, calls: u64) -> Result<Tally, Difference>
    where
        M: Fn(usize, usize) -> N,
    {
        let (mut chance, mut tally) = (Chance::new(seed), Tally::default());
        while tally.calls < calls {
            let habit = Habit::new(&mut chance);
            let window = Window { base: habit.base, size: habit.size, whole: self.whole };
            let expected = Expected { published: (self.published)(habit.base, habit.size), window };
            let pair = (expected, (self.under_test)(habit.base, habit.size));
            for _ in 0..chance.between(1, 4_000) {
                same(&habit.call(&mut chance), &pair, &mut tally)?;
            }
            for call in closing(habit.base) {
                same(&call, &pair, &mut tally)?;
            }
            tally.dropped += pair.0.drops();
        }
        Ok(tally)
    }
}

/// Makes a call on both sides.
fn same<P: Module, N: Module>(call: &Call, (expected, under_test): &(Expected<P>, N), tally: &mut Tally) -> Result<(), Difference> {
    let mut wanted = Vec::new();
    call.make(expected, &mut wanted);
    let given = caught(|| {
        let mut gave = Vec::new();
        call.make(under_test, &mut gave);
        gave
    });
    tally.count(&wanted);
    let drops = (expected.drops(), under_test.drops());
    if given.as_ref() == Ok(&wanted) && drops.0 == drops.1 {
        return Ok(());
    }
    let words = format!(
        "in {:x?}: {call:x?}\n  published: {wanted:x?}, {} dropped\n  here: {given:x?}, {} dropped",
        expected.window, drops.0, drops.1
    );
    Err(Difference { calls: tally.calls, words })
}
