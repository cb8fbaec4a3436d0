//! One call of the later fronts made on both sides, and everything compared: the number handed back, and every byte of all that it is lent and of the edges around.

use crate::bench::Bench;
use crate::boundary::Boundary;
use crate::case::{Case, Made};
use crate::caught::caught;
use crate::expected::expected;
use crate::fronts;
use crate::lent::Block;
use crate::text;

pub struct Cases {
    pub expected: Boundary,
    /// What the last call left on the library's side, and on the expected one.
    got: Vec<Block>,
    want: Vec<Block>,
    /// All that was made, where it is to be recorded.
    pub made: Option<Vec<Made>>,
}

impl Cases {
    pub fn new() -> Self {
        Cases { expected: Boundary::new(), got: Vec::new(), want: Vec::new(), made: None }
    }

    /// Makes the call on both sides, unless the run is over. Gives the number that 02 expects where all is equal; else the failure was printed.
    pub fn make(&mut self, bench: &mut Bench, case: &Case) -> Option<u8> {
        if bench.over() {
            return None;
        }
        (self.got, self.want) = (case.lent(), case.lent());
        let Cases { expected: boundary, got, want, .. } = self;
        let number = caught(|| fronts::make(&case.front, got));
        let wanted = caught(|| expected(boundary, &case.front, want));
        let what = match (number, wanted) {
            (Ok(number), Ok(wanted)) if number == wanted && self.got == self.want => {
                bench.passed += 1;
                bench.met.fronts.meet(&case.front, wanted);
                if let Some(made) = &mut self.made {
                    let left = self.want.iter().map(|block| block.bytes().to_vec()).collect();
                    made.push(Made { case: case.clone(), number: wanted, left });
                }
                return Some(wanted);
            }
            (_, Err(words)) => {
                self.expected = Boundary::new();
                format!("the expected side panicked: {words}")
            }
            (Err(words), _) => format!("the library panicked: {words}"),
            (Ok(number), Ok(wanted)) => {
                let other = (number != wanted).then(|| format!("number {number}, expected {wanted}"));
                let differences = case.front.areas().iter().zip(self.got.iter().zip(&self.want)).filter_map(|(name, (got, want))| {
                    got.difference(want).map(|(at, got, want)| format!("{name} byte {at}: {got:02x}, expected {want:02x}"))
                });
                other.into_iter().chain(differences).collect::<Vec<_>>().join("; ")
            }
        };
        tell_failed(bench, case, what);
        None
    }

    /// What the last call left of an area.
    pub fn left(&self, area: usize) -> &[u8] {
        self.want[area].bytes()
    }

    /// Makes a call of the library alone, on areas as the last call found them: it has to leave the same number, and of its first areas the same bytes.
    pub fn beside(&self, bench: &mut Bench, case: &Case, number: u8, same: &[(usize, usize)]) -> bool {
        let mut blocks = case.lent();
        let other = caught(|| fronts::make(&case.front, &mut blocks));
        let holds = other == Ok(number) && same.iter().all(|&(one, other)| blocks[one] == self.want[other]);
        if !holds {
            bench.passed -= 1;
            tell_failed(bench, case, format!("{other:?}, expected {number}: the plain call leaves something else than the one beside it"));
        }
        holds
    }

    /// The bytes after the last call, on both sides where they differ.
    pub fn show(&self, case: &Case) {
        for (name, (got, want)) in case.front.areas().iter().zip(self.got.iter().zip(&self.want)) {
            // of long ones the first bytes
            let hex = |block: &Block| block.bytes().iter().take(1024).map(|byte| format!("{byte:02x}")).collect::<String>();
            if got != want {
                println!("the library's {name} {}", hex(got));
            }
            println!("expected {name} {}", hex(want));
        }
    }
}

/// A failure, with the words that make the call again. Areas that are too long for them go to files beside the program.
pub fn tell_failed(bench: &mut Bench, case: &Case, what: String) {
    bench.failed += 1;
    println!("FAILED: {}: {what}", text::front_name(&case.front));
    println!("  seed {}, after {} calls; the call alone:", bench.seed, bench.passed + bench.failed);
    println!("  tools/differential --one {}", text::front_line(case, bench.failed));
}
