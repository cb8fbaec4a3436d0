//! Replays a file of recorded answers or of recorded cases, which it reads from standard input, through the archive that it is linked with. It has no library:
//! neither C's nor Rust's std, only core. So it runs on every machine that Linux runs on, or an emulator of it. `tools/try-board` builds and runs it. It is in the
//! WebAssembly of docs/viewer.html too, and is run there as it ships.
//!
//! The last line is 'N passed, M failed'. It ends with 0 where all passed, 1 where something failed, 2 where the file is no such file.

#![no_std]
#![no_main]

mod answers;
mod areas;
mod bytes;
mod cases;
#[path = "../harness/library.rs"]
#[allow(clippy::missing_safety_doc)]
mod library;
#[cfg(not(target_arch = "wasm32"))]
#[path = "../../hosts/boundary/memory.rs"]
mod memory;
mod print;
#[cfg_attr(target_arch = "wasm32", path = "wasm.rs")]
mod system;

use areas::Areas;
use core::cell::UnsafeCell;
use print::say;

/// More than any recorded file has.
const FILE: usize = 1 << 20;

/// What is too large for a stack.
struct Room {
    file: [u8; FILE],
    areas: Areas,
}
struct Only(UnsafeCell<Room>);
// SAFETY: the program has one thread.
unsafe impl Sync for Only {}
static ROOM: Only = Only(UnsafeCell::new(Room { file: [0; FILE], areas: Areas::EMPTY }));

/// How many comparisons held, and how many did not.
pub struct Score {
    pub passed: u64,
    pub failed: u64,
}

impl Score {
    /// One comparison: of record or case `number`, and what is wrong where something is.
    pub fn count(&mut self, number: usize, outcome: Result<(), &str>) {
        match outcome {
            Ok(()) => self.passed += 1,
            Err(what) => {
                self.failed += 1;
                say!("FAILED: number ", number as u64, ": ", what, "\n");
            }
        }
    }
}

/// What `_start` calls, or who lends a file.
pub fn main() -> i32 {
    // SAFETY: this is called once, and nothing else names it.
    let Room { file, areas } = unsafe { &mut *ROOM.0.get() };
    let Some(length) = system::read_all(file) else {
        say!("the file is longer than ", FILE as u64, " bytes, or cannot be read\n");
        return 2;
    };
    let file = &file[..length];
    let mut score = Score { passed: 0, failed: 0 };
    let outcome = if file.starts_with(cases::MAGIC) {
        cases::replay(file, areas, &mut score)
    } else if file.starts_with(answers::MAGIC) {
        answers::replay(file, areas, &mut score)
    } else {
        Err("this is no file of recorded answers or cases")
    };
    if let Err(what) = outcome {
        say!(what, "\n");
        return 2;
    }
    say!(score.passed, " passed, ", score.failed, " failed\n");
    i32::from(score.failed > 0)
}
