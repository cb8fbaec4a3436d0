//! Calls that stand beside the plain ones: with a board (02, C-20), those of the hoist profile (02, C-22), and who waits, with what a host does by it. They are measured on images with numbers, as
//! a new host has them; the rows of the plain calls on such images stand beside them.

pub mod sides;
pub mod verify;

use crate::call::Call;
use crate::kinds::{self, NUMBERED, Prepared, Slot};

/// As many as fit into the first cache with their boards.
pub const BATCH: usize = 32;

/// What is asked: a call with a board, an event for a second board, a reset, read or write of the profile, the end of start-up, or who waits. And what hosts do
/// after a write: a drain, and polls of those who wait or, as they did before they could ask, of everyone; and all that both hosts ask in
/// their settle, where a look at EDGE comes first. And a load sample of the hoist: its line goes up, the guest reads ISR, and the line goes down.
#[derive(Clone, Copy, PartialEq, Eq, Debug)]
pub enum Asked {
    Board(Call),
    Event { vector: u8, flag: u8 },
    Hoist(Call),
    EndStartup,
    Waiting,
    Settle { everyone: bool },
    HostSettle,
    Sample,
}

/// What is lent: what the plain call is lent, a board and a phase.
#[derive(Clone, PartialEq, Eq)]
#[repr(C, align(64))]
pub struct Lent {
    pub slot: Slot,
    pub board: [u8; 256],
    pub phase: [u8; 1],
}

/// The lengths that are said of the areas.
#[derive(Clone, Copy, Debug)]
pub struct Lengths {
    pub image: usize,
    pub board: usize,
    pub phase: usize,
    pub answer: usize,
}

pub const WHOLE: Lengths = Lengths { image: NUMBERED, board: 256, phase: 1, answer: 16 };

pub struct Kind {
    pub name: &'static str,
    pub title: &'static str,
    pub asked: Asked,
    pub lent: Lent,
    /// The number that the call must hand back.
    pub number: u8,
}

impl Lent {
    /// With this image of form 1, in the form of that length; the board is another's.
    pub fn new(image: &Prepared, length: usize, phase: u8) -> Self {
        Lent { slot: Slot::new(&image.0, length), board: [0xbb; 256], phase: [phase] }
    }
}

fn kind(name: &'static str, title: &'static str, image: Prepared, asked: Asked) -> Kind {
    Kind { name, title, asked, lent: Lent::new(&image, NUMBERED, 0), number: 0 }
}

/// After start-up.
fn running(kind: Kind) -> Kind {
    Kind { lent: Lent { phase: [1], ..kind.lent }, ..kind }
}

pub fn all() -> Vec<Kind> {
    boards().into_iter().chain(hoists()).chain(waits()).collect()
}

fn boards() -> Vec<Kind> {
    let serving = |inputs: u64| Prepared::new().latched(inputs).in_service(inputs);
    let busy = || kinds::busy();
    let board = |name, title, image, call| kind(name, title, image, Asked::Board(call));
    let (poll, raise) = (Call::Poll { input: 9 }, Call::Level { input: 9, level: 1 });
    vec![
        board("board-reset", "board: reset", busy(), Call::Reset),
        board("board-read", "board: read Dword, MASK", busy(), kinds::read(0x020, 4)),
        board("board-clear", "board: write CLEAR, 1 event", busy(), kinds::write(0x080, 4, 0x20)),
        board("board-raise", "board: raise, vector returned", busy(), raise),
        board("board-lower", "board: lower, vector returned", busy(), Call::Level { input: 5, level: 0 }),
        board("board-poll-0", "board, 0 in service: poll, nothing", serving(0), poll),
        board("board-poll-1", "board, 1 in service: poll, nothing", serving(1), poll),
        board("board-poll-64", "board, 64 in service: poll, nothing", serving(!0), poll),
        board("board-drain-1", "board: drain of 1", busy().waiting(1), Call::Drain { place: 0 }),
        Kind { number: 3, ..board("board-refusal-3", "board: refusal 3, input (raise)", busy(), Call::Level { input: 64, level: 1 }) },
        kind("board-event", "board: an event heard", busy(), Asked::Event { vector: 0x45, flag: 1 }),
    ]
}

fn hoists() -> Vec<Kind> {
    let busy = || kinds::busy();
    let hoist = |name, title, image, call| kind(name, title, image, Asked::Hoist(call));
    let latched = Prepared::new().mask(!0).latched(0x20);
    let unmask = running(hoist("hoist-mask-1", "hoist: write MASK, 1 event", latched, kinds::write(0x020, 4, 0xffff_ffdf)));
    let vectors = kinds::write(0x210, 4, 0x7776_7574);
    // inputs 3 and 5 are in service
    let served = kinds::write(0x200, 4, 0x7776_7574);
    vec![
        running(kind("hoist-sample", "hoist: a load sample, all 7 calls", Prepared::new().mask(!0x200), Asked::Sample)),
        hoist("hoist-reset", "hoist: reset", busy(), Call::Reset),
        hoist("hoist-read", "hoist: read Dword, MASK", busy(), kinds::read(0x020, 4)),
        hoist("hoist-read-isr", "hoist: read Dword, ISR", busy(), kinds::read(0x3a0, 4)),
        unmask,
        running(hoist("hoist-clear", "hoist: write CLEAR, 1 event", busy(), kinds::write(0x080, 4, 0x20))),
        hoist("hoist-vectors", "hoist: write vectors, Dword", busy(), vectors),
        kind("hoist-end", "hoist: end of start-up", Prepared::new(), Asked::EndStartup),
        Kind { number: 14, ..hoist("hoist-14-read", "hoist: refusal 14, Qword (read)", busy(), kinds::read(0x020, 8)) },
        Kind { number: 14, ..hoist("hoist-14", "hoist: refusal 14, Byte (write)", busy(), kinds::write(0x211, 1, 0x77)) },
        Kind { number: 15, ..hoist("hoist-15-isr", "hoist: refusal 15, ISR (write)", busy(), kinds::write(0x3a0, 4, 0x8)) },
        Kind { number: 15, ..hoist("hoist-15-served", "hoist: refusal 15, in service (write)", busy(), served) },
        Kind { number: 15, ..running(hoist("hoist-15-after", "hoist: refusal 15, after start-up (write)", busy(), vectors)) },
        Kind { number: 15, ..kind("hoist-15-end", "hoist: refusal 15, no end of start-up", busy(), Asked::EndStartup) },
    ]
}

/// Who waits where nobody does, and where two do; and both ways to settle then, with a drain of one event.
fn waits() -> Vec<Kind> {
    let two = || kinds::busy().latched(0x1_0000_0228);
    let settle = |name, title, image: Prepared, everyone| kind(name, title, image.waiting(1), Asked::Settle { everyone });
    vec![
        kind("waiting-0", "who waits: nobody", kinds::busy(), Asked::Waiting),
        kind("waiting-2", "who waits: two inputs", two(), Asked::Waiting),
        settle("settle-0-all", "settle, nobody waits: drain, 64 polls", kinds::busy(), true),
        settle("settle-0", "settle, nobody waits: drain, who waits", kinds::busy(), false),
        settle("settle-2-all", "settle, two wait: drain, 64 polls", two(), true),
        settle("settle-2", "settle, two wait: drain, who waits, 2 polls", two(), false),
        kind("host-settle-0", "calls of the hosts' settle, nothing to do", kinds::busy(), Asked::HostSettle),
        kind("host-settle-1", "calls of the hosts' settle, 1 event", kinds::busy().waiting(1), Asked::HostSettle),
        kind("host-settle-2", "calls of the hosts' settle, 1 event, two wait", two().waiting(1), Asked::HostSettle),
    ]
}
