//! A LoongArch PCH-PIC interrupt controller for hypervisors.
//!
//! [`PchPic`] is a device model that knows nothing of buses, locks and logs. The guest's accesses go to [`read`](PchPic::read) and
//! [`write`](PchPic::write), the lines of other devices to [`set_level`](PchPic::set_level), and what comes out is [`Event`]s: vectors
//! to assert or deassert at the interrupt controller above. It allocates nothing, has no dependencies and no `unsafe`, and is `no_std` without its
//! feature `std`.
//!
//! ```
//! use pch_pic::{reg, Event, PchPic, Width, Window};
//!
//! let window = Window::at(0x1000_0000);
//! let mut pic = PchPic::new();
//! // The guest unmasks input 5.
//! pic.write(window, window.base + reg::MASK, Width::Dword, 0xffff_ffdf)?;
//! // Its line goes up and down: each time there is something to pass on.
//! assert_eq!(pic.set_level(5, true)?, Some(Event { vector: 5, asserted: true, number: 0 }));
//! assert_eq!(pic.set_level(5, false)?, Some(Event { vector: 5, asserted: false, number: 1 }));
//! # Ok::<(), pch_pic::Error>(())
//! ```
//!
//! # What a host must do
//!
//! Events alone do not tell which vectors are on. They wait in the device, [`EVENTS`] at most, and one more is dropped and
//! [counted](PchPic::drops). Inputs may share a vector. An unmask announces only the lowest input that waits, and a write to CLEAR takes the
//! latch of a line though it is still high. A guest that changes a vector in service gets a deassert of a vector that was never asserted,
//! and a write to ISR makes no event at all. [`Wires`] does what is to be done about all of it: [`Wires::settle`] after every write of the
//! guest, [`Wires::line`] for every line that moves, and [`Wires::resume`] after a load. To settle is also to poll each input that waits, and that one
//! sweep wakes every input that is latched and unmasked. And the device knows levels alone: of the inputs that the guest has in EDGE,
//! [`Wires`] makes [edges](Wires#edges).
//!
//! ```
//! use pch_pic::{reg, PchPic, Width, Window, Wires};
//!
//! let (mut pic, mut wires, window) = (PchPic::new(), Wires::new(), Window::at(0));
//! let mut told = Vec::new();
//! pic.write(window, reg::MASK, Width::Dword, 0)?;
//! wires.settle(&mut pic, |change| told.push(change.to_string()));
//! wires.line(&mut pic, 0, true, |change| told.push(change.to_string()))?;
//! // The guest changes the vector while its input is in service.
//! pic.write(window, reg::VECTORS, Width::Byte, 0x77)?;
//! wires.settle(&mut pic, |change| told.push(change.to_string()));
//! assert_eq!(told, ["assert vector 0x00", "deassert vector 0x00", "assert vector 0x77"]);
//! # Ok::<(), pch_pic::Error>(())
//! ```
//!
//! # Which vectors are on
//!
//! Each device keeps a [`Board`]: for each vector how many inputs in service carry it, right after every call and every load. [`Wires`] passes on what it says. A
//! recorder can keep a second one from the events alone.
//!
//! # The order of events
//!
//! A returned event is there at once, one that waits only when it is drained. Each has the [number](Event::number) that it got when it was made, and
//! [`Event::sort`] puts them in that order again.
//!
//! # A hoist guest
//!
//! A guest whose driver uses aligned Dwords alone, and leaves ISR and, once it runs, the vectors alone, is held to that by [`Hoist`]: what it lets through
//! is the same device in every byte, and nothing that the guest does can then part a vector's asserts from its deasserts.
//!
//! # Written once
//!
//! [`GuestDevice`] is a device of any kind as its guest and its host reach it: plain, under the hoist profile, and either of them recorded. A bus or a guest loop over
//! it serves all of them.
//!
//! # A day recorded and played back
//!
//! A [`Trace`] has the calls of a day from a reset on, and [playing](Trace::play) it gives every byte again. [`Recorded`] is a device whose calls are recorded
//! as they are made, and [`Recorder`] takes calls one by one. [`DayRecorder`] goes on with the next trace when one is full: a day of any length is a folder of them.
//! Of a damaged trace [`holes::lead`] keeps what comes before the first hole, which is the day;
//! [`Trace::salvage`] keeps every whole block, and what comes behind a hole does not play as the day did. [`Trace::sheet`] counts the day in ten exact numbers for
//! each input, and [`Trace::history`] tells where in the day they come from. A [`Tally`] counts a day that is longer than one trace, and [`day`] reads such a day from its folder. They are there with
//! feature `std`.
//!
//! # What does the work
//!
//! The device is written in Rattle, a Rust with contracts, and proved: every call leaves exactly the bytes that the rules give, on any input. This crate
//! has that text as Rust, and adds types; [`calls`] are the calls themselves. [`built()`] tells what does the work:
//!
//! - **By default** rustc compiles the text, for every 64-bit target and for WebAssembly. Beside the proof this takes rustc, and the rules by which the text became Rust.
//! - **Feature `archive`** links `libpch_pic.a`, the machine code of the proved text, on x86-64 Linux in user space. Everything else stays the same. `unsafe`
//!   is then in one file, `src/archive.rs`.
//!
//! What is not one of the calls, as [`Wires`] and [`Recorder`], is plain Rust: tested, and not proved. `docs/ASSUMPTIONS.md` of the repository has what each
//! takes, side by side.
//!
//! # Features
//!
//! - `std`, on by default: files, recorders and traces.
//! - `archive`: the proved machine code does the work.
//! - `plain`: the proved text line by line, without the steps that make it quick. It answers the same, in more than twice the time; it is there to be tested.
//!
//! # Panics
//!
//! No call of the crate panics, whatever the bytes, numbers and lengths are; only memory can run out where a [`Trace`] is made.
//! `tests/hostile` tries it.

#![cfg_attr(not(any(feature = "std", test)), no_std)]
#![cfg_attr(not(feature = "archive"), forbid(unsafe_code))]
#![cfg_attr(feature = "archive", deny(unsafe_code))]
// The pages speak of what is there with std.
#![cfg_attr(not(feature = "std"), allow(rustdoc::broken_intra_doc_links))]

// An offset in the guest's window has 64 bits, and the proved text keeps it as a usize: a shorter one would cut it, and an access far behind the registers
// would meet one of them. In WebAssembly, where it has 32 bits, such an access is moved to where no register is either.
#[cfg(not(any(target_pointer_width = "64", target_arch = "wasm32")))]
compile_error!("pch-pic serves 64-bit targets and WebAssembly: the proved text keeps an offset of 64 bits as a usize");

mod access;
#[cfg(feature = "archive")]
#[allow(unsafe_code, clippy::too_many_arguments)]
mod archive;
pub mod axdevice;
mod board;
mod built;
pub mod calls;
mod contents;
#[cfg(feature = "std")]
mod cut;
#[cfg(feature = "std")]
pub mod day;
#[cfg(feature = "std")]
pub mod day_recorder;
mod device;
mod error;
mod event;
#[cfg(not(any(feature = "archive", feature = "plain")))]
#[rustfmt::skip]
mod fast;
#[cfg(feature = "std")]
pub mod file;
mod form;
mod guest;
#[cfg(feature = "std")]
pub mod history;
mod hoist;
#[cfg(feature = "std")]
pub mod holes;
#[cfg(feature = "std")]
pub mod list;
mod outcome;
#[cfg(all(feature = "plain", not(feature = "archive")))]
#[rustfmt::skip]
mod proved;
#[cfg(feature = "std")]
mod recorded;
#[cfg(feature = "std")]
mod recorder;
pub mod reg;
#[cfg(feature = "std")]
mod replace;
#[cfg(feature = "std")]
pub mod sheet;
#[cfg(feature = "std")]
pub mod tally;
#[cfg(feature = "std")]
pub mod trace;
mod wires;

pub use access::{Width, Window};
pub use board::Board;
pub use built::{built, linked_version, version, Built};
#[cfg(feature = "std")]
pub use day_recorder::DayRecorder;
pub use device::PchPic;
pub use error::Error;
pub use event::{difference, Event, Events, Returned};
pub use form::{Form, Image};
pub use guest::GuestDevice;
pub use hoist::{Hoist, Phase};
#[cfg(feature = "std")]
pub use recorded::{Recordable, Recorded};
#[cfg(feature = "std")]
pub use recorder::{monotonic, RecordError, Recorder, Recording};
#[cfg(feature = "std")]
pub use sheet::Sheet;
#[cfg(feature = "std")]
pub use tally::Tally;
#[cfg(feature = "std")]
pub use trace::{Dropped, Played, Record, Salvaged, Step, Trace};
pub use wires::{Change, Device, Wires};

/// The bytes of a saved image of [`Form::One`].
pub const IMAGE_LEN: usize = 259;

/// The bytes of a saved image of [`Form::Two`].
pub const IMAGE2_LEN: usize = 251;

/// The bytes of a saved image of [`Form::Numbered`], the longest.
pub const IMAGE2_NUMBERED_LEN: usize = 290;

/// The input lines, 0 to 63.
pub const INPUTS: usize = 64;

/// The vectors of the controller above, and so the counts of a [`Board`].
pub const VECTORS: usize = 256;

/// How many events wait at most.
pub const EVENTS: usize = 16;

/// The bytes of an event as [`PchPic::drain_bytes`] writes it.
pub const EVENT_LEN: usize = 4;

/// The bytes that have room for every trace.
pub const TRACE_MAX: usize = 65_536;

/// The bytes of a record of a trace.
pub const RECORD_LEN: usize = 16;

/// The records of a trace at most.
pub const RECORDS_MAX: usize = 4_000;

/// The blocks of a trace at most.
pub const BLOCKS_MAX: usize = 64;

/// The bytes of an entry of the list of dropped blocks, and of every such list at most.
#[cfg(feature = "std")]
pub(crate) const DROPPED_LEN: usize = 4;
#[cfg(feature = "std")]
pub(crate) const DROPPED_MAX: usize = DROPPED_LEN * (BLOCKS_MAX - 1);

/// The bytes of the sheet of a day.
pub const SHEET_LEN: usize = 2_600;

/// The bytes of a tally, which carries a sheet over several traces.
pub const TALLY_LEN: usize = 5_200;

/// The bytes of the sheet of a tally.
pub const LONG_SHEET_LEN: usize = 5_200;

/// The window that a trace is played in.
#[cfg(feature = "std")]
const PLAYED: Window = Window::new(0, 0x1_0000);

/// The bytes that have room for all events that can wait.
pub const DRAIN_ROOM: usize = EVENTS * EVENT_LEN;
