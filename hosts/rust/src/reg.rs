//! The register offsets.
//!
//! Each is that of the low half, inputs 0 to 31; the high half, inputs 32 to 63, is [`HIGH`] above. [`ROUTES`] and [`VECTORS`]
//! have a byte for each input.

/// Identity: 0x0700_0000, high half 0x003f_0001. Writes are ignored.
pub const ID: u64 = 0x000;
/// A 1 masks its input; all ones after reset. A write can make events.
pub const MASK: u64 = 0x020;
/// Stored, and changes nothing else.
pub const HTMSI_EN: u64 = 0x040;
/// Stored, and changes nothing else.
pub const EDGE: u64 = 0x060;
/// A 1 takes its input's latch and service away, until it is raised again. A write can make events; reads 0.
pub const CLEAR: u64 = 0x080;
/// Stored, and changes nothing else.
pub const AUTO0: u64 = 0x0c0;
/// Stored, and changes nothing else.
pub const AUTO1: u64 = 0x0e0;
/// The route bytes, 1 after reset. Stored, and change nothing else.
pub const ROUTES: u64 = 0x100;
/// The vector bytes; that of input n is n after reset.
pub const VECTORS: u64 = 0x200;
/// The latched inputs. Writes are ignored, and bytes and words read 0.
pub const IRR: u64 = 0x380;
/// The inputs in service; reads without the masked ones. A write replaces it and makes no event.
pub const ISR: u64 = 0x3a0;
/// Stored, and changes nothing else.
pub const POL: u64 = 0x3e0;

/// From a low half to its high half.
pub const HIGH: u64 = 4;
/// The bytes that the registers take.
pub const WINDOW_LEN: u64 = 0x400;
