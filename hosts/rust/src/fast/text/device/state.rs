// Made from crates/device/src/state.rt by tools/portable: do not change it here.
//! The state of the PCH-PIC and its reset, after loongarch_pch_pic.rs of axdevice 0.8.5.
//! The Rust's fields stand in four parts, which mirror the Device of the rules, so that a function takes only the part that it changes.

use core::array;

/// The registers that move, of all 64 inputs.
#[derive(Clone, Copy)]
pub struct Lines {
    pub int_mask: u64,
    pub intirr: u64,
    pub intisr: u64,
}

/// The registers that are stored and change nothing else.
#[derive(Clone, Copy)]
pub struct Stored {
    pub htmsi_en: u64,
    pub intedge: u64,
    pub int_polarity: u64,
    pub auto_ctrl0: u64,
    pub auto_ctrl1: u64,
}

/// The bytes that each input has.
#[derive(Clone, Copy)]
pub struct Tables {
    pub route_entry: [u8; PchPicState::IRQ_COUNT],
    pub htmsi_vector: [u8; PchPicState::IRQ_COUNT],
}

/// The output events that wait: output_len of them, from output_head on and round; and how many were dropped. 01 asks for plain arrays of vectors and flags. That head and length fit is a clause
/// (`WellRing`) and no invariant of the type, since the readers of `port` answer on any state.
#[derive(Clone, Copy)]
pub struct Ring {
    pub output_vectors: [u8; PchPicState::OUTPUT_QUEUE_CAPACITY],
    pub output_asserted: [bool; PchPicState::OUTPUT_QUEUE_CAPACITY],
    pub output_head: usize,
    pub output_len: usize,
    pub output_drops: u32,
}

#[derive(Clone, Copy)]
pub struct PchPicState {
    pub lines: Lines,
    pub stored: Stored,
    pub tables: Tables,
    pub ring: Ring,
}

impl PchPicState {
    /// Where the halves of the registers stand, by the Rust's names; the route and vector bytes by their first and last.
    pub const INT_ID_LO: usize = 0x000;

    pub const INT_ID_HI: usize = 0x004;

    pub const INT_MASK_LO: usize = 0x020;

    pub const INT_MASK_HI: usize = 0x024;

    pub const HTMSI_EN_LO: usize = 0x040;

    pub const HTMSI_EN_HI: usize = 0x044;

    pub const INT_EDGE_LO: usize = 0x060;

    pub const INT_EDGE_HI: usize = 0x064;

    pub const INT_CLEAR_LO: usize = 0x080;

    pub const INT_CLEAR_HI: usize = 0x084;

    pub const AUTO_CTRL0_LO: usize = 0x0c0;

    pub const AUTO_CTRL0_HI: usize = 0x0c4;

    pub const AUTO_CTRL1_LO: usize = 0x0e0;

    pub const AUTO_CTRL1_HI: usize = 0x0e4;

    pub const ROUTE_ENTRY_BASE: usize = 0x100;

    pub const ROUTE_ENTRY_LAST: usize = 0x13f;

    pub const HTMSI_VEC_BASE: usize = 0x200;

    pub const HTMSI_VEC_LAST: usize = 0x23f;

    pub const INT_IRR_LO: usize = 0x380;

    pub const INT_IRR_HI: usize = 0x384;

    pub const INT_ISR_LO: usize = 0x3a0;

    pub const INT_ISR_HI: usize = 0x3a4;

    pub const POL_LO: usize = 0x3e0;

    pub const POL_HI: usize = 0x3e4;

    /// ID as one register: INT_ID_VAL is its low half; the version and the last input are its high one.
    pub const INT_ID: u64 = 0x003f_0001_0700_0000;

    pub const IRQ_COUNT: usize = 64;

    pub const OUTPUT_QUEUE_CAPACITY: usize = 16;

    /// The state after reset.
    ///
    /// ```text
    /// ensures { Is result reset }
    /// ```
    #[inline]
    pub fn reset() -> Self {
        PchPicState {
            lines: Lines {
                int_mask: u64::MAX,
                intirr: 0,
                intisr: 0,
            },
            stored: Stored {
                htmsi_en: 0,
                intedge: 0,
                int_polarity: 0,
                auto_ctrl0: 0,
                auto_ctrl1: 0,
            },
            tables: Tables {
                route_entry: [1u8; PchPicState::IRQ_COUNT],
                htmsi_vector: array::from_fn(|irq| irq as u8),
            },
            ring: Ring {
                output_vectors: [0u8; PchPicState::OUTPUT_QUEUE_CAPACITY],
                output_asserted: [false; PchPicState::OUTPUT_QUEUE_CAPACITY],
                output_head: 0,
                output_len: 0,
                output_drops: 0,
            },
        }
    }
}

#[derive(Clone, Copy)]
pub struct PchPicOutputEvent {
    pub vector: u8,
    pub asserted: bool,
}
