// Made from crates/device/src/map.rt by tools/portable: do not change it here.
//! The register map, after loongarch_pch_pic.rs of axdevice 0.8.5: what stands at an offset, for whoever reads or writes there.

use super::state::PchPicState;

/// The registers that are stored and change nothing else.
#[derive(Clone, Copy)]
pub enum Plain {
    HtmsiEn,
    Edge,
    Pol,
    Auto0,
    Auto1,
}

#[derive(Clone, Copy)]
pub enum Register {
    Id,
    Mask,
    Clear,
    Irr,
    Isr,
    Plain(Plain),
}

/// What a Dword at an offset reaches: the high (true) or low half of a register, route or vector bytes, nothing.
#[derive(Clone, Copy)]
pub enum Cell {
    Half(Register, bool),
    Bytes,
    Nothing,
}

#[derive(Clone, Copy)]
pub enum Width {
    Byte,
    Word,
    Dword,
    Qword,
}

/// What stands at an offset: the one place that tells the offsets of registers apart, by the arms of the Rust's read_dword and write_dword.
///
/// ```text
/// ensures { cell_view result ≡ cell_at offset }
/// ```
#[inline]
pub fn decode(offset: usize) -> Cell {
    match offset {
        PchPicState::INT_ID_LO => Cell::Half(Register::Id, false),
        PchPicState::INT_ID_HI => Cell::Half(Register::Id, true),
        PchPicState::INT_MASK_LO => Cell::Half(Register::Mask, false),
        PchPicState::INT_MASK_HI => Cell::Half(Register::Mask, true),
        PchPicState::HTMSI_EN_LO => Cell::Half(Register::Plain(Plain::HtmsiEn), false),
        PchPicState::HTMSI_EN_HI => Cell::Half(Register::Plain(Plain::HtmsiEn), true),
        PchPicState::INT_EDGE_LO => Cell::Half(Register::Plain(Plain::Edge), false),
        PchPicState::INT_EDGE_HI => Cell::Half(Register::Plain(Plain::Edge), true),
        PchPicState::INT_CLEAR_LO => Cell::Half(Register::Clear, false),
        PchPicState::INT_CLEAR_HI => Cell::Half(Register::Clear, true),
        PchPicState::AUTO_CTRL0_LO => Cell::Half(Register::Plain(Plain::Auto0), false),
        PchPicState::AUTO_CTRL0_HI => Cell::Half(Register::Plain(Plain::Auto0), true),
        PchPicState::AUTO_CTRL1_LO => Cell::Half(Register::Plain(Plain::Auto1), false),
        PchPicState::AUTO_CTRL1_HI => Cell::Half(Register::Plain(Plain::Auto1), true),
        PchPicState::INT_IRR_LO => Cell::Half(Register::Irr, false),
        PchPicState::INT_IRR_HI => Cell::Half(Register::Irr, true),
        PchPicState::INT_ISR_LO => Cell::Half(Register::Isr, false),
        PchPicState::INT_ISR_HI => Cell::Half(Register::Isr, true),
        PchPicState::POL_LO => Cell::Half(Register::Plain(Plain::Pol), false),
        PchPicState::POL_HI => Cell::Half(Register::Plain(Plain::Pol), true),
        PchPicState::ROUTE_ENTRY_BASE..=PchPicState::ROUTE_ENTRY_LAST
        | PchPicState::HTMSI_VEC_BASE..=PchPicState::HTMSI_VEC_LAST => Cell::Bytes,
        _ => Cell::Nothing,
    }
}

/// In 0x100..0x39f a Byte meets only route and vector bytes.
///
/// ```text
/// ensures { result ≡ in_byte_area offset }
/// ```
#[inline]
pub fn in_byte_area(offset: usize) -> bool {
    (PchPicState::ROUTE_ENTRY_BASE..PchPicState::INT_ISR_LO).contains(&offset)
}

/// The offset, where a Byte access meets only route and vector bytes.
///
/// ```text
/// ensures { result ≡ byte_index offset }
/// ```
#[inline]
pub fn reg8_offset(offset: usize) -> Option<usize> {
    in_byte_area(offset).then_some(offset)
}
