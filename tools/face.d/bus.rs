//! What both modules, the published and the swapped, are driven with: the stand-ins' types.

use crate::module::Refused;
use axdevice_base::{DeviceContext, DeviceError, InterruptControllerId, VirtualInterruptController};
use pch_pic::axdevice::AccessWidth;

pub fn theirs(width: AccessWidth) -> axdevice_base::AccessWidth {
    match width {
        AccessWidth::Byte => axdevice_base::AccessWidth::Byte,
        AccessWidth::Word => axdevice_base::AccessWidth::Word,
        AccessWidth::Dword => axdevice_base::AccessWidth::Dword,
        AccessWidth::Qword => axdevice_base::AccessWidth::Qword,
    }
}

pub fn refused(error: DeviceError) -> Refused {
    match error {
        DeviceError::OutOfRange { addr } => Refused::OutOfRange(addr),
        DeviceError::Other => Refused::Otherwise,
    }
}

pub struct Context;

impl DeviceContext for Context {}

pub struct Controller;

impl VirtualInterruptController for Controller {
    fn id(&self) -> InterruptControllerId {
        InterruptControllerId::new(0)
    }
}

/// What a bus front says of itself, and what it answers on another bus than memory.
#[derive(Debug, PartialEq, Eq)]
pub struct Told {
    pub name: String,
    pub resources: String,
    pub elsewhere: [Option<Refused>; 2],
}
