//! The root of the oracle: the published module, and stand-ins for what its `use crate::*` finds in the published crate. Nothing here has a
//! part in what the controller answers: these are the factory's and the firmware tables' types, which are not ported.
#![allow(dead_code, unused_imports)]

extern crate alloc;
#[macro_use]
extern crate log;

mod loongarch_pch_pic;

pub use axdevice_base::{AccessWidth, DeviceError};
pub use axvm_types::GuestPhysAddr;
pub use log::take_warnings;
pub use loongarch_pch_pic::*;

use alloc::{string::String, sync::Arc, vec::Vec};
use axdevice_base::{Device, InterruptControllerId, VirtualInterruptController};
use core::marker::PhantomData;

#[derive(Debug)]
pub enum DeviceManagerError {
    InvalidConfig { operation: &'static str, detail: String },
}

pub type DeviceManagerResult<T = ()> = Result<T, DeviceManagerError>;

impl From<DeviceManagerError> for DeviceError {
    fn from(_: DeviceManagerError) -> Self {
        DeviceError::Other
    }
}

pub enum ServiceCardinality {
    Single,
}

pub trait ServiceKey {
    type Service: ?Sized;
    const NAME: &'static str;
    const CARDINALITY: ServiceCardinality;
}

pub struct ResourceSlot(&'static str);

impl ResourceSlot {
    pub fn new(name: &'static str) -> DeviceManagerResult<Self> {
        Ok(ResourceSlot(name))
    }
}

pub enum ResourceRequest {
    Fixed(u64),
}

pub struct DeviceRequirements;

impl DeviceRequirements {
    pub fn new() -> Self {
        DeviceRequirements
    }

    pub fn with_mmio(self, _: ResourceSlot, _size: u64, _align: u64, _: ResourceRequest) -> DeviceManagerResult<Self> {
        Ok(self)
    }
}

pub struct FdtNodeSpec;

impl FdtNodeSpec {
    pub fn new(_name: &str) -> Self {
        FdtNodeSpec
    }

    pub fn with_compatible(self, _: &str) -> Self {
        self
    }

    pub fn with_register(self, _: ResourceSlot) -> Self {
        self
    }
}

pub enum FdtContributionSpec {
    InterruptController { controller: InterruptControllerId, node: FdtNodeSpec },
}

pub struct AcpiDeviceSpec;

impl AcpiDeviceSpec {
    pub fn table(_name: &str) -> Self {
        AcpiDeviceSpec
    }

    pub fn with_register(self, _: ResourceSlot) -> Self {
        self
    }
}

pub enum AcpiContributionSpec {
    InterruptController { controller: InterruptControllerId, device: AcpiDeviceSpec },
}

pub struct DeviceFirmwareSpec;

impl DeviceFirmwareSpec {
    pub fn interfaces(_: Option<Vec<FdtContributionSpec>>, _: Option<Vec<AcpiContributionSpec>>) -> Self {
        DeviceFirmwareSpec
    }
}

pub struct DeviceBuildContext<'a>((u64, u64), PhantomData<&'a ()>);

impl DeviceBuildContext<'_> {
    pub fn new(base: u64, length: u64) -> Self {
        DeviceBuildContext((base, length), PhantomData)
    }

    pub fn mmio(&self, _: &ResourceSlot) -> DeviceManagerResult<(u64, u64)> {
        Ok(self.0)
    }
}

pub struct ControllerRegistration;

impl ControllerRegistration {
    pub fn new(_: InterruptControllerId, _: Arc<dyn VirtualInterruptController>) -> Self {
        ControllerRegistration
    }
}

pub enum DeviceRegistration {
    Device(Arc<dyn Device>),
    InterruptController(ControllerRegistration),
}

/// What a factory built: of it only the device on the bus is kept.
pub struct DeviceBundle(DeviceRegistration);

impl DeviceBundle {
    pub fn from_registration(registration: DeviceRegistration) -> Self {
        DeviceBundle(registration)
    }

    pub fn with_service<K: ServiceKey>(self, _: Arc<K::Service>) -> DeviceManagerResult<Self> {
        Ok(self)
    }

    pub fn push(&mut self, _: DeviceRegistration) {}

    /// The device that was registered first.
    pub fn device(self) -> Arc<dyn Device> {
        match self.0 {
            DeviceRegistration::Device(device) => device,
            DeviceRegistration::InterruptController(_) => unreachable!("a factory registers its device first"),
        }
    }
}

pub trait DeviceModel {
    fn requirements(&self) -> DeviceManagerResult<DeviceRequirements>;
    fn firmware(&self) -> DeviceFirmwareSpec;
    fn build(&self, context: &mut DeviceBuildContext<'_>) -> DeviceManagerResult<DeviceBundle>;
}
