//! Stand-in for the crate axdevice_base: what the published text takes from it. The controller itself needs the widths, the error and the
//! result; the rest is there so that the text's factory and bus front, which are not ported, compile unchanged.

#[derive(Clone, Copy, Debug, PartialEq, Eq)]
pub enum AccessWidth {
    Byte,
    Word,
    Dword,
    Qword,
}

#[derive(Clone, Copy, Debug, PartialEq, Eq)]
pub enum DeviceError {
    OutOfRange { addr: u64 },
    Other,
}

pub type DeviceResult<T = ()> = Result<T, DeviceError>;

// ---- from here on: for the parts of the text that are not ported

#[derive(Clone, Copy, Debug, PartialEq, Eq)]
pub enum BusKind {
    Mmio,
    Other,
}

#[derive(Clone, Debug)]
pub enum Resource {
    MmioRange { base: u64, size: u64 },
}

pub struct DeviceAccess {
    bus: BusKind,
    address: u64,
    width: AccessWidth,
}

impl DeviceAccess {
    pub fn new(bus: BusKind, address: u64, width: AccessWidth) -> Self {
        DeviceAccess { bus, address, width }
    }

    pub fn bus(&self) -> BusKind {
        self.bus
    }

    pub fn address(&self) -> u64 {
        self.address
    }

    pub fn width(&self) -> AccessWidth {
        self.width
    }
}

pub trait DeviceContext {}

pub trait Device: Send + Sync {
    fn name(&self) -> &str;
    fn resources(&self) -> &[Resource];
    fn read(&self, access: &DeviceAccess, context: &mut dyn DeviceContext) -> DeviceResult<u64>;
    fn write(&self, access: &DeviceAccess, value: u64, context: &mut dyn DeviceContext) -> DeviceResult;
}

#[derive(Clone, Copy, Debug, PartialEq, Eq)]
pub struct InterruptControllerId(u32);

impl InterruptControllerId {
    pub const fn new(id: u32) -> Self {
        InterruptControllerId(id)
    }
}

pub trait VirtualInterruptController: Send + Sync {
    fn id(&self) -> InterruptControllerId;
}
