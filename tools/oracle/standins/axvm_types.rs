//! Stand-in for the crate axvm_types: a guest's physical address.

#[derive(Clone, Copy, Debug, PartialEq, Eq)]
pub struct GuestPhysAddr(usize);

impl GuestPhysAddr {
    pub fn from_usize(address: usize) -> Self {
        GuestPhysAddr(address)
    }

    pub fn as_usize(self) -> usize {
        self.0
    }
}

impl From<usize> for GuestPhysAddr {
    fn from(address: usize) -> Self {
        GuestPhysAddr(address)
    }
}
