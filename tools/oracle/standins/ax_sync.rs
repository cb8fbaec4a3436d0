//! Stand-in for the crate ax_sync: the one lock that the published text takes. The oracle runs on one thread; a lock that was held while
//! the text panicked (it does, at the far end, in a debug build) is taken again as if nothing had happened.

use std::sync::{Mutex, MutexGuard, PoisonError};

pub struct SpinLock<T>(Mutex<T>);

impl<T> SpinLock<T> {
    pub fn new(value: T) -> Self {
        SpinLock(Mutex::new(value))
    }

    pub fn lock_irqsave(&self) -> MutexGuard<'_, T> {
        self.0.lock().unwrap_or_else(PoisonError::into_inner)
    }
}
