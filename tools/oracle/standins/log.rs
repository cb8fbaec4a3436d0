//! Stand-in for the crate log. The published text warns in one place only, where the ring is full and an event is dropped, so that warnings
//! are counted and not printed: that count is the oracle's drop count. Traces type-check and do nothing.

use std::cell::Cell;

thread_local! {
    static WARNINGS: Cell<u64> = const { Cell::new(0) };
}

pub fn count_warning() {
    WARNINGS.set(WARNINGS.get() + 1);
}

/// How many warnings there were since this was last asked.
pub fn take_warnings() -> u64 {
    WARNINGS.replace(0)
}

#[macro_export]
macro_rules! warn {
    ($($words:tt)*) => {{
        let _ = format_args!($($words)*);
        $crate::count_warning();
    }};
}

#[macro_export]
macro_rules! trace {
    ($($words:tt)*) => {{
        let _ = format_args!($($words)*);
    }};
}
