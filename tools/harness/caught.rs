//! Panics of the Rust are answers here, caught and compared, and print nothing. Any other panic is a fault of the harness and is told.

use std::cell::Cell;
use std::panic::{AssertUnwindSafe, catch_unwind, set_hook, take_hook};

thread_local! {
    static EXPECTED: Cell<bool> = const { Cell::new(false) };
}

/// To be called once, before anything is caught.
pub fn prepare() {
    let tell = take_hook();
    set_hook(Box::new(move |panic| {
        if !EXPECTED.get() {
            tell(panic);
        }
    }));
}

/// What the work gives, or the words with which it panicked.
pub fn caught<T>(work: impl FnOnce() -> T) -> Result<T, String> {
    EXPECTED.set(true);
    let result = catch_unwind(AssertUnwindSafe(work));
    EXPECTED.set(false);
    result.map_err(|panic| match (panic.downcast_ref::<&str>(), panic.downcast_ref::<String>()) {
        (Some(text), _) => text.to_string(),
        (_, Some(text)) => text.clone(),
        _ => "no text".into(),
    })
}
