//! In the place of `system.rs` where the replay is a part of the viewer's WebAssembly, which has no system: the file is lent, and what is said is kept to be fetched.

use core::cell::UnsafeCell;

/// More than a good replay says; of a bad one the end is cut.
const SAID: usize = 1 << 14;

struct Lent {
    file: &'static [u8],
    said: [u8; SAID],
    length: usize,
}
struct Only(UnsafeCell<Lent>);
// SAFETY: a module of WebAssembly without threads has one.
unsafe impl Sync for Only {}
static LENT: Only = Only(UnsafeCell::new(Lent { file: &[], said: [0; SAID], length: 0 }));

/// Replays a file; 0 where all passed, 1 where something failed, 2 where it is no such file.
///
/// # Safety
/// `at` is good for `length` bytes until it ends.
#[unsafe(no_mangle)]
pub unsafe extern "C" fn replay(at: *const u8, length: usize) -> i32 {
    // SAFETY: the caller lends the bytes, and nothing else holds what is kept here.
    unsafe { *LENT.0.get() = Lent { file: core::slice::from_raw_parts(at, length), said: [0; SAID], length: 0 } };
    crate::main()
}

/// Where what was said stands.
#[unsafe(no_mangle)]
pub extern "C" fn replay_said() -> *const u8 {
    // SAFETY: no function of this file is within another but `main`, which is over.
    unsafe { (*LENT.0.get()).said.as_ptr() }
}

/// How long it is.
#[unsafe(no_mangle)]
pub extern "C" fn replay_said_length() -> usize {
    // SAFETY: as above.
    unsafe { (*LENT.0.get()).length }
}

/// All of the file; none where it is longer than the room for it.
pub fn read_all(room: &mut [u8]) -> Option<usize> {
    // SAFETY: it is read here alone, and at once.
    let file = unsafe { (*LENT.0.get()).file };
    room.get_mut(..file.len())?.copy_from_slice(file);
    Some(file.len())
}

/// To what is kept.
pub fn write(bytes: &[u8]) {
    // SAFETY: as above.
    let lent = unsafe { &mut *LENT.0.get() };
    for byte in bytes {
        if lent.length < SAID {
            lent.said[lent.length] = *byte;
            lent.length += 1;
        }
    }
}
