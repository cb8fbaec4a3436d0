//! The four functions on memory that a compiler calls by their names of C, so that the archive needs them from no one.
//!
//! Each is known by that name within this object alone: the name is set to it and never made global. So a host's own memcpy neither meets these nor is
//! replaced by them.

use core::sync::atomic::{Ordering, compiler_fence};

core::arch::global_asm!(
    ".set memcpy, {copy}",
    ".set memmove, {shift}",
    ".set memset, {fill}",
    ".set memcmp, {compare}",
    ".set bcmp, {compare}",
    copy = sym copy,
    shift = sym shift,
    fill = sym fill,
    compare = sym compare,
);

const WORD: usize = size_of::<u64>();

/// A loop that copies or fills would be known as such, and be made a call of the function that it stands in. A fence in it, which is no instruction, prevents it.
fn keep_the_loop() {
    compiler_fence(Ordering::SeqCst);
}

/// # Safety
/// As of memcpy.
unsafe extern "C" fn copy(to: *mut u8, from: *const u8, count: usize) -> *mut u8 {
    let mut at = 0;
    // SAFETY: both areas have `count` bytes, and no byte from `at` on was taken yet; words may stand anywhere.
    unsafe {
        while count - at >= WORD {
            to.add(at).cast::<u64>().write_unaligned(from.add(at).cast::<u64>().read_unaligned());
            at += WORD;
            keep_the_loop();
        }
        while at < count {
            to.add(at).write(from.add(at).read());
            at += 1;
            keep_the_loop();
        }
    }
    to
}

/// # Safety
/// As of memmove.
unsafe extern "C" fn shift(to: *mut u8, from: *const u8, count: usize) -> *mut u8 {
    // SAFETY: where the target begins before the source, or behind it, no byte is written before it is read.
    if to.addr().wrapping_sub(from.addr()) >= count {
        return unsafe { copy(to, from, count) };
    }
    let mut left = count;
    while left > 0 {
        left -= 1;
        // SAFETY: both areas have `count` bytes, and the last ones go first, so that each is read before it is written.
        unsafe { to.add(left).write(from.add(left).read()) };
        keep_the_loop();
    }
    to
}

/// # Safety
/// As of memset.
unsafe extern "C" fn fill(to: *mut u8, byte: i32, count: usize) -> *mut u8 {
    let word = [byte as u8; WORD];
    let mut at = 0;
    // SAFETY: the area has `count` bytes.
    unsafe {
        while count - at >= WORD {
            to.add(at).cast::<[u8; WORD]>().write_unaligned(word);
            at += WORD;
            keep_the_loop();
        }
        while at < count {
            to.add(at).write(byte as u8);
            at += 1;
            keep_the_loop();
        }
    }
    to
}

/// # Safety
/// As of memcmp.
unsafe extern "C" fn compare(one: *const u8, other: *const u8, count: usize) -> i32 {
    for at in 0..count {
        // SAFETY: both areas have `count` bytes.
        let (a, b) = unsafe { (one.add(at).read(), other.add(at).read()) };
        if a != b {
            return i32::from(a) - i32::from(b);
        }
        keep_the_loop();
    }
    0
}
