//! A reader that closes its pipe ends the program, as it does a C program, and no panic tells of it.

pub fn on_closed_pipes() {
    const SIGPIPE: i32 = 13;
    const DEFAULT: usize = 0;
    unsafe extern "C" {
        fn signal(number: i32, action: usize) -> usize;
    }
    // SAFETY: the default action runs no code of the program.
    unsafe { signal(SIGPIPE, DEFAULT) };
}
