//! The program's first instruction, and the three calls of Linux that it makes.

use core::arch::{asm, global_asm};
use core::panic::PanicInfo;

// Linux starts a program with the stack pointer at a multiple of 16; a function of x86-64 expects it so before its return address was put there.
#[cfg(target_arch = "x86_64")]
global_asm!(".globl _start", "_start:", "call {begin}", begin = sym begin);
#[cfg(target_arch = "loongarch64")]
global_asm!(".globl _start", "_start:", "bl {begin}", begin = sym begin);
#[cfg(target_arch = "aarch64")]
global_asm!(".globl _start", "_start:", "bl {begin}", begin = sym begin);
// The linker makes short accesses relative to gp where it is set.
#[cfg(target_arch = "riscv64")]
global_asm!(
    ".globl _start",
    "_start:",
    ".option push",
    ".option norelax",
    "la gp, __global_pointer$",
    ".option pop",
    "call {begin}",
    begin = sym begin
);

// Linux numbers its calls in one way on x86-64, and in one on all others here.
const OLD: bool = cfg!(target_arch = "x86_64");
const READ: usize = if OLD { 0 } else { 63 };
const WRITE: usize = if OLD { 1 } else { 64 };
const EXIT: usize = if OLD { 60 } else { 93 };

extern "C" fn begin() -> ! {
    exit(crate::main())
}

/// A call of Linux with three words.
fn call(number: usize, words: [usize; 3]) -> isize {
    let [one, two, three] = words;
    let result: isize;
    // SAFETY: of the calls made here only a read writes memory, and that into the slice that it is given.
    unsafe {
        #[cfg(target_arch = "x86_64")]
        asm!("syscall", inlateout("rax") number => result, in("rdi") one, in("rsi") two, in("rdx") three, out("rcx") _, out("r11") _);
        #[cfg(target_arch = "aarch64")]
        asm!("svc 0", in("x8") number, inlateout("x0") one => result, in("x1") two, in("x2") three);
        #[cfg(target_arch = "riscv64")]
        asm!("ecall", in("a7") number, inlateout("a0") one => result, in("a1") two, in("a2") three);
        #[cfg(target_arch = "loongarch64")]
        asm!("syscall 0", in("$a7") number, inlateout("$a0") one => result, in("$a1") two, in("$a2") three, out("$t0") _, out("$t1") _,
            out("$t2") _, out("$t3") _, out("$t4") _, out("$t5") _, out("$t6") _, out("$t7") _, out("$t8") _);
    }
    result
}

/// All of standard input; none where it cannot be read, or is longer than the room for it.
pub fn read_all(room: &mut [u8]) -> Option<usize> {
    let mut length = 0;
    loop {
        let left = &mut room[length..];
        match call(READ, [0, left.as_mut_ptr().addr(), left.len()]) {
            0 => return if left.is_empty() { None } else { Some(length) },
            read => length += usize::try_from(read).ok()?,
        }
    }
}

/// To standard output. Nobody can be told where it fails.
pub fn write(mut bytes: &[u8]) {
    while !bytes.is_empty() {
        let Ok(written) = usize::try_from(call(WRITE, [1, bytes.as_ptr().addr(), bytes.len()])) else { return };
        bytes = &bytes[written..];
    }
}

pub fn exit(status: i32) -> ! {
    loop {
        call(EXIT, [status as usize, 0, 0]);
    }
}

#[panic_handler]
fn panicked(_: &PanicInfo) -> ! {
    write(b"the replay panicked\n");
    exit(101)
}
