//! Where a panic would go.

use core::arch::asm;
use core::panic::PanicInfo;

/// No call comes here. Every place and every sum of the text is proved to be in its bounds, whatever the bytes and lengths are (docs/PROMISES.md); rustc does not
/// know these proofs, so it keeps tests of its own and wants a place to go. If a broken machine led here, an instruction would trap, and again.
#[panic_handler]
fn stop(_: &PanicInfo) -> ! {
    loop {
        // SAFETY: it traps, and touches neither memory nor registers.
        unsafe {
            #[cfg(target_arch = "loongarch64")]
            asm!("break 0", options(nomem, nostack));
            #[cfg(target_arch = "aarch64")]
            asm!("brk #1", options(nomem, nostack));
            #[cfg(target_arch = "riscv64")]
            asm!("unimp", options(nomem, nostack));
            #[cfg(target_arch = "x86_64")]
            asm!("ud2", options(nomem, nostack));
        }
    }
}
