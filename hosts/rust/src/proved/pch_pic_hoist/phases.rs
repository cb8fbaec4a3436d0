// Made from crates/pch_pic_hoist/src/phases.rt by tools/portable: do not change it here.
//! The phase's byte, which a host keeps beside the image (02, C-22): 0 in start-up, any other value after it. It is stored where a call is done.

pub const IN_START_UP: u8 = 0;

pub const AFTER_START_UP: u8 = 1;

/// ```text
/// requires { 1 ≤ length phase.now }
/// ensures { result ≡ running phase.now }
/// ```
pub fn is_running(phase: &[u8]) -> bool {
    phase[0] != IN_START_UP
}

/// The phase that begins where a call is done, by the number that it handed back.
///
/// ```text
/// requires { 1 ≤ length phase.old }
/// ensures { phase.new ≡ cond (eqb number 0) (set phase.old 0 next) phase.old }
/// ```
pub fn begin(phase: &mut [u8], next: u8, number: u8) {
    if number == 0 {
        phase[0] = next;
    }
}
