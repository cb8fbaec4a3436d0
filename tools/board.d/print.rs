//! Words and numbers on standard output.

use crate::system;

/// What can be said.
pub trait Said {
    fn say(self);
}

impl Said for &str {
    fn say(self) {
        system::write(self.as_bytes());
    }
}

impl Said for u64 {
    fn say(self) {
        let (mut digits, mut at, mut left) = ([0; 20], 20, self);
        loop {
            at -= 1;
            digits[at] = b'0' + (left % 10) as u8;
            left /= 10;
            if left == 0 {
                break;
            }
        }
        system::write(&digits[at..]);
    }
}

macro_rules! say {
    ($($part:expr),*) => {$($crate::print::Said::say($part);)*};
}
pub(crate) use say;
