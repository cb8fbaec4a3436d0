//! An eventfd for each vector, as a VMM on Linux hands them to the kernel or to another process: while a vector is on, its eventfd can be read.
//!
//! An assert adds 1 to the vector's counter, so that a second input which shares the vector is told too; a deassert takes the counter back to 0.

#[macro_use]
mod common;

#[cfg(target_os = "linux")]
mod vectors {
    use pch_pic::Change;
    use std::ffi::{c_int, c_uint};
    use std::fs::File;
    use std::io::{self, Read, Write};
    use std::os::fd::{AsFd, BorrowedFd, FromRawFd, OwnedFd};

    extern "C" {
        fn eventfd(first: c_uint, flags: c_int) -> c_int;
    }

    /// EFD_CLOEXEC and EFD_NONBLOCK, which are those of open.
    const FLAGS: c_int = 0o2_000_000 | 0o4_000;

    /// The eventfds of vectors 0 to 255.
    pub struct Vectors(Vec<File>);

    impl Vectors {
        /// One for each vector, all off.
        pub fn new() -> io::Result<Self> {
            let made = (0..=u8::MAX).map(|_| {
                // SAFETY: it takes two numbers; what it hands back is a new descriptor that nobody else has, or -1.
                let number = unsafe { eventfd(0, FLAGS) };
                if number < 0 {
                    return Err(io::Error::last_os_error());
                }
                // SAFETY: the descriptor is open and is owned here alone.
                Ok(File::from(unsafe { OwnedFd::from_raw_fd(number) }))
            });
            Ok(Vectors(made.collect::<io::Result<_>>()?))
        }

        /// The eventfd of a vector, to be handed on.
        pub fn of(&self, vector: u8) -> BorrowedFd<'_> {
            self.0[usize::from(vector)].as_fd()
        }

        /// Passes a change on. To take a counter back that is 0 already is no fault.
        pub fn pass(&self, change: Change) -> io::Result<()> {
            let mut file = &self.0[usize::from(change.vector)];
            if change.asserted {
                return file.write_all(&1_u64.to_ne_bytes());
            }
            match file.read_exact(&mut [0; 8]) {
                Err(why) if why.kind() != io::ErrorKind::WouldBlock => Err(why),
                _ => Ok(()),
            }
        }

        /// How often a vector was asserted since it was last off. It takes the counter, as a reader of the eventfd does.
        pub fn take(&self, vector: u8) -> u64 {
            let mut count = [0; 8];
            let mut file = &self.0[usize::from(vector)];
            file.read_exact(&mut count).map_or(0, |()| u64::from_ne_bytes(count))
        }
    }
}

#[cfg(target_os = "linux")]
fn main() -> Result<(), Box<dyn std::error::Error>> {
    use pch_pic::{reg, PchPic, Width, Window, Wires};
    use std::os::fd::AsRawFd;

    let (vectors, window) = (vectors::Vectors::new()?, Window::at(0));
    let (mut pic, mut wires) = (PchPic::new(), Wires::new());
    let mut failed = None;
    let mut route = |change| failed = vectors.pass(change).err().or(failed.take());
    pic.write(window, reg::VECTORS + 6, Width::Byte, 5)?;
    pic.write(window, reg::MASK, Width::Qword, 0)?;
    wires.settle(&mut pic, &mut route);
    say!("Inputs 5 and 6 share vector 5, and both lines go up.");
    wires.line(&mut pic, 5, true, &mut route)?;
    wires.line(&mut pic, 6, true, &mut route)?;
    say!("Its eventfd is open: {}; it was asserted {} times.", vectors.of(5).as_raw_fd() >= 0, vectors.take(5));
    wires.line(&mut pic, 5, false, &mut route)?;
    wires.line(&mut pic, 6, false, &mut route)?;
    say!("Both go down: its counter is {}.", vectors.take(5));
    failed.map_or(Ok(()), |why| Err(why.into()))
}

#[cfg(not(target_os = "linux"))]
fn main() {
    say!("eventfd is Linux's own.");
}

#[cfg(all(test, target_os = "linux"))]
mod tests {
    use super::vectors::Vectors;
    use pch_pic::{reg, PchPic, Width, Window, Wires};

    #[test]
    fn an_eventfd_is_up_while_its_vector_is_on() {
        let vectors = Vectors::new().unwrap();
        let (mut pic, mut wires) = (PchPic::new(), Wires::new());
        let mut route = |change| vectors.pass(change).unwrap();
        pic.write(Window::at(0), reg::MASK, Width::Qword, 0).unwrap();
        wires.settle(&mut pic, &mut route);
        for input in 0..64 {
            wires.line(&mut pic, input, true, &mut route).unwrap();
        }
        // Vector 7 goes off before anybody has read it, and comes again.
        wires.line(&mut pic, 7, false, &mut route).unwrap();
        assert_eq!((vectors.take(7), vectors.take(8), vectors.take(64)), (0, 1, 0));
        wires.line(&mut pic, 7, true, &mut route).unwrap();
        assert_eq!(vectors.take(7), 1);
        for input in 0..64 {
            wires.line(&mut pic, input, false, &mut route).unwrap();
        }
        assert!((0..=255).all(|vector| vectors.take(vector) == 0));
    }
}
