//! A call of the boundary as data.

/// The calls, with their numbers in the order of the C prototypes. A conversion has the length of its target.
#[derive(Clone, Copy, Debug, PartialEq, Eq)]
pub enum Call {
    Reset,
    Read { base: u64, size: u64, address: u64, width: u64 },
    Write { base: u64, size: u64, address: u64, width: u64, value: u64 },
    Level { input: u64, level: u64 },
    Poll { input: u64 },
    Drain { place: u64 },
    Convert { target: usize },
}

/// What the first record of a trace is played on: the image after its reset, or the image as it is.
#[allow(dead_code)]
#[derive(Clone, Copy, Debug, PartialEq, Eq)]
pub enum From {
    Reset,
    Image,
}

/// As the files of recorded answers have the six calls: a kind, 1 to 6, and the call's numbers.
#[allow(dead_code)]
impl Call {
    /// How many numbers a call of each kind has; there is no kind 0.
    pub const NUMBERS: [usize; 7] = [0, 0, 4, 5, 2, 1, 1];

    pub fn coded(&self) -> (u8, Vec<u64>) {
        match *self {
            Call::Reset => (1, vec![]),
            Call::Read { base, size, address, width } => (2, vec![base, size, address, width]),
            Call::Write { base, size, address, width, value } => (3, vec![base, size, address, width, value]),
            Call::Level { input, level } => (4, vec![input, level]),
            Call::Poll { input } => (5, vec![input]),
            Call::Drain { place } => (6, vec![place]),
            Call::Convert { .. } => unreachable!("a conversion has no kind among them"),
        }
    }

    /// Back from kind and numbers, of which there may be more; none where the kind is no call's.
    pub fn decoded(kind: u8, numbers: &[u64]) -> Option<Call> {
        let call = match (kind, numbers) {
            (1, _) => Call::Reset,
            (2, &[base, size, address, width, ..]) => Call::Read { base, size, address, width },
            (3, &[base, size, address, width, value, ..]) => Call::Write { base, size, address, width, value },
            (4, &[input, level, ..]) => Call::Level { input, level },
            (5, &[input, ..]) => Call::Poll { input },
            (6, &[place, ..]) => Call::Drain { place },
            _ => return None,
        };
        Some(call)
    }
}
