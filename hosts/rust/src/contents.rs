//! What an image holds, found by the contents that it begins with: the places differ from form to form.

/// The image's second byte is the number of bodies, and then come their entries.
pub const BODIES: usize = 1;
pub const ENTRIES: usize = 2;
/// An entry has a kind, an offset and a length.
pub const ENTRY_LEN: usize = 5;

/// The kinds of bodies.
pub const REGISTERS: u8 = 1;
pub const ROUTES: u8 = 2;
pub const VECTORS: u8 = 3;
pub const EVENTS: u8 = 4;
pub const NUMBERS: u8 = 5;

/// Where IRR and ISR begin, counted back from the end of the registers.
pub const IRR_BACK: usize = 40;
pub const ISR_BACK: usize = 32;

/// Where the events' body has how many wait, and how many were dropped.
pub const WAITING: usize = 0;
pub const DROPS: usize = 1;

/// Where the numbers' body has that of the next event.
pub const NEXT: usize = 0;

/// The body of that kind; empty where the image lists none.
pub fn body(image: &[u8], kind: u8) -> &[u8] {
    let bodies = usize::from(image.get(BODIES).copied().unwrap_or(0));
    let entries = image.get(ENTRIES..).unwrap_or(&[]).chunks_exact(ENTRY_LEN).take(bodies);
    let place = |entry: &[u8], at| usize::from(u16::from_le_bytes([entry[at], entry[at + 1]]));
    let found = entries.into_iter().find(|entry| entry[0] == kind);
    found.and_then(|entry| image.get(place(entry, 1)..place(entry, 1) + place(entry, 3))).unwrap_or(&[])
}

/// The eight bytes of the registers that begin so far back from their end, as a number.
pub fn register(image: &[u8], back: usize) -> u64 {
    let registers = body(image, REGISTERS);
    let bytes = registers.len().checked_sub(back).and_then(|at| registers.get(at..at + 8));
    bytes.map_or(0, number)
}

/// Up to eight bytes as a number, little end first.
pub fn number(bytes: &[u8]) -> u64 {
    bytes.iter().rev().fold(0, |value, byte| value << 8 | u64::from(*byte))
}

#[cfg(test)]
mod tests {
    use super::*;

    /// A form that is not this one: bodies of other lengths in another order.
    const OTHER: [u8; 25] = [7, 3, 3, 17, 0, 2, 0, 9, 22, 0, 3, 0, 4, 19, 0, 2, 0, 0x33, 0x34, 0x44, 0x45, 0, 0x99, 0x9a, 0x9b];

    #[test]
    fn a_body_is_where_the_contents_say() {
        assert_eq!(body(&OTHER, 3), [0x33, 0x34]);
        assert_eq!(body(&OTHER, 4), [0x44, 0x45]);
        assert_eq!(body(&OTHER, 9), [0x99, 0x9a, 0x9b]);
        assert_eq!(body(&OTHER, 1), []);
        assert_eq!(register(&OTHER, ISR_BACK), 0);
        for len in 0..OTHER.len() {
            assert!(body(&OTHER[..len], 9).is_empty());
        }
        assert!(body(&[0xff; 300], 0xff).is_empty());
    }

    #[test]
    fn registers_are_counted_from_the_end() {
        let mut image = [0; 7 + 64];
        image[..7].copy_from_slice(&[2, 1, REGISTERS, 7, 0, 64, 0]);
        image[7 + 32] = 0x15;
        image[7 + 24 + 7] = 0x80;
        assert_eq!(register(&image, ISR_BACK), 0x15);
        assert_eq!(register(&image, IRR_BACK), 0x8000_0000_0000_0000);
    }
}
