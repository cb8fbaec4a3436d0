//! The answer area of a call, by 01: the number, whether there is a value, six zeros, and the value.

/// Tells a number and a value; of a longer area the rest stays. Gives the number.
pub fn tell(answer: &mut [u8], number: u8, value: Option<u64>) -> u8 {
    answer[..8].copy_from_slice(&[number, value.is_some() as u8, 0, 0, 0, 0, 0, 0]);
    answer[8..16].copy_from_slice(&value.unwrap_or(0).to_le_bytes());
    number
}
