//! No call panics, whatever it is lent: bytes at random, images and traces with a few bytes changed, lengths that no form has, numbers at their ends. And a
//! refused call changes nothing. The seeds are fixed, so a failure comes again.

mod dice;
/// The plain copy of the proved text, whatever does the work.
#[path = "../../src/proved/mod.rs"]
#[rustfmt::skip]
mod proved;
mod raw;
mod typed;

/// How often each call is made. PCH_PIC_ROUNDS asks for another number: 440,000 are ten million calls.
pub fn rounds() -> usize {
    let usual = if cfg!(debug_assertions) { 2_000 } else { 8_000 };
    std::env::var("PCH_PIC_ROUNDS").ok().and_then(|asked| asked.parse().ok()).unwrap_or(usual)
}
