//! What an older host saved is loaded. It needs the repository around the crate, and so it is not in a package.
#![cfg(feature = "std")]

use pch_pic::{file, Form};
use std::fs;

/// What the example of version 0.5.0 saved, which knew form 1 alone.
const OLDER: &str = concat!(env!("CARGO_MANIFEST_DIR"), "/../saved-0.5.0.device");

#[test]
fn a_file_of_an_older_host_is_loaded() {
    let pic = file::load(OLDER).unwrap();
    assert_eq!((pic.latched(), pic.in_service(), pic.waiting(), pic.vector(21)), (1 << 21, 1 << 21, 1, Some(0x55)));
    assert_eq!(pic.next_number(), 1);
    let again = concat!(env!("CARGO_TARGET_TMPDIR"), "/saved-again.device");
    file::save(&pic, Form::One, again).unwrap();
    assert_eq!(fs::read(again).unwrap(), fs::read(OLDER).unwrap());
}
