//! What the examples print. A line that cannot be written ends the program with status 1, and a reader that has gone is no panic.

use std::env;
use std::fmt::Arguments;
use std::io::{self, Write};
use std::path::Path;
use std::process::exit;

/// The program's own name, as its messages begin.
fn program() -> String {
    let path = env::args_os().next().unwrap_or_default();
    Path::new(&path).file_name().unwrap_or_default().to_string_lossy().into_owned()
}

/// One line of standard output; [`say!`] is the usual way to it.
pub fn say(words: Arguments<'_>) {
    if let Err(why) = writeln!(io::stdout().lock(), "{words}") {
        let _ = writeln!(io::stderr(), "{}: standard output: {why}", program());
        exit(1);
    }
}

macro_rules! say {
    ($($words:tt)*) => {
        $crate::common::say(format_args!($($words)*))
    };
}
