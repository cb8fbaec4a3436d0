//! The session program where its Rattle sources are read as Rust (tools/harness/as-rust): standard input is fed in chunks of a changing size.

use session_text::session;
use std::io::{Read, Write};

fn main() {
    let mut input = Vec::new();
    std::io::stdin().read_to_end(&mut input).expect("standard input");
    let (mut session, mut line, mut out) = (session::start(), [0u8; 32], [0u8; 4096]);
    let mut stdout = std::io::stdout().lock();
    let (mut at, mut size) = (0, 1);
    while at < input.len() {
        let end = input.len().min(at + size);
        let fed = session::feed(session, &mut line, &input[at..end], &mut out);
        stdout.write_all(&out[..fed.len]).expect("standard output");
        (session, at, size) = (fed.session, at + fed.taken, size * 7 % 4093);
    }
    let len = session::close(session, &line, &mut out);
    stdout.write_all(&out[..len]).expect("standard output");
}
