//! rounds_independent: one sheet from standard input, at most its first 32,768 bytes,
//! printed as `rounds` prints it.

use independent::report::{rounds_text, ROUNDS_READS};
use std::io::{self, Read, Write};

fn main() -> io::Result<()> {
    let mut sheet = Vec::new();
    let input = io::stdin().lock();
    input.take(ROUNDS_READS as u64).read_to_end(&mut sheet)?;
    io::stdout().write_all(rounds_text(&sheet).as_bytes())
}
