//! `replay`: reads a text, an image and requests, on standard input and prints the answers.

use std::io::{self, Read, Write};
use uluvoli_oracle::replay;

/// Reads all, prints all.
fn main() -> io::Result<()> {
    let mut text = Vec::new();
    io::stdin().lock().read_to_end(&mut text)?;
    io::stdout()
        .lock()
        .write_all(replay::replay(&text).as_bytes())
}
