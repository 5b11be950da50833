//! `salvage`: reads a damaged image on standard input, prints what is kept of it, and the report on standard error.

use std::io::{self, Read, Write};
use uluvoli_oracle::salvage;

/// Reads all, prints both.
fn main() -> io::Result<()> {
    let mut text = Vec::new();
    io::stdin().lock().read_to_end(&mut text)?;
    let salvaged = salvage::salvage(&text);
    io::stderr().write_all(salvaged.report().as_bytes())?;
    io::stdout().lock().write_all(&salvaged.image)
}
