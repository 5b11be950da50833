//! `traces`: prints for each file 0001.in, 0002.in, .. of the folder it is run in, until one is
//! missing, a heading and what replay prints; `traces --inspect`: what inspect prints; `traces --salvage`: report and image.

use std::io::{self, Write};
use uluvoli_oracle::beside::heading;
use uluvoli_oracle::program;

/// Reads and answers the files.
fn main() -> io::Result<()> {
    let (filter, _) = program::filter();
    let mut out = io::stdout().lock();
    for number in 1.. {
        let Ok(text) = std::fs::read(format!("{number:04}.in")) else {
            break;
        };
        out.write_all(heading(number).as_bytes())?;
        out.write_all((filter.answer)(&text).as_bytes())?;
    }
    Ok(())
}
