//! `leaves`: prints the leaf answers. `leaves DIR`: writes them as DIR/0001.in and so on.
//! `leaves --counts`: prints how many lines met each thing.

use std::io::{self, Write};
use std::path::Path;
use uluvoli_oracle::{files, leaves};

/// Does what the one word, or its absence, asks for.
fn main() -> io::Result<()> {
    let words: Vec<String> = std::env::args().skip(1).collect();
    let leaves = leaves::all();
    let mut out = io::BufWriter::new(io::stdout().lock());
    match words.as_slice() {
        [] => {
            for leaf in &leaves {
                writeln!(out, "{}", leaf.line)?;
            }
        }
        [word] if word == "--counts" => {
            for (met, count) in leaves::counts(&leaves) {
                writeln!(out, "{count:6} {met}")?;
            }
            writeln!(out, "{:6} lines in all", leaves.len())?;
        }
        [folder] => {
            let lines: Vec<String> = leaves.into_iter().map(|leaf| leaf.line + "\n").collect();
            let count = files::write(&lines, Path::new(folder))?;
            writeln!(out, "{} lines in {count} files", lines.len())?;
        }
        _ => return Err(io::Error::other("usage: leaves [DIR | --counts]")),
    }
    out.flush()
}
