//! What the programs that write a list have in common: their words, and where the list goes.

use crate::counts::Counts;
use crate::files;
use crate::filter::{Filter, INSPECT, REPLAY, SALVAGE};
use std::io::{self, Write};
use std::path::PathBuf;

/// A list drawn to a length and a seed: its texts, none of which may be cut, and what it met.
pub type List = (Vec<String>, Counts);

/// What a program is asked for.
pub struct Words {
    pub length: usize,
    pub seed: u64,
    pub wanted: Wanted,
}

/// Where a list goes: to standard output, into a folder, or nowhere but into its counts.
pub enum Wanted {
    Print,
    Folder(PathBuf),
    Counts,
}

/// The filter that the words are about, and the other words: `inspect` if `--inspect` comes first, `salvage` if
/// `--salvage` does, else `replay`.
pub fn filter() -> (&'static Filter, Vec<String>) {
    let mut words: Vec<String> = std::env::args().skip(1).collect();
    let filter = match words.first().map(String::as_str) {
        Some("--inspect") => &INSPECT,
        Some("--salvage") => &SALVAGE,
        _ => return (&REPLAY, words),
    };
    words.remove(0);
    (filter, words)
}

/// Reads the words `N SEED [DIR | --counts]`, where `--small` may stand in place of `N SEED` and
/// means these two.
pub fn words(name: &str, small: (usize, u64), words: &[String]) -> io::Result<Words> {
    let usage = || io::Error::other(format!("usage: {name} (N SEED | --small) [DIR | --counts]"));
    let ((length, seed), rest) = match words {
        [word, rest @ ..] if word == "--small" => (small, rest),
        [length, seed, rest @ ..] => {
            let length = length.parse().map_err(|_| usage())?;
            let seed = seed.parse().map_err(|_| usage())?;
            ((length, seed), rest)
        }
        _ => return Err(usage()),
    };
    let wanted = match rest {
        [] => Wanted::Print,
        [word] if word == "--counts" => Wanted::Counts,
        [folder] => Wanted::Folder(folder.into()),
        _ => return Err(usage()),
    };
    Ok(Words {
        length,
        seed,
        wanted,
    })
}

/// Reads two numbers, and a word that may follow them.
pub fn numbers(usage: &str, words: &[String]) -> io::Result<([u64; 2], String)> {
    let wrong = || io::Error::other(format!("usage: {usage}"));
    let number = |word: &String| word.parse().map_err(|_| wrong());
    match words {
        [one, two] => Ok(([number(one)?, number(two)?], String::new())),
        [one, two, word] => Ok(([number(one)?, number(two)?], word.clone())),
        _ => Err(wrong()),
    }
}

/// Fails if there is something that a list did not meet.
pub fn all_met(unmet: &[String]) -> io::Result<()> {
    if unmet.is_empty() {
        return Ok(());
    }
    Err(io::Error::other(format!("not met: {}", unmet.join(", "))))
}

/// Draws the list that the words ask for, and prints it, writes it or prints its counts.
pub fn run(name: &str, small: (usize, u64), draw: impl Fn(usize, u64) -> List) -> io::Result<()> {
    run_met(name, small, draw, |_| Vec::new())
}

/// The same of a list that has things to meet: with its counts it fails if one is unmet.
pub fn run_met(
    name: &str,
    small: (usize, u64),
    draw: impl Fn(usize, u64) -> List,
    unmet: impl Fn(&Counts) -> Vec<String>,
) -> io::Result<()> {
    let given: Vec<String> = std::env::args().skip(1).collect();
    let words = words(name, small, &given)?;
    let (texts, counts) = draw(words.length, words.seed);
    let mut out = io::BufWriter::new(io::stdout().lock());
    match words.wanted {
        Wanted::Print => {
            for text in texts {
                out.write_all(text.as_bytes())?;
            }
        }
        Wanted::Folder(folder) => {
            let count = files::write(&texts, &folder)?;
            writeln!(out, "{count} files")?;
        }
        Wanted::Counts => {
            write!(out, "{counts}")?;
            out.flush()?;
            all_met(&unmet(&counts))?;
        }
    }
    out.flush()
}
