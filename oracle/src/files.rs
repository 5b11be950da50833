//! Numbered files, and a list of texts joined to files of bounded size.

use std::fs;
use std::io;
use std::path::Path;

/// No file of joined texts is longer than this many bytes.
pub const MOST_BYTES: usize = 60_000;

/// The parts joined to texts of at most `MOST_BYTES` bytes; no part is cut.
pub fn joined(parts: &[String]) -> Vec<String> {
    let mut texts = Vec::new();
    let mut text = String::new();
    for part in parts {
        if !text.is_empty() && text.len() + part.len() > MOST_BYTES {
            texts.push(std::mem::take(&mut text));
        }
        text.push_str(part);
    }
    if !text.is_empty() {
        texts.push(text);
    }
    texts
}

/// Writes the joined parts as `folder`/0001.in, 0002.in and so on and gives the number of files.
pub fn write(parts: &[String], folder: &Path) -> io::Result<usize> {
    let texts = joined(parts);
    numbered(folder, "in", texts.iter().map(String::as_bytes))?;
    Ok(texts.len())
}

/// Writes these files as `folder`/0001.`ending`, 0002.`ending` and so on. The folder is made if
/// need be; files that a longer list left behind there are removed.
pub fn numbered<'a>(
    folder: &Path,
    ending: &str,
    files: impl Iterator<Item = &'a [u8]>,
) -> io::Result<()> {
    fs::create_dir_all(folder)?;
    let name = |number: usize| folder.join(format!("{number:04}.{ending}"));
    let mut next = 1;
    for file in files {
        fs::write(name(next), file)?;
        next += 1;
    }
    while name(next).exists() {
        fs::remove_file(name(next))?;
        next += 1;
    }
    Ok(())
}
