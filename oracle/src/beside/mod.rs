//! Another program beside the oracle: it is given texts, and what it prints is compared.

mod cuts;
pub mod mutate;
mod process;
pub mod shrink;

use crate::files;
use crate::filter::Filter;
use crate::random::Random;
use crate::texts::Text;
use std::io::{self, Write};
use std::path::{Path, PathBuf};
use std::process::Command;
use std::sync::atomic::{AtomicUsize, Ordering};
use std::time::Duration;

/// As many texts as are given to the program at once.
pub const AT_ONCE: usize = 500;

/// A run of the program has to end within this time, however busy the machine is.
pub const LIMIT: Duration = Duration::from_secs(120);

/// The program is heard out for this many bytes more than are expected of it.
const SURPLUS: usize = 100_000;

/// The two programs of a filter that `RUN NAME` runs: one prints for each file 0001.in, 0002.in, .. of the
/// folder that it is run in a heading and what the filter prints, the other takes one text on standard
/// input.
pub struct Beside {
    filter: &'static Filter,
    run: PathBuf,
    folder: PathBuf,
    limit: Duration,
}

/// A text that the program does not answer as the oracle does.
pub struct Wrong {
    /// Which of the texts.
    pub at: usize,
    /// What the program printed from there on.
    pub printed: Vec<u8>,
    /// How it ended, where that was not as it should.
    pub fault: Option<String>,
}

/// What stands ahead of the answers to the text of this number.
pub fn heading(number: usize) -> String {
    format!("== {number:04}\n")
}

impl Beside {
    /// The programs of a filter that this command runs by their names, each within the limit. Texts go
    /// into a folder of their own.
    pub fn new(filter: &'static Filter, run: &Path, limit: Duration) -> io::Result<Self> {
        static MADE: AtomicUsize = AtomicUsize::new(0);
        let made = MADE.fetch_add(1, Ordering::Relaxed);
        let folder = format!("uluvoli-texts-{}-{made}", std::process::id());
        let folder = std::env::temp_dir().join(folder);
        std::fs::create_dir_all(&folder)?;
        let run = std::fs::canonicalize(run)?;
        Ok(Beside {
            filter,
            run,
            folder,
            limit,
        })
    }

    /// The first of these texts that is answered otherwise than by the oracle: by the program for folders, or
    /// where there is none one by one.
    pub fn first_wrong(&self, texts: &[Text]) -> io::Result<Option<Wrong>> {
        let Some(stored) = self.filter.stored else {
            return self.first_alone(texts);
        };
        let inputs = texts.iter().map(|text| text.input.as_slice());
        files::numbered(&self.folder, "in", inputs)?;
        let mut command = Command::new(&self.run);
        command.arg(stored).current_dir(&self.folder);
        let expected: usize = texts.iter().map(|text| text.output.len() + 8).sum();
        let ran = process::run(&mut command, Vec::new(), self.limit, expected + SURPLUS)?;
        Ok(match first_difference(&ran.printed, texts) {
            Some((at, printed)) => Some(Wrong {
                at,
                printed: printed.to_vec(),
                fault: ran.fault,
            }),
            None => ran.fault.map(|fault| Wrong {
                at: texts.len() - 1,
                printed: Vec::new(),
                fault: Some(fault),
            }),
        })
    }

    /// The first of these texts, each whole on standard input, that the filter answers otherwise than the oracle.
    fn first_alone(&self, texts: &[Text]) -> io::Result<Option<Wrong>> {
        for (at, text) in texts.iter().enumerate() {
            if let Some(wrong) = self.alone_wrong(vec![text.input.clone()], text)? {
                return Ok(Some(Wrong { at, ..wrong }));
            }
        }
        Ok(None)
    }

    /// Whether the filter answers this text, which comes in pieces, otherwise than the oracle.
    pub fn piped_wrong(&self, random: &mut Random, text: &Text) -> io::Result<Option<Wrong>> {
        self.alone_wrong(cuts::pieces(random, &text.input), text)
    }

    /// Whether the filter answers this text, which comes in these pieces, otherwise than the oracle.
    fn alone_wrong(&self, pieces: Vec<Vec<u8>>, text: &Text) -> io::Result<Option<Wrong>> {
        let mut command = Command::new(&self.run);
        let (said, printed) = (self.filter.parts)(text);
        let most = text.output.len() + SURPLUS;
        let ran = process::run(command.arg(self.filter.program), pieces, self.limit, most)?;
        let alike = ran.printed == printed.as_bytes() && ran.said == said.as_bytes();
        let wrong = ran.fault.is_some() || !alike;
        Ok(wrong.then_some(Wrong {
            at: 0,
            printed: [ran.said, ran.printed].concat(),
            fault: ran.fault,
        }))
    }

    /// Fails if the program for folders answers one of these texts otherwise than the oracle, and says
    /// which, by the smallest text that shows it.
    pub fn agree(&self, texts: &[Text]) -> io::Result<()> {
        let Some(Wrong { at, .. }) = self.first_wrong(texts)? else {
            return Ok(());
        };
        let mut shows = |inputs: &[Vec<u8>]| {
            let texts: Vec<Text> = inputs.iter().cloned().map(self.filter.text).collect();
            Ok(self.first_wrong(&texts)?.map(|wrong| wrong.at))
        };
        let smallest = shrink::smallest(texts[at].input.clone(), &mut shows)?;
        let smallest = [(self.filter.text)(smallest)];
        match self.first_wrong(&smallest)? {
            Some(wrong) => self.tell(
                self.filter.stored.unwrap_or(self.filter.program),
                &smallest[0],
                &wrong,
            ),
            None => Err(io::Error::other("a difference did not come again")),
        }
    }

    /// Fails if the filter answers this text, which comes in pieces, otherwise than the oracle.
    pub fn agree_piped(&self, random: &mut Random, text: &Text) -> io::Result<()> {
        match self.piped_wrong(random, text)? {
            Some(wrong) => self.tell(self.filter.program, text, &wrong),
            None => Ok(()),
        }
    }

    /// Where a text that fails is kept.
    pub fn kept(&self) -> PathBuf {
        self.folder.with_extension("wrong")
    }

    /// Says what is wrong about a text, keeps the text in a file that it names, and fails.
    fn tell(&self, name: &str, text: &Text, wrong: &Wrong) -> io::Result<()> {
        let out = &mut io::stdout().lock();
        let (length, kept) = (text.input.len(), self.kept());
        std::fs::write(&kept, &text.input)?;
        writeln!(out, "a text of {length} bytes, kept as {}:", kept.display())?;
        show(out, &text.input)?;
        writeln!(out, "the oracle prints:")?;
        show(out, text.output.as_bytes())?;
        writeln!(out, "the program prints:")?;
        show(out, &wrong.printed)?;
        let fault = wrong.fault.as_ref();
        let fault = fault.map_or("it prints something else", String::as_str);
        Err(io::Error::other(format!("{name}: {fault}")))
    }
}

impl Drop for Beside {
    /// Removes the folder of the texts.
    fn drop(&mut self) {
        let _ = std::fs::remove_dir_all(&self.folder);
    }
}

/// The first text whose answers are not where they should be, and what was printed from its own
/// heading on.
fn first_difference<'a>(printed: &'a [u8], texts: &[Text]) -> Option<(usize, &'a [u8])> {
    let mut rest = printed;
    for (at, text) in texts.iter().enumerate() {
        let expected = heading(at + 1) + &text.output;
        let after = rest.strip_prefix(expected.as_bytes());
        let next = heading(at + 2);
        match after {
            Some(after) if at + 1 == texts.len() && after.is_empty() => return None,
            Some(after) if after.starts_with(next.as_bytes()) => rest = after,
            _ => return Some((at, rest)),
        }
    }
    None
}

/// Prints the first lines of some bytes, with escapes, cut where they are long.
fn show(out: &mut impl Write, bytes: &[u8]) -> io::Result<()> {
    for line in bytes.split_inclusive(|&byte| byte == b'\n').take(40) {
        let cut = &line[..line.len().min(300)];
        let more = if cut.len() < line.len() { " .." } else { "" };
        writeln!(out, "    {}{more}", cut.escape_ascii())?;
    }
    Ok(())
}
