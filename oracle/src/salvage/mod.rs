//! Salvage of a damaged image: what is kept of it, and the report of what is dropped. The Rust has no
//! salvage: it judges each line, the two rules beside it are ours.

pub mod cases;
mod drawn;
pub mod texts;

use crate::refusal::Refusal;
use crate::replay::line::{Image, image};
use crate::replay::{start, take};
use crate::tree::{Addition, Card};

/// The line that stands ahead of an image that does not begin with an accepted `card` line.
pub const ADDED: &str = "card\t0000\t0000\n";

/// What comes of a line.
#[derive(Clone, Copy, PartialEq, Eq)]
pub enum Fate {
    Kept,
    /// It lies deeper than a dropped area.
    Stretch,
    /// It is a limit of a dropped service.
    Orphan,
    Refused(Refusal),
}

/// What comes of a text: whether a line is added, and each line's fate.
pub struct Salvaged {
    pub added: bool,
    pub fates: Vec<Fate>,
    pub image: Vec<u8>,
}

impl Salvaged {
    /// The report, a line for each that is added or dropped.
    pub fn report(&self) -> String {
        let mut report = String::new();
        if self.added {
            report += "0\tadded\n";
        }
        for (number, fate) in (1..).zip(&self.fates) {
            match fate {
                Fate::Kept => {}
                Fate::Stretch | Fate::Orphan => report += &format!("{number}\tparent\n"),
                Fate::Refused(refusal) => report += &format!("{number}\t{refusal}\n"),
            }
        }
        report
    }
}

/// What comes of a whole text.
pub fn salvage(text: &[u8]) -> Salvaged {
    let pieces: Vec<&[u8]> = text.split_inclusive(|&byte| byte == b'\n').collect();
    let first = pieces.first().map(|piece| (1, line_of(piece)));
    let begun = start(first);
    let mut salvaged = Salvaged {
        added: begun.is_none(),
        fates: Vec::new(),
        image: Vec::new(),
    };
    if salvaged.added {
        salvaged.image.extend(ADDED.as_bytes());
    }
    let mut rules = Rules {
        card: begun.unwrap_or(Card::new(0, 0, false)),
        stretch: None,
        orphaned: false,
    };
    for (at, piece) in pieces.iter().enumerate() {
        let fate = match at {
            0 if !salvaged.added => Fate::Kept,
            _ => rules.fate(line_of(piece)),
        };
        if fate == Fate::Kept {
            salvaged.image.extend(*piece);
        }
        salvaged.fates.push(fate);
    }
    salvaged
}

/// A piece without the LF that ended it.
fn line_of(piece: &[u8]) -> &[u8] {
    piece.strip_suffix(b"\n").unwrap_or(piece)
}

/// The depth of a well-formed line of an area or a service, and whether it is an area.
fn depth(line: &[u8]) -> Option<(bool, u32)> {
    match image(line)? {
        Image::Add(Addition::Area { depth, .. }) => Some((true, depth)),
        Image::Add(Addition::Service { depth, .. }) => Some((false, depth)),
        _ => None,
    }
}

/// What the lines so far leave behind: the card of those kept, the depth of a dropped area whose children
/// still come, and whether the limits that come belong to a dropped service.
struct Rules {
    card: Card,
    stretch: Option<u32>,
    orphaned: bool,
}

impl Rules {
    /// The fate of the next line.
    fn fate(&mut self, line: &[u8]) -> Fate {
        let first = line.split(|&byte| byte == b'\t').next();
        let depth = depth(line);
        if depth.is_some_and(|(_, depth)| self.stretch.is_some_and(|above| depth <= above)) {
            self.stretch = None;
        }
        let fate = if depth.is_some() && self.stretch.is_some() {
            Fate::Stretch
        } else if self.orphaned && first == Some(b"lim") {
            Fate::Orphan
        } else {
            self.judged(line)
        };
        match (fate, depth) {
            (Fate::Kept, _) => self.orphaned = false,
            (Fate::Refused(_), Some((true, depth))) => self.stretch = Some(depth),
            _ => {}
        }
        self.orphaned |= fate != Fate::Kept && first == Some(b"svc");
        fate
    }

    /// What the builder says of a line after those kept.
    fn judged(&mut self, line: &[u8]) -> Fate {
        let mut card = self.card.clone();
        match take(&mut card, line) {
            Ok(()) => {
                self.card = card;
                Fate::Kept
            }
            Err(refusal) => Fate::Refused(refusal),
        }
    }
}
