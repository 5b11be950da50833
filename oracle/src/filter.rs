//! The three filters that answer whole texts: the proved programs of each, and what the oracle has for it.

use crate::counts::Counts;
use crate::texts::{self, Text};
use crate::{inspect, inspections, replay, salvage};

/// A filter: `replay`, for cards and requests, `inspect`, for questions as well, or `salvage`, for damaged images.
pub struct Filter {
    /// The program that answers one text on standard input.
    pub program: &'static str,
    /// The program that answers each text of the folder it is run in, under a heading, if there is one.
    pub stored: Option<&'static str>,
    /// Length and seed of the list that is stored.
    pub small: (usize, u64),
    /// What the oracle prints for a text.
    pub answer: fn(&[u8]) -> String,
    /// Of that, what the program for one text says on standard error, and what it prints.
    pub parts: fn(&Text) -> (&str, &str),
    /// The texts of a seed, without end.
    pub texts: fn(u64) -> Box<dyn Iterator<Item = Text>>,
    /// A list of so many texts of a seed, and what they met.
    pub all: fn(usize, u64) -> (Vec<Text>, Counts),
    /// A text of no kind in particular, answered.
    pub text: fn(Vec<u8>) -> Text,
    /// Counts what a text met.
    pub count: fn(&mut Counts, &Text),
    /// What the filter can say and a list did not meet.
    pub unmet: fn(&Counts) -> Vec<String>,
}

pub static REPLAY: Filter = Filter {
    program: "replay",
    stored: Some("test_traces"),
    small: texts::SMALL,
    answer: replay::replay,
    parts: |text| ("", &text.output),
    texts: |seed| Box::new(texts::Texts::new(seed)),
    all: texts::all,
    text: Text::of,
    count: texts::count,
    unmet: texts::unmet,
};

pub static INSPECT: Filter = Filter {
    program: "inspect",
    stored: Some("test_inspect"),
    small: inspections::SMALL,
    answer: inspect::inspect,
    parts: |text| ("", &text.output),
    texts: |seed| Box::new(inspections::Texts::new(seed)),
    all: inspections::all,
    text: inspections::of,
    count: inspections::count,
    unmet: inspections::unmet,
};

pub static SALVAGE: Filter = Filter {
    program: "salvage",
    stored: None,
    small: salvage::texts::SMALL,
    answer: salvage::texts::answer,
    parts: salvage::texts::parts,
    texts: |seed| Box::new(salvage::texts::Texts::new(seed)),
    all: salvage::texts::all,
    text: salvage::texts::of,
    count: salvage::texts::count,
    unmet: salvage::texts::unmet,
};
