//! Damaged images: those that have names, then drawn ones; and what they met.

use super::cases;
use super::drawn;
use super::{Fate, Salvaged, salvage};
use crate::counts::Counts;
use crate::random::Random;
use crate::replay;
use crate::texts::Text;
use std::collections::VecDeque;

/// Length and seed of the list that is stored.
pub const SMALL: (usize, u64) = (80, 1);

/// What parts the report from the image, where both are printed.
pub const BETWEEN: &str = "--\n";

/// What is printed for a text: the report, a line that parts them, the image.
pub fn answer(text: &[u8]) -> String {
    shown(&salvage(text))
}

/// The same of what came of a text.
fn shown(salvaged: &Salvaged) -> String {
    let image = std::str::from_utf8(&salvaged.image).expect("lines that are kept are ASCII");
    salvaged.report() + BETWEEN + image
}

/// The report, which the program says on standard error, and the image, which it prints.
pub fn parts(text: &Text) -> (&str, &str) {
    let parts = text.output.split_once(BETWEEN);
    parts.expect("a line parts report and image")
}

/// A text of no kind in particular, answered.
pub fn of(input: Vec<u8>) -> Text {
    text("other", input)
}

/// The text of a kind, answered. What comes out is an image that replays without a refused line, that a
/// second salvage leaves as it is, and that is the text itself where nothing is dropped or added.
fn text(kind: &'static str, input: Vec<u8>) -> Text {
    let salvaged = salvage(&input);
    let again = salvage(&salvaged.image);
    assert!(!replay::replay(&salvaged.image).starts_with("image"));
    assert!(again.image == salvaged.image && again.report().is_empty());
    let sound = !input.is_empty() && !replay::replay(&input).starts_with("image");
    let requests = replay::lines(&input).any(|(_, line)| replay::line::is_request(line));
    if sound && !requests {
        assert!(salvaged.image == input && salvaged.report().is_empty());
    }
    let mut met: Vec<String> = salvaged.fates.iter().map(|&fate| name(fate)).collect();
    if salvaged.added {
        met.push("a line added".to_string());
    }
    if salvaged.report().is_empty() {
        met.push("nothing changed".to_string());
    }
    if !salvaged.image.ends_with(b"\n") {
        met.push("no last LF".to_string());
    }
    Text {
        kind,
        output: shown(&salvaged),
        input,
        met,
    }
}

/// A fate in words.
fn name(fate: Fate) -> String {
    match fate {
        Fate::Kept => "kept".to_string(),
        Fate::Stretch => "deeper than a dropped area".to_string(),
        Fate::Orphan => "limit of a dropped service".to_string(),
        Fate::Refused(refusal) => format!("refused {refusal}"),
    }
}

/// This many texts, fixed by the seed, and what they met.
pub fn all(length: usize, seed: u64) -> (Vec<Text>, Counts) {
    let mut counts = Counts::default();
    let texts: Vec<Text> = Texts::new(seed).take(length).collect();
    for text in &texts {
        count(&mut counts, text);
    }
    (texts, counts)
}

/// The texts of a seed, without end.
pub struct Texts {
    random: Random,
    named: VecDeque<(&'static str, Vec<u8>)>,
}

impl Texts {
    /// The texts of this seed, those that have names first.
    pub fn new(seed: u64) -> Self {
        let named = cases::all().into_iter();
        Texts {
            random: Random::new(seed),
            named: named.map(|case| (case.name, case.text)).collect(),
        }
    }
}

impl Iterator for Texts {
    type Item = Text;

    /// The next text.
    fn next(&mut self) -> Option<Text> {
        Some(match self.named.pop_front() {
            Some((name, input)) => text(name, input),
            None => text("drawn", drawn::text(&mut self.random)),
        })
    }
}

/// Counts a text by its kind and by what its lines meet.
pub fn count(counts: &mut Counts, text: &Text) {
    counts.meet(format!("text: {}", text.kind));
    for name in &text.met {
        counts.meet(name.as_str());
    }
}

/// What salvage can say and a list did not meet: every refusal of an image line, both rules, and the texts
/// that have names.
pub fn unmet(counts: &Counts) -> Vec<String> {
    let named = cases::all().into_iter();
    let refused = (11..=24).chain([28, 30]).map(Fate::Refused);
    let fates = refused.chain([Fate::Kept, Fate::Stretch, Fate::Orphan]);
    let whole = ["a line added", "nothing changed", "no last LF"];
    fates
        .map(name)
        .chain(whole.map(str::to_string))
        .chain(named.map(|case| format!("text: {}", case.name)))
        .filter(|name| counts.of(name) == 0)
        .collect()
}
