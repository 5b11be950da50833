//! Texts for the inspection tool: those that are the same for every seed, then random ones; and what
//! they met.

pub mod cases;
pub mod drawn;
pub mod malformed;
pub mod met;

use crate::counts::Counts;
use crate::inspect::watched;
use crate::random::Random;
use crate::texts::Text;
use cases::Case;
use met::Met;
use std::collections::VecDeque;

/// Length and seed of the list that is stored.
pub const SMALL: (usize, u64) = (156, 1);

/// Texts of cards that do not join come after so many random ones, which no stored list has.
const BEFORE_COUNTS: usize = 50;

/// How many of the texts that every seed has are drawn; the others have names.
const DRAWN: u64 = 16;

/// A text of no kind in particular, answered.
pub fn of(input: Vec<u8>) -> Text {
    text("other", input)
}

/// The bytes of a case's text.
fn bytes(case: &Case) -> Vec<u8> {
    case.text.replace('|', "\t").into_bytes()
}

/// The text of a kind, answered.
fn text(kind: &'static str, input: Vec<u8>) -> Text {
    let mut met = Met::default();
    let output = watched(&input, |seen| met.watch(seen));
    Text {
        kind,
        input,
        output,
        met: met.names,
    }
}

/// This many texts, fixed by the seed, and what they met. The last are those of services that join.
pub fn all(length: usize, seed: u64) -> (Vec<Text>, Counts) {
    let mut counts = Counts::default();
    let last: Vec<Text> = cases::last()
        .map(|case| text(case.name, bytes(&case)))
        .collect();
    let drawn = Texts::new(seed).take(length.saturating_sub(last.len()));
    let texts: Vec<Text> = drawn.chain(last).collect();
    for text in &texts {
        count(&mut counts, text);
    }
    (texts, counts)
}

/// The texts of a seed, without end.
pub struct Texts {
    random: Random,
    fixed: VecDeque<(&'static str, Vec<u8>)>,
    drawn: usize,
}

impl Texts {
    /// The texts of this seed, those that every seed has first.
    pub fn new(seed: u64) -> Self {
        let named = cases::all().chain(malformed::cases());
        let named = named.map(|case| (case.name, bytes(&case)));
        let mixed = (0..DRAWN).map(|seed| ("mixed", drawn::mixed(&mut Random::new(seed), 20)));
        Texts {
            random: Random::new(seed),
            fixed: named.chain(mixed).collect(),
            drawn: 0,
        }
    }
}

impl Iterator for Texts {
    type Item = Text;

    /// The next text. Of ten random ones eight are trees, one is mixed and one has malformed lines; later
    /// one in sixty is of a card that does not join. One in six lacks its last byte, mostly an LF.
    fn next(&mut self) -> Option<Text> {
        if let Some((kind, input)) = self.fixed.pop_front() {
            return Some(text(kind, input));
        }
        let random = &mut self.random;
        let lines = random.below(30);
        let strict = self.drawn >= BEFORE_COUNTS && random.once_in(60);
        let (kind, mut input) = match self.drawn % 10 {
            _ if strict => ("another count", drawn::counts(random, lines)),
            3 => ("mixed", drawn::mixed(random, lines)),
            7 => ("malformed", drawn::malformed(random, lines)),
            _ => ("tree", drawn::tree(random)),
        };
        self.drawn += 1;
        if self.random.once_in(6) {
            input.pop();
        }
        Some(text(kind, input))
    }
}

/// Counts a text by its kind and by what its lines meet.
pub fn count(counts: &mut Counts, text: &Text) {
    counts.meet(format!("text: {}", text.kind));
    if text.output.starts_with("image\t1\t") {
        counts.meet("no card");
    }
    for name in &text.met {
        counts.meet(name.as_str());
    }
}

/// The texts that have names.
pub fn named() -> impl Iterator<Item = Case> {
    (cases::all().chain(malformed::cases())).chain(cases::last())
}

/// All that inspect can say, and the texts that have names.
fn possible() -> impl Iterator<Item = String> {
    let named = named().map(|case| format!("text: {}", case.name));
    met::all().chain(["no card".to_string()]).chain(named)
}

/// What inspect can say and a list did not meet.
pub fn unmet(counts: &Counts) -> Vec<String> {
    possible().filter(|name| counts.of(name) == 0).collect()
}
