//! Texts changed at random: bytes, fields and lines of them, and parts of other texts.

use crate::filter::Filter;
use crate::inspect::line::{NAMES, first};
use crate::random::Random;
use crate::texts::Text;
use crate::texts::spoil::{DECIMALS, STRAY};

/// Lengths that lines are filled up to: about the greatest that a line may have, about those of
/// buffers, and beyond.
const LENGTHS: [usize; 12] = [
    16_384, 32_766, 32_767, 32_768, 32_769, 32_770, 65_535, 65_536, 65_537, 98_304, 131_073,
    300_000,
];

/// A text that is shorter than this is taken as it comes; the time is better spent on many short texts.
const SHORT_TEXT: usize = 10_000;

/// A text that is longer than this is not made longer.
const LONG_TEXT: usize = 400_000;

/// How many texts stand by to be changed.
const STOCK: usize = 1_000;

/// Texts that stand by to be changed, and the changed ones, without end. New texts keep coming in,
/// and some of the changed ones are changed again.
pub struct Stock {
    random: Random,
    filter: &'static Filter,
    source: Box<dyn Iterator<Item = Text>>,
    texts: Vec<Vec<u8>>,
}

impl Stock {
    /// The stock of this seed, for a filter.
    pub fn new(filter: &'static Filter, seed: u64) -> Self {
        let mut stock = Stock {
            random: Random::new(!seed),
            filter,
            source: (filter.texts)(seed),
            texts: Vec::new(),
        };
        stock.texts = (0..STOCK).map(|_| stock.drawn()).collect();
        stock
    }

    /// A text of the list. Of those that are long or whose image is refused, most are passed over.
    fn drawn(&mut self) -> Vec<u8> {
        loop {
            let text = self.source.next().expect("the list has no end");
            let plain = text.input.len() < SHORT_TEXT && !text.output.starts_with("image");
            if plain || self.random.once_in(8) {
                return text.input;
            }
        }
    }
}

impl Iterator for Stock {
    type Item = Text;

    /// The next changed text.
    fn next(&mut self) -> Option<Text> {
        let [text, other, place] = [(); 3].map(|_| self.random.below(STOCK));
        let changed = mutated(&mut self.random, &self.texts[text], &self.texts[other]);
        let changed = (self.filter.text)(changed);
        if self.random.once_in(20) {
            self.texts[place] = self.drawn();
        } else if self.random.once_in(20) && !changed.output.starts_with("image") {
            self.texts[place] = changed.input.clone();
        }
        Some(changed)
    }
}

/// The lines of a text, each with its LF.
type Lines = Vec<Vec<u8>>;

/// A text made of one by a few changes, for which lines and fields of the other are taken too.
fn mutated(random: &mut Random, text: &[u8], other: &[u8]) -> Vec<u8> {
    let split = |text: &[u8]| -> Lines {
        let lines = text.split_inclusive(|&byte| byte == b'\n');
        lines.map(<[u8]>::to_vec).collect()
    };
    let (mut lines, other) = (split(text), split(other));
    for _ in 0..1 + random.below(6) {
        if lines.is_empty() || other.is_empty() {
            break;
        }
        // Most changes are meant for what follows the image: one in it mostly ends the run.
        let asks = lines.iter().position(|line| asks(line)).unwrap_or(0);
        let spared = if random.once_in(6) { 0 } else { asks };
        let at = spared + random.below(lines.len() - spared);
        match random.below(3) {
            0 => bytes(random, &mut lines[at]),
            1 => fields(random, &mut lines[at], &other),
            _ => whole(random, &mut lines, at, &other),
        }
    }
    lines.concat()
}

/// Whether a line, with its LF, is a request or a question.
fn asks(line: &[u8]) -> bool {
    let line = line.strip_suffix(b"\n").unwrap_or(line);
    let question = NAMES.iter().any(|name| name.as_bytes() == first(line));
    question || matches!(line.first(), Some(b'R' | b'W' | b'L'))
}

/// Changes some bytes of a line.
fn bytes(random: &mut Random, line: &mut Vec<u8>) {
    let at = random.below(line.len().max(1));
    let end = (at + 1 + random.below(20)).min(line.len());
    match random.below(6) {
        0 if at < line.len() => line[at] ^= 1 << random.below(8),
        1 if at < line.len() => line[at] = random.pick(&STRAY),
        2 if at < line.len() => line[at] = random.word() as u8,
        3 => line.insert(at, random.pick(b"\t\n-0123456789ABCDEFabcdefRWLOS")),
        4 if at < end => {
            line.drain(at..end);
        }
        5 => line.truncate(at),
        _ => {}
    }
}

/// Changes one field of a line; tabs and the LF stay.
fn fields(random: &mut Random, line: &mut Vec<u8>, other: &Lines) {
    let any = |random: &mut Random, line: &[u8]| {
        let fields: Vec<&[u8]> = line.split(|&byte| byte == b'\t').collect();
        let at = random.below(fields.len());
        fields[at]
            .strip_suffix(b"\n")
            .unwrap_or(fields[at])
            .to_vec()
    };
    let own = any(random, line);
    let line_of_other = random.below(other.len());
    let strange = any(random, &other[line_of_other]);
    let mut parts: Lines = line
        .split(|&byte| byte == b'\t')
        .map(<[u8]>::to_vec)
        .collect();
    let at = random.below(parts.len());
    let ended = parts[at].ends_with(b"\n");
    let part = &mut parts[at];
    part.truncate(part.len() - usize::from(ended));
    match random.below(8) {
        0 => part.clear(),
        1 => *part = own,
        2 => *part = strange,
        3 => *part = random.pick(&DECIMALS).into(),
        4 => *part = b"-".to_vec(),
        5 => part.extend(own),
        6 => *part = part.repeat(1 + random.below(4)),
        _ => part.make_ascii_lowercase(),
    }
    part.extend(ended.then_some(b'\n'));
    *line = parts.join(&b'\t');
}

/// Changes lines as a whole, at a place.
fn whole(random: &mut Random, lines: &mut Lines, at: usize, other: &Lines) {
    let length: usize = lines.iter().map(Vec::len).sum();
    let place = random.below(lines.len());
    let others = random.below(other.len());
    match random.below(9) {
        0 => {
            lines.remove(at);
        }
        1 if length < LONG_TEXT => {
            let again = vec![lines[at].clone(); 1 + random.below(3)];
            lines.splice(at..at, again);
        }
        2 => lines.swap(at, place),
        3 => lines.insert(at, other[others].clone()),
        4 => {
            lines.truncate(at + 1);
            lines.extend_from_slice(&other[others..]);
        }
        5 if length < LONG_TEXT && random.once_in(4) => fill(random, &mut lines[at]),
        6 => lines[at].retain(|&byte| byte != b'\n'),
        7 if length < LONG_TEXT => {
            let tail = lines[at..].to_vec();
            lines.extend(tail);
        }
        8 => lines.insert(at, b"\n".to_vec()),
        _ => {}
    }
}

/// Fills a line up to a great length with a byte, at a place.
fn fill(random: &mut Random, line: &mut Vec<u8>) {
    let ended = line.ends_with(b"\n");
    let length = random.pick(&LENGTHS) + usize::from(ended);
    let at = random.below(line.len() + 1 - usize::from(ended));
    let byte = random.pick(b"00000AF-\tRWL\0\xFF");
    let missing = length.saturating_sub(line.len());
    line.splice(at..at, vec![byte; missing]);
}
