//! Replay texts: those that are the same for every seed, then random ones of every kind; and what
//! is printed for them.

mod ahead;
pub mod boards;
mod edges;
mod image;
mod joins;
pub mod line;
mod long;
pub mod malformed;
mod resent;
pub mod served;
pub mod spoil;

use crate::counts::Counts;
use crate::random::Random;
use crate::replay::line::is_request;
use crate::replay::watched;
use crate::terminals;
use boards::met::Met;
use served::Taste;
use std::collections::VecDeque;

/// Length and seed of the list that is stored.
pub const SMALL: (usize, u64) = (701, 1);

/// Texts with boards come after so many random ones: those stored before there were boards keep their
/// numbers.
const BEFORE_BOARDS: usize = 255;

/// Texts of cards that do not join come after so many random ones, which no stored list has.
const BEFORE_COUNTS: usize = 400;

/// How many of the texts with boards that every seed has are drawn; the others have names.
const DRAWN_BOARDS: u64 = 30;

/// A text, with the name of its kind, what is printed for it, and what it meets: here its refreshes.
pub struct Text {
    pub kind: &'static str,
    pub input: Vec<u8>,
    pub output: String,
    pub met: Vec<String>,
}

impl Text {
    /// A text of no kind in particular, answered.
    pub fn of(input: Vec<u8>) -> Self {
        Text::new("other", input)
    }

    /// The text of a kind, answered.
    fn new(kind: &'static str, input: Vec<u8>) -> Self {
        let mut met = Met::default();
        let output = watched(&input, |card, line| met.watch(card, line));
        Text {
            kind,
            input,
            output,
            met: met.names.iter().map(ToString::to_string).collect(),
        }
    }
}

/// This many texts, fixed by the seed, and what they met. The last are those of writes that are sent
/// twice, of services that join, and of what comes ahead of what.
pub fn all(length: usize, seed: u64) -> (Vec<Text>, Counts) {
    let mut counts = Counts::default();
    let resent = resent::texts().map(|input| ("sent twice", input));
    let joined = joins::texts().map(|input| ("joined", input));
    let ahead = ahead::texts().map(|input| ("ahead", input));
    let last: Vec<_> = resent.chain(joined).chain(ahead).collect();
    let drawn = Texts::new(seed).take(length.saturating_sub(last.len()));
    let last = last.into_iter().map(|(kind, input)| Text::new(kind, input));
    let texts: Vec<Text> = drawn.chain(last).collect();
    for text in &texts {
        count(&mut counts, text);
    }
    (texts, counts)
}

/// The texts of a seed, without end.
pub struct Texts {
    random: Random,
    fixed: VecDeque<(&'static str, Vec<u8>)>,
    boards: VecDeque<(&'static str, Vec<u8>)>,
    drawn: usize,
    terminals: Vec<Vec<u8>>,
}

impl Texts {
    /// The texts of this seed, those that every seed has first.
    pub fn new(seed: u64) -> Self {
        let edges = edges::texts().map(|text| ("edge", text));
        let malformed = malformed::texts().into_iter();
        let malformed = malformed.map(|text| ("malformed line", text));
        Texts {
            random: Random::new(seed),
            fixed: edges.chain(malformed).collect(),
            boards: boards().collect(),
            drawn: 0,
            terminals: Vec::new(),
        }
    }

    /// The next text that is not of those that every seed has first, with the name of its kind: once the
    /// boards have begun, those that every seed has, and then one text in four is of boards.
    fn later(&mut self) -> (&'static str, Vec<u8>) {
        if self.drawn >= BEFORE_BOARDS {
            if let Some(board) = self.boards.pop_front() {
                return board;
            }
            if self.random.once_in(4) {
                let lines = 2 + self.random.below(16);
                return ("board", boards::text(&mut self.random, lines));
            }
        }
        if self.drawn >= BEFORE_COUNTS && self.random.once_in(20) {
            return ("another count", image::counts(&mut self.random));
        }
        self.draw()
    }

    /// The next random text, with the name of its kind. Of twenty, one has a long line, seven are
    /// trees, two have requests of two terminals; one in 150 is large.
    fn draw(&mut self) -> (&'static str, Vec<u8>) {
        let at = self.drawn;
        self.drawn += 1;
        let random = &mut self.random;
        if at % 150 == 60 {
            let lines = 200 + random.below(200);
            return ("large", served::text(random, Taste::MIXED, lines));
        }
        let lines = random.below(21);
        match at % 20 {
            turn @ 0..6 => ("refused image", image::text(random, at / 20 * 6 + turn)),
            6 => ("tree", image::grown(random)),
            7 | 8 => ("element checks", served::text(random, Taste::CHECKS, lines)),
            9 | 10 => ("purse", served::text(random, Taste::PURSE, lines)),
            11 | 12 => ("cyclic", served::text(random, Taste::CYCLIC, lines)),
            13 | 14 => ("malformed", served::text(random, Taste::MALFORMED, lines)),
            15 | 16 => ("mixed", served::text(random, Taste::MIXED, lines)),
            17 | 18 => ("two terminals", self.terminal()),
            _ => ("long line", long::text(at / 20)),
        }
    }

    /// The next text of two terminals: all orders of a pair, then those of another one.
    fn terminal(&mut self) -> Vec<u8> {
        if self.terminals.is_empty() {
            self.terminals = terminals::Pair::draw(&mut self.random).texts();
        }
        self.terminals.pop().expect("a pair has several orders")
    }
}

impl Iterator for Texts {
    type Item = Text;

    /// The next text. One random text in six lacks its last byte, mostly an LF.
    fn next(&mut self) -> Option<Text> {
        if let Some((kind, input)) = self.fixed.pop_front() {
            return Some(Text::new(kind, input));
        }
        let named = self.boards.len();
        let (kind, mut input) = self.later();
        let drawn = self.boards.len() == named && kind != "long line";
        if drawn && self.random.once_in(6) {
            input.pop();
        }
        Some(Text::new(kind, input))
    }
}

/// The texts with boards that every seed has: one of malformed lines, those that have names, and some that
/// are drawn, always the same.
fn boards() -> impl Iterator<Item = (&'static str, Vec<u8>)> {
    let named = boards::cases::all();
    let named = named.map(|case| (case.name, case.text.replace('|', "\t").into_bytes()));
    let drawn = (0..DRAWN_BOARDS).map(|seed| ("board", boards::text(&mut Random::new(seed), 14)));
    let malformed = ("malformed line", malformed::refreshes());
    [malformed].into_iter().chain(named).chain(drawn)
}

/// Counts a text by its kind, what its refreshes meet, and each line that is printed for it.
pub fn count(counts: &mut Counts, text: &Text) {
    counts.meet(format!("text: {}", text.kind));
    if text.output.is_empty() {
        counts.meet("nothing printed");
    }
    for name in &text.met {
        counts.meet(format!("board: {name}"));
    }
    for line in text.output.lines() {
        let fields: Vec<&str> = line.split('\t').collect();
        match fields.as_slice() {
            ["image", _, refusal] => counts.meet(format!("image refused {refusal}")),
            [_, _, _] => counts.meet("lanes printed"),
            [_, "!", refusal, ..] => counts.meet(format!("request refused {refusal}")),
            [_, "00", ..] => counts.meet("done"),
            [ordinal, sf1, sf2, .., cause] => {
                counts.meet(format!("SF1 {sf1}"));
                counts.meet(format!("SF2 {sf2}"));
                if *cause != "-" {
                    let kind = kind_of(&text.input, ordinal);
                    counts.meet(format!("cause {cause}, {kind}"));
                }
            }
            _ => unreachable!("replay prints three or six fields"),
        }
    }
}

/// Whether the request of this ordinal is an open one or in a session.
fn kind_of(text: &[u8], ordinal: &str) -> &'static str {
    let lines = text.split(|&byte| byte == b'\n');
    let ordinal: usize = ordinal.parse().expect("an ordinal is a number");
    let mut requests = lines.skip_while(|line| !is_request(line));
    match requests.nth(ordinal - 1) {
        Some([_, _, b'O', ..]) => "open",
        _ => "session",
    }
}

/// What replay can say: every refusal, every place from 01 to FF, every SF2, and every cause of an
/// A5, of open requests and, but for a key that is needed, in sessions; and what refreshes can meet,
/// with the texts that have names. Refusals 4, 5, 7 and 8 are not among them: replay lends enough of
/// each and its card is always a built one.
fn possible() -> impl Iterator<Item = String> {
    let image = (11..=24).chain([28, 30]);
    let requests = [1, 2, 3, 6].into_iter().chain(40..=43);
    let named = boards::cases::all().map(|case| format!("text: {}", case.name));
    let sf2 = [
        0x01, 0x02, 0x03, 0xA3, 0xA4, 0xA5, 0xA6, 0xA7, 0xA8, 0xAC, 0xAF,
    ];
    image
        .map(|number| format!("image refused {number}"))
        .chain(requests.map(|number| format!("request refused {number}")))
        .chain((1..=255).map(|sf1| format!("SF1 {sf1:02X}")))
        .chain(sf2.map(|sf2| format!("SF2 {sf2:02X}")))
        .chain((1..=7).map(|cause| format!("cause {cause}, open")))
        .chain((2..=7).map(|cause| format!("cause {cause}, session")))
        .chain(["done".to_string()])
        .chain(boards::met::ALL.iter().map(|name| format!("board: {name}")))
        .chain(named)
}

/// What replay can say and a list did not meet.
pub fn unmet(counts: &Counts) -> Vec<String> {
    possible().filter(|name| counts.of(name) == 0).collect()
}
