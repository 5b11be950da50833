//! What the calls of a list meet, for the counts: what their questions meet in a text, and what the calls of the
//! library have beside them.

use super::{ARENAS, needed};
use crate::counts::Counts;
use crate::inspect::line::Question;
use crate::inspect::lists::PACKET;
use crate::inspect::{Lent, printed};
use crate::inspections::met;
use crate::refusal::{NO_MESSAGE, OUTPUT_SHORT, Refusal};
use crate::tree::Card;

/// The ways in which the bytes lent are no card's, numbered from 1.
pub const WAYS: [&str; 3] = [
    "a count of records that none has",
    "a byte less",
    "a byte more",
];

/// A card that does not join, and one that does.
pub const JOINS: [&str; 2] = ["a card that does not join", "a card that joins"];

/// The calls that write a message, with the refusals after 8.
const WRITERS: [(&str, [Refusal; 3]); 2] = [("list", [44, 45, 5]), ("info", [7, 46, 5])];

/// The calls that read one.
const READERS: [&str; 2] = ["readlist", "readinfo"];

/// What each call that reads a message has to meet, beside what its question does.
const READ: [&str; 6] = [
    ": just the lists",
    ": longer lists",
    " refused 5: the first a number less",
    " refused 5: the second a number less",
    " refused 5: both shorter",
    " refused 47: ahead of 5",
];

/// A message that has one entry too many, and is one otherwise.
const ONE_TOO_MANY: &str = "readlist refused 47: seventeen entries";

/// What was met so far.
#[derive(Default)]
pub struct Met(met::Met);

impl Met {
    /// The names of all that was met.
    pub fn names(&self) -> &[String] {
        &self.0.names
    }

    /// Notes a name if it holds.
    fn when(&mut self, holds: bool, name: String) {
        if holds {
            self.0.names.push(name);
        }
    }

    /// Notes what the question of a call met.
    fn question(
        &mut self,
        card: &Card,
        lent: Lent,
        asked: &Question,
        told: &Result<String, Refusal>,
    ) {
        let printed = printed(asked, told);
        let fields: Vec<&str> = printed.split('\t').collect();
        self.0.question(card, lent, asked, &fields);
    }

    /// Notes what a call met that writes a message.
    pub fn written(
        &mut self,
        card: &Card,
        lent: Lent,
        asked: &Question,
        told: &Result<String, Refusal>,
    ) {
        self.question(card, lent, asked, told);
        let longer = (told.as_ref()).is_ok_and(|message| 2 * lent.room > message.len());
        self.when(longer, format!("{}: longer room", asked.name()));
    }

    /// Notes that an arena of this length was lent.
    pub fn arena(&mut self, length: usize) {
        self.when(true, format!("an arena of {length} bytes"));
    }

    /// Notes what such a call met on bytes that are no card's, by what it would be told of the card.
    pub fn unbuilt(&mut self, asked: &Question, way: usize, told: &Result<String, Refusal>) {
        let name = asked.name();
        self.when(true, format!("{name} refused 8: {}", WAYS[way]));
        self.when(
            true,
            match told {
                Ok(_) => format!("{name} refused 8"),
                Err(refusal) => format!("{name} refused 8: ahead of {refusal}"),
            },
        );
    }

    /// Notes what a call met that reads a message into lists of so many numbers.
    pub fn read(
        &mut self,
        card: &Card,
        room: Lent,
        asked: &Question,
        lent: [usize; 2],
        told: &Result<String, Refusal>,
    ) {
        let name = asked.name();
        let Some([first, second]) = needed(asked) else {
            self.question(card, room, asked, told);
            let ahead = *told == Err(NO_MESSAGE) && lent == [0, 0];
            self.when(ahead, format!("{name} refused 47: ahead of 5"));
            self.when(one_too_many(asked), ONE_TOO_MANY.to_string());
            return;
        };
        let refused = |what: &str| format!("{name} refused 5: {what}");
        if *told == Err(OUTPUT_SHORT) {
            self.when(
                lent == [first.wrapping_sub(1), second],
                refused("the first a number less"),
            );
            self.when(
                lent == [first, second.wrapping_sub(1)],
                refused("the second a number less"),
            );
            self.when(lent[0] < first && lent[1] < second, refused("both shorter"));
            return;
        }
        self.question(card, room, asked, told);
        self.when(lent == [first, second], format!("{name}: just the lists"));
        self.when(lent[0] > first, format!("{name}: longer lists"));
    }
}

/// Whether a reader is given a code list of seventeen entries that is whole.
fn one_too_many(asked: &Question) -> bool {
    let Question::ReadList(bytes) = asked else {
        return false;
    };
    let areas = usize::from(bytes.get(1).copied().unwrap_or(0));
    let services = usize::from(bytes.get(2 + 4 * areas).copied().unwrap_or(0));
    areas + services == PACKET + 1 && bytes.len() == 3 + 4 * areas + 2 * services && bytes[0] < 2
}

/// What a list has to meet.
fn all() -> impl Iterator<Item = String> {
    let asked = met::all().filter(|name| {
        let call = name.split([' ', ':']).next().unwrap_or(name);
        WRITERS.iter().any(|(name, _)| *name == call) || READERS.contains(&call)
    });
    let written = WRITERS.into_iter().flat_map(|(name, refusals)| {
        let ahead = refusals.map(|refusal| format!("{name} refused 8: ahead of {refusal}"));
        let ways = WAYS.map(|way| format!("{name} refused 8: {way}"));
        let others = [format!("{name} refused 8"), format!("{name}: longer room")];
        ahead.into_iter().chain(ways).chain(others)
    });
    let read = (READERS.into_iter()).flat_map(|name| READ.map(|what| format!("{name}{what}")));
    let arenas = ARENAS.map(|length| format!("an arena of {length} bytes"));
    let others = JOINS.into_iter().chain([ONE_TOO_MANY]).map(String::from);
    asked.chain(written).chain(read).chain(arenas).chain(others)
}

/// What a list did not meet.
pub fn unmet(counts: &Counts) -> Vec<String> {
    all().filter(|name| counts.of(name) == 0).collect()
}
