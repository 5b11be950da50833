//! A whole text for the inspection tool: an image, requests and questions, mixed, and the lines that are
//! printed for it. What the Rust has a function for, it answers; what it has only a struct for is put
//! into that struct (`lists`) and written out by the rules (`message`).

pub mod line;
pub mod lists;
pub mod message;
pub mod question;

use crate::refusal::{IMAGE_LINE, Refusal};
use crate::replay::{self, ARENA};
use crate::tree::Card;
use line::{Kind, Question};

/// The length in bytes of the output that is lent at first, and the greatest there is.
pub const ROOM: usize = 4_096;

/// What is lent to questions.
#[derive(Clone, Copy)]
pub struct Lent {
    /// The length in bytes of the output.
    pub room: usize,
    /// The length in bytes of the arena.
    pub arena: usize,
}

/// A line that was answered: the card and what was lent as it left them, and what it printed.
pub struct Seen<'a> {
    pub card: &'a Card,
    pub lent: Lent,
    pub line: &'a [u8],
    pub printed: &'a str,
}

/// What is printed for a text.
pub fn inspect(text: &[u8]) -> String {
    watched(text, |_| {})
}

/// The same, and each line after the first is shown once it is answered.
pub fn watched(text: &[u8], mut watch: impl FnMut(Seen)) -> String {
    let mut lines = replay::lines(text);
    let Some(card) = replay::start(lines.next()) else {
        return format!("image\t1\t{IMAGE_LINE}\n");
    };
    let mut session = Session {
        card,
        lent: Lent {
            room: ROOM,
            arena: ARENA,
        },
        ordinal: 0,
        ended: false,
    };
    let mut out = String::new();
    while let Some((number, line)) = lines.next().filter(|_| !session.ended) {
        let printed = session.line(number, line);
        out += &printed;
        watch(Seen {
            card: &session.card,
            lent: session.lent,
            line,
            printed: &printed,
        });
    }
    out
}

/// The line that is printed for a question, without its LF: its name, and the fields of its answer.
pub fn printed(asked: &Question, answer: &Result<String, Refusal>) -> String {
    let name = asked.name();
    match answer {
        Ok(fields) => format!("{name}\t{fields}"),
        Err(refusal) => format!("{name}\t!\t{refusal}"),
    }
}

/// The card and what is lent as the lines so far left them, how many of these were requests, and whether an
/// image line was refused.
struct Session {
    card: Card,
    lent: Lent,
    ordinal: usize,
    ended: bool,
}

impl Session {
    /// What is printed for the next line, which has this number.
    fn line(&mut self, number: usize, line: &[u8]) -> String {
        match line::kind(line) {
            Kind::Image => match replay::take(&mut self.card, line) {
                Ok(()) => String::new(),
                Err(refusal) => {
                    self.ended = true;
                    format!("image\t{number}\t{refusal}\n")
                }
            },
            Kind::Request => {
                self.ordinal += 1;
                replay::request(&mut self.card, self.ordinal, line)
            }
            Kind::Other => match line::question(line) {
                Some(asked) => self.question(&asked),
                None => format!("?\t{number}\n"),
            },
        }
    }

    /// What is printed for a question, its name first; nothing for one that says what is lent.
    fn question(&mut self, asked: &Question) -> String {
        match *asked {
            Question::Room(room) => self.lent.room = room,
            Question::Arena(arena) => self.lent.arena = arena,
            _ => {
                let answer = question::answer(&mut self.card, self.lent, asked);
                return printed(asked, &answer) + "\n";
            }
        }
        String::new()
    }
}
