//! Texts that are always in the list, each with its name and with what is printed for it, worked out by
//! hand. `|` stands for a tab.

mod information;
mod joins;
mod lines;
mod lists;
mod questions;
mod readers;

pub use crate::texts::boards::cases::Case;

/// The line that starts an image.
const CARD: &str = "card|0001|0000\n";

/// The same of a card that joins.
const JOINING: &str = "card|0001|0000|join\n";

/// A case of these lines, each with what it is told, after an image that prints nothing.
fn case<L: AsRef<str>, T: AsRef<str>>(name: &'static str, image: &str, lines: &[(L, T)]) -> Case {
    let (mut text, mut told) = (image.to_string(), String::new());
    for (line, answer) in lines {
        text += line.as_ref();
        text.push('\n');
        told += answer.as_ref();
        if !answer.as_ref().is_empty() {
            told.push('\n');
        }
    }
    Case { name, text, told }
}

/// A number of 16 bits in hex, low byte first.
fn low_first(number: u16) -> String {
    format!("{:02X}{:02X}", number & 0xFF, number >> 8)
}

/// The code of the service of this number that reads and writes a random store without a key.
fn code_of(number: u16) -> u16 {
    number << 6 | 0x09
}

/// The lines of services of the numbers 1 to `count`, one block each.
fn services(count: u16) -> String {
    let line = |number| format!("svc|1|{:04X}|1|0000\n", code_of(number));
    (1..=count).map(line).collect()
}

/// The sample that README.md shows, and what it prints.
fn sample() -> Case {
    let text = include_str!("../../../../samples/inspect.txt");
    let told = include_str!("../../../../samples/inspect.out");
    Case {
        name: "sample: race 7",
        text: text.to_string(),
        told: told.to_string(),
    }
}

/// Those that a list starts with.
pub fn all() -> impl Iterator<Item = Case> {
    let cases = [
        vec![sample()],
        lines::starts(),
        lines::mixtures(),
        lines::refused(),
        lines::lent(),
        lists::children(),
        lists::packets(),
        lists::refused(),
        information::counts(),
        information::refused(),
        readers::lists(),
        readers::informations(),
        questions::tree(),
        questions::blocks(),
        questions::codes(),
        lines::long(),
    ];
    cases.into_iter().flatten()
}

/// Those that a list ends with.
pub fn last() -> impl Iterator<Item = Case> {
    joins::counts().into_iter().chain(joins::malformed())
}
