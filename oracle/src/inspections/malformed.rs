//! Malformed questions, the same for every seed: each field of each question in every wrong form, and a field
//! too few or too many.

use super::cases::Case;
use crate::texts::malformed::spoilt;

/// A good line of each question, and a letter for the form of each field after the first.
const QUESTIONS: [(&str, &str); 14] = [
    ("list|0000|0", "cd"),
    ("info|1049", "n"),
    ("readlist|000000", "h"),
    ("readinfo|00", "h"),
    ("total|1049", "c"),
    ("ver|1049", "c"),
    ("dir", ""),
    ("areas|0000", "n"),
    ("svcs|1049", "n"),
    ("block|1049|0", "cd"),
    ("used", ""),
    ("attr|1049", "c"),
    ("room|3", "r"),
    ("arena|32", "a"),
];

/// A text of malformed questions, each of which is told its line's number alone, and a good one at the end
/// that is lent what was lent at first.
pub fn cases() -> impl Iterator<Item = Case> {
    let lines = QUESTIONS.into_iter().flat_map(|question| {
        let mut lines = spoilt(question);
        lines.retain(|line| line != question.0);
        lines
    });
    let lines: Vec<String> = lines.collect();
    let told: String = (3..3 + lines.len())
        .map(|number| format!("?|{number}\n"))
        .collect();
    let lines = lines.join("\n");
    [Case {
        name: "malformed questions",
        text: format!("card|0001|0000\nsvc|1|1049|2|0000\n{lines}\ninfo|0000\ndir\n"),
        told: format!("{told}info|010200FE0F\ndir|0000FFFE1049FFFF\n"),
    }]
    .into_iter()
}
