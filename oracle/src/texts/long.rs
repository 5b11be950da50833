//! Texts with a line of about the greatest length, by its first field, length and place. `|`
//! stands for a tab.

use crate::replay::line::MOST_BYTES;

/// What stands before and after the zeros that fill the long line. Where the zeros are whole bytes
/// or codes, at one of the lengths, a line is well formed: the first two reads have a list that
/// runs on, the third has too many codes, and the writes have surplus data.
const LINES: [(&str, &str); 12] = [
    ("card|0001|", ""),
    ("area|1|0100|01FF|", ""),
    ("svc|1|", "|2|0000"),
    ("lim|", "|0|0"),
    ("blk|1049|0|", ""),
    ("R|O|1049|1|8000", ""),
    ("R|O|-|1|8000", ""),
    ("R|O|", "|0|-"),
    ("W|O|1049|1|8000|", ""),
    ("W|O|-|1|8000|", ""),
    ("", ""),
    ("X", "|"),
];

/// One byte less than the greatest length, that length, and one more.
const LENGTHS: [usize; 3] = [MOST_BYTES - 1, MOST_BYTES, MOST_BYTES + 1];

/// What stands before the long line: nothing, an image, an image and a request.
const PLACES: [&str; 3] = [
    "",
    "card|0001|0000\nsvc|1|1049|2|0000\n",
    "card|0001|0000\nsvc|1|1049|2|0000\nR|O|1049|1|8001\n",
];

/// The text of this turn. All lines, lengths and places come by in 108 turns, spread over them;
/// every second text ends with the long line, without its LF.
pub fn text(turn: usize) -> Vec<u8> {
    let spread = turn * 37 % (LINES.len() * LENGTHS.len() * PLACES.len());
    let (start, end) = LINES[spread % LINES.len()];
    let length = LENGTHS[spread / LINES.len() % LENGTHS.len()];
    let place = PLACES[spread / LINES.len() / LENGTHS.len()];
    let zeros = "0".repeat(length - start.len() - end.len());
    let rest = match turn % 2 {
        0 => "\nR|O|1049|1|8000\n",
        _ => "",
    };
    let text = format!("{place}{start}{zeros}{end}{rest}");
    text.replace('|', "\t").into_bytes()
}
