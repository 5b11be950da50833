//! What lanes say: boards, the refusals of lanes, and which of two comes first.

use super::{Case, EIGHT, EMPTY, case, set};
use crate::draw::lanes::{block, only};
use crate::felica_standard::emulator::doors::Block;

/// A case of one refresh of these blocks, by their lanes, in eight of 1049.
fn one(name: &'static str, blocks: &[(u8, Block)], told: impl Into<String>) -> Case {
    let set = |&(lane, block): &(u8, Block)| set(0x1049, lane, block);
    let blocks: String = blocks.iter().map(set).collect();
    case(name, format!("{EIGHT}{blocks}L|1049\n"), told)
}

/// Lane 1 of race 7, sound.
fn leander() -> (u8, Block) {
    (1, block(1, 7, "LEANDER", 0))
}

/// The one line of a refusal.
fn refused(number: u8) -> String {
    format!("1|!|{number}|-|-|-\n")
}

/// Boards, and what they print.
pub fn sound() -> Vec<Case> {
    let crews = ["A", " A", "A  B", "", "TWELVE BYTES", "-", "~!~", "  x  y"];
    let crewed: Vec<(u8, Block)> = (1..)
        .zip(crews)
        .map(|(lane, crew)| (lane, block(lane, 7, crew, 0)))
        .collect();
    let full = "1|7|A\n2|7| A\n3|7|A  B\n4|7|\n5|7|TWELVE BYTES\n6|7|-\n7|7|~!~\n8|7|  x  y\n";
    let two = [(2, block(2, 258, "TWO", 0)), (7, block(7, 258, "SEVEN", 0))];
    let between = "1|-|-\n2|258|TWO\n3|-|-\n4|-|-\n5|-|-\n6|-|-\n7|258|SEVEN\n8|-|-\n";
    let first = |race: &str, crew: &str| EMPTY.replacen("1|-|-", &format!("1|{race}|{crew}"), 1);
    vec![
        one("board: eight empty lanes", &[], EMPTY),
        one("board: crews, and spaces in every place", &crewed, full),
        one("board: two lanes filled", &two, between),
        one(
            "board: race 0",
            &[(1, block(1, 0, "A", 0))],
            first("0", "A"),
        ),
        one(
            "board: race 65535",
            &[(1, block(1, 65_535, "A", 0))],
            first("65535", "A"),
        ),
        one(
            "board: race 256",
            &[(1, block(1, 256, "A", 0))],
            first("256", "A"),
        ),
        one(
            "board: 20h and 7Eh",
            &[(1, block(1, 7, " ~          ", 0))],
            first("7", " ~"),
        ),
    ]
}

/// Each refusal of a lane by itself.
pub fn refusals() -> Vec<Case> {
    let crew = |at: usize, byte: u8| {
        let mut block = block(1, 7, "LEANDER", 0);
        block[at] = byte;
        [(1, block)]
    };
    vec![
        one(
            "41: the next lane's",
            &[(1, block(2, 7, "A", 0))],
            refused(41),
        ),
        one("41: a digit", &[(1, block(b'1', 7, "A", 0))], refused(41)),
        one(
            "41: in lane 8, counted from 0",
            &[(8, block(7, 7, "A", 0))],
            refused(41),
        ),
        one(
            "41: byte 0 is zero, the rest is not",
            &[(3, block(0, 7, "A", 0))],
            refused(41),
        ),
        one("41: only byte 15 set", &[(4, only(15, 1))], refused(41)),
        one("41: only byte 14 set", &[(4, only(14, 0x20))], refused(41)),
        one("42: only byte 0 set", &[(4, only(0, 4))], refused(42)),
        one("42: 1F", &crew(3, 0x1F), refused(42)),
        one("42: 7F, the last byte", &crew(14, 0x7F), refused(42)),
        one("42: a zero within", &crew(5, 0x00), refused(42)),
        one("42: a zero for a space", &crew(14, 0x00), refused(42)),
        one("42: a tab", &crew(6, 0x09), refused(42)),
        one("42: an LF", &crew(6, 0x0A), refused(42)),
        one("42: FF", &crew(3, 0xFF), refused(42)),
        one("43: 1", &[(1, block(1, 7, "A", 1))], refused(43)),
        one("43: a space", &[(8, block(8, 7, "A", 0x20))], refused(43)),
        one(
            "40: the low bytes",
            &[leander(), (2, block(2, 8, "B", 0))],
            refused(40),
        ),
        one(
            "40: the high bytes",
            &[leander(), (2, block(2, 263, "B", 0))],
            refused(40),
        ),
        one(
            "40: beside race 0",
            &[leander(), (8, block(8, 0, "B", 0))],
            refused(40),
        ),
        one(
            "40: the last two lanes",
            &[(7, block(7, 7, "A", 0)), (8, block(8, 9, "B", 0))],
            refused(40),
        ),
        one(
            "40: one of three",
            &[
                leander(),
                (4, block(4, 9, "B", 0)),
                (5, block(5, 7, "C", 0)),
            ],
            refused(40),
        ),
    ]
}

/// Two refusals at once, and which comes first.
pub fn orders() -> Vec<Case> {
    let bad = |lane: u8, last: u8| block(lane, 7, "\u{1}", last);
    let other = |lane: u8| (lane, block(9, 7, "A", 0));
    vec![
        one(
            "order: 41 ahead of 42 of its lane",
            &[(1, bad(2, 0))],
            refused(41),
        ),
        one(
            "order: 41 ahead of 43 of its lane",
            &[(1, block(2, 7, "A", 1))],
            refused(41),
        ),
        one(
            "order: 42 ahead of 43 of its lane",
            &[(1, bad(1, 1))],
            refused(42),
        ),
        one(
            "order: 41, 42 and 43 in a lane",
            &[(5, bad(6, 1))],
            refused(41),
        ),
        one(
            "order: 42 ahead of 41 of a later lane",
            &[(1, bad(1, 0)), other(2)],
            refused(42),
        ),
        one(
            "order: 43 ahead of 41 of a later lane",
            &[(1, block(1, 7, "A", 1)), other(2)],
            refused(43),
        ),
        one(
            "order: 43 ahead of 42 of a later lane",
            &[(3, block(3, 7, "A", 1)), (8, bad(8, 0))],
            refused(43),
        ),
        one(
            "order: 41 ahead of 43 of a later lane",
            &[other(7), (8, block(8, 7, "A", 1))],
            refused(41),
        ),
        one(
            "order: 41 ahead of 40",
            &[leander(), (2, block(2, 8, "B", 0)), other(8)],
            refused(41),
        ),
        one(
            "order: 42 ahead of 40",
            &[leander(), (2, block(2, 8, "B", 0)), (8, bad(8, 0))],
            refused(42),
        ),
        one(
            "order: 43 ahead of 40",
            &[
                leander(),
                (2, block(2, 8, "B", 0)),
                (8, block(8, 8, "C", 1)),
            ],
            refused(43),
        ),
    ]
}
