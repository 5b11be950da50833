//! Texts that are always in the list: the rules about lines, each by its smallest input.

use crate::replay::line::MOST_BYTES;

/// The texts, with `|` for a tab.
const TEXTS: [&str; 52] = [
    // The whole case of docs/RULES.md.
    "card|0001|0000|join\nsvc|1|1049|2|0000\nsvc|1|104B|5|0000\n\
     W|O|1049|1|8001|11111111111111111111111111111111\nR|O|104B|1|8001\nR|O|104B|1|8002\n",
    // Empty input, empty lines, line ends.
    "",
    "\n",
    "\n\n",
    "card|0001|0000",
    "card|0001|0000\n",
    "card|0001|0000\n\n",
    "card|0001|0000\n\nR|O|-|0|-\n",
    "card|0001|0000\nR|O|-|0|-\n\n\n",
    "card|0001|0000\nR|O|-|0|-",
    "card|0001|0000\r\nR|O|-|0|-\r\n",
    "card|0001|0000\nR|O|-|0|-\r\nR|O|-|0|-\n",
    "card|0001|0000\rR|O|-|0|-\n",
    "card|0001|0000\nR\0\nR|O|-|0|-\n",
    "\0",
    "|||\n",
    // What line 1 may be, and where `card` may stand.
    "R|O|-|0|-\ncard|0001|0000\n",
    "W|O|-|0|-|-\n",
    "R",
    "svc|1|1049|2|0000\n",
    "card|0001\n",
    "card|0001|0000|\n",
    " card|0001|0000\n",
    "card|0001|0000\ncard|0001|0000\nR|O|-|0|-\n",
    "card|0001|0000\nR|O|-|0|-\ncard|0001|0000\nsvc|1|1049|2|0000\nR|O|1049|1|8000\n",
    // The first field makes a request, whatever follows.
    "card|0001|0000\nR\nR|O|-|0|-\n",
    "card|0001|0000\nW|\nX|\nR|O|-|0|-\n",
    "card|0001|0000\nRR|O|-|0|-\n",
    "card|0001|0000\nR O - 0 -\n",
    // Limits: before any node, after an area, after a set block, twice.
    "card|0001|0000\nlim|1|0|0\n",
    "card|0001|0000\narea|1|0100|01FF|0000\nlim|1|0|0\n",
    "card|0001|0000\nsvc|1|1055|1|0000\nblk|1055|0|05000000000000000000000000000000\n\
     lim|9|9|0\nlim|9|-9|1\nW|O|1055|1|8000|0E000000000000000000000000000001\n",
    // Widths of decimals.
    "card|0001|0000\narea|4294967295|0100|01FF|0000\n",
    "card|0001|0000\narea|4294967296|0100|01FF|0000\n",
    "card|0001|0000\nsvc|1|1049|4294967295|0000\n",
    "card|0001|0000|join\nsvc|1|1049|2|0000\nsvc|1|104B|4294967295|0000\nR|O|104B|1|8001\n",
    "card|0001|0000\nR|O|-|4294967295|-\nR|O|-|4294967296|-\nR|O|-|513|-\nR|O|-|512|-\n",
    "card|0001|0000\nsvc|1|1049|2|0000\nblk|1049|4294967295|00000000000000000000000000000000\n",
    // Stores: 0 blocks, all blocks, one too many, joined.
    "card|0001|0000|join\nsvc|1|1049|0|0000\nsvc|1|104B|3|0000\nR|O|104B|1|8000\n",
    "card|0001|0000|join\nsvc|1|1049|4096|0000\nsvc|1|104B|9|0000\nR|O|104B|2|00FF0F8000\n",
    "card|0001|0000\nsvc|1|1049|4095|0000\nsvc|1|2049|2|0000\n",
    "card|0001|0000\nsvc|1|1049|1|0000\nsvc|1|104D|1|0000\n",
    // No elements, many codes, no codes.
    "card|0001|0000\nR|O|FFFF0000104900010002000300040005000600070008000900100011001200130014|0|-\n\
     W|S|FFFF000010490001000200030004000500060007000800090010001100120013|0|-|-\nW|O|-|1|8000|-\n",
    // Lists that end early or run on, ahead of FF AC.
    "card|0001|0000\nsvc|1|1049|2|0000\nW|O|1049|1|80|-\nW|O|1049|1|0000|-\nW|O|1049|1|800000|-\n\
     W|O|1049|0|00|-\nW|O|1049|1|8000|00\nW|O|1049|1|000000|00000000000000000000000000000000\n",
    // Repeated codes: the first in tree order answers, with its own limit.
    "card|0001|0000|join\nsvc|1|1055|1|0000\nsvc|1|1055|9|0000\nlim|0|0|0\n\
     blk|1055|0|05000000000000000000000000000000\n\
     W|O|1055|1|8000|02000000000000000000000000000001\n",
    // One run: a block read unsigned by one service, then signed by another.
    "card|0001|0000\nsvc|1|1055|1|0000\nsvc|1|1053|1|0000\nlim|200|-50|0\n\
     W|O|10551053|2|80008100|0000000000000000000000000000000132000000000000000000000000000002\n\
     R|O|1055|1|8000\nW|O|10551053|2|80008100|\
     0000000000000000000000000000000301000000000000000000000000000004\nR|O|1055|1|8000\n",
    // Cyclic runs: of one number, parted by another, too long, again the same.
    "card|0001|0000\nsvc|1|100D|2|0000\nsvc|1|1049|1|0000\n\
     W|O|100D|2|80008000|1111111111111111111111111111111122222222222222222222222222222222\n\
     W|O|100D|2|80008000|1111111111111111111111111111111122222222222222222222222222222222\n\
     W|O|100D1049|3|800081008000|33333333333333333333333333333333\
     4444444444444444444444444444444455555555555555555555555555555555\n\
     W|O|100D|3|800080008000|66666666666666666666666666666666\
     7777777777777777777777777777777788888888888888888888888888888888\n\
     R|O|100D1049|3|800080018100\n",
    // Areas and the system in a request.
    "card|0001|0000\narea|1|0100|01FF|0000\nsvc|2|0149|1|0000\nR|O|0100FFFF0149|3|820080008100\n\
     R|S|0100FFFF0149|1|8100\nR|S|0100FFFF0149|1|8300\n",
    // Refusals of an image that few random texts meet, and lines of blanks and of NUL.
    "card|0001|0000\narea|1|0000|FFFD|0000\n",
    "card|0001|0000\n \nR|O|-|0|-\n",
    "card|0001|0000\nR|O|-|0|-\n \n\0\n|\n\r\nR|O|-|0|-\0\n",
    "card|0001|0000\n\u{FEFF}R|O|-|0|-\n",
];

/// A text that is told every place: a read of one element that fails, of two of which the second
/// fails, and so on beyond the 255th; and one of as many as there may be, of which the last fails.
fn places() -> String {
    let mut text = "card|0001|0000\nsvc|1|1049|1|0000\n".to_string();
    for count in (1..=257).chain([512]) {
        let passing = "8000".repeat(count - 1);
        text += &format!("R|O|1049|{count}|{passing}8001\n");
    }
    text
}

/// A text that is told more than any buffer holds: reads of 512 blocks, and short answers between
/// them, so that the long ones start at different places.
fn full() -> String {
    let mut text = "card|0001|0000\nsvc|1|1049|2|0000\nblk|1049|1|\
                    00112233445566778899AABBCCDDEEFF\n"
        .to_string();
    for turn in 0..6 {
        text += &format!("R|O|1049|512|{}\n", "80008001".repeat(256));
        text += &"R|O|-|0|-\n".repeat(turn);
    }
    text
}

/// A text with two writes of these lengths; the last one has no LF. One as long as a line may be is
/// carried out.
fn longest(lengths: [usize; 2]) -> String {
    let start = "W|O|10491049|1|8000|";
    let [first, last] = lengths.map(|length| "0".repeat(length - start.len()));
    format!("card|0001|0000\nsvc|1|1049|2|0000\n{start}{first}\n{start}{last}")
}

/// The texts, the whole case of docs/RULES.md first.
pub fn texts() -> impl Iterator<Item = Vec<u8>> {
    let texts = TEXTS.iter().map(|text| text.to_string());
    let bytes = |text: String| text.replace('|', "\t").into_bytes();
    texts
        .chain([places(), full()])
        .chain([
            longest([MOST_BYTES, MOST_BYTES + 1]),
            longest([MOST_BYTES + 1, MOST_BYTES]),
        ])
        .map(bytes)
}
