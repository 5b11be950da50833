//! Services that join a store: of its own count, of more blocks, of fewer, of none or on none; on
//! cards that join and on such as do not; and lines that `join` makes malformed. `|` stands for a tab.

/// The first lines of cards that do not join and that do.
const CARDS: [&str; 2] = ["card|0001|0000\n", "card|0001|0000|join\n"];

/// Images of which the last service joins a store. Where its count is another one, a card that does not
/// join refuses it with 24.
const JOINED: [&str; 14] = [
    // More, fewer, the largest there is, and the store's own.
    "svc|1|1049|2|0000\nsvc|1|104B|3|0000\n",
    "svc|1|1049|2|0000\nsvc|1|104B|1|0000\n",
    "svc|1|1049|2|0000\nsvc|1|104B|4294967295|0000\n",
    "svc|1|1049|2|0000\nsvc|1|104B|2|0000\n",
    // None against one, one against none, none against none, and none against two after a store of none.
    "svc|1|1049|1|0000\nsvc|1|104B|0|0000\n",
    "svc|1|1049|0|0000\nsvc|1|104B|1|0000\n",
    "svc|1|1049|0|0000\nsvc|1|104B|0|0000\n",
    "svc|1|2049|0|0000\nsvc|1|1049|2|0000\nsvc|1|104B|0|0000\n",
    // 65,538 has the low 16 bits of 2.
    "svc|1|1049|2|0000\nsvc|1|104B|65538|0000\n",
    // A purse after one that agreed, a ring in an area and one outside, the code again.
    "svc|1|1055|2|0000\nsvc|1|1057|2|0000\nsvc|1|1053|3|0000\n",
    "area|1|1000|10FF|0000\nsvc|2|100D|3|0000\nsvc|1|100F|2|0000\n",
    "svc|1|1049|2|0000\nsvc|1|1049|5|0000\n",
    // No block is left: another count, and the store's own.
    "svc|1|1049|4096|0000\nsvc|1|104B|1|0000\n",
    "svc|1|1049|4096|0000\nsvc|1|104B|4096|0000\n",
];

/// Images that are refused with 21, 13, 16, 17 and 19 ahead of 24, and one with 22, for a service that joins
/// nothing.
const REFUSED: [&str; 6] = [
    "svc|1|1049|2|0000\nsvc|2|104B|5|0000\n",
    "svc|1|FFC9|2|0000\nsvc|1|FFFF|5|0000\n",
    "svc|1|1049|2|0000\nsvc|1|1047|5|0000\n",
    "svc|1|1049|2|0000\narea|1|2000|20FF|0000\nsvc|2|104B|5|0000\n",
    "svc|1|1049|2|0000\nsvc|1|104D|5|0000\n",
    "svc|1|1049|4095|0000\nsvc|1|104B|4095|0000\nsvc|1|2049|2|0000\n",
];

/// First lines that are none, since their fourth field is not `join` or not the last.
const FIRST: [&str; 10] = [
    "card|0001|0000|",
    "card|0001|0000|JOIN",
    "card|0001|0000|Join",
    "card|0001|0000|joi",
    "card|0001|0000|joint",
    "card|0001|0000|join ",
    "card|0001|0000|join|",
    "card|0001|0000|join|join",
    "card|0001|join|0000",
    "card|0001|join",
];

/// Later lines that are none: `join` is for the first alone.
const LATER: [&str; 5] = [
    "svc|1|1057|1|0000|join",
    "area|1|0100|01FF|0000|join",
    "lim|9|-9|1|join",
    "blk|1055|0|00112233445566778899AABBCCDDEEFF|join",
    "card|0001|0000|join",
];

/// Reads of three blocks, one by one, through the service that an image has last.
fn reads(image: &str) -> String {
    let last = image.lines().next_back().unwrap_or(image);
    let code = last.split('|').nth(2).unwrap_or("1049");
    let read = |block| format!("R|O|{code}|1|80{block:02X}\n");
    (0..3).map(read).collect()
}

/// The texts: each image on a card that does not join and on one that does, then malformed lines.
pub fn texts() -> impl Iterator<Item = Vec<u8>> {
    let on = |image| CARDS.map(|card| format!("{card}{image}{}", reads(image)));
    let images = JOINED.into_iter().chain(REFUSED).flat_map(on);
    let first = FIRST.map(|line| format!("{line}\nR|O|-|0|-\n"));
    let image = "svc|1|1055|1|0000\n";
    let later = LATER.map(|line| format!("{}{image}{line}\nR|O|-|0|-\n", CARDS[1]));
    images
        .chain(first)
        .chain(later)
        .map(|text| text.replace('|', "\t").into_bytes())
}
