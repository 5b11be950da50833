//! What a line is, in which order lines may come, and what is lent.

use super::{CARD, Case, JOINING, case, code_of};
use crate::replay::line::MOST_BYTES;

/// A block of one byte.
fn block(byte: u8) -> String {
    format!("{byte:02X}").repeat(16)
}

/// First lines, whatever they say.
pub fn starts() -> Vec<Case> {
    let refused = |name, text: &str| Case {
        name,
        text: text.to_string(),
        told: "image|1|30\n".to_string(),
    };
    let quiet = |name, text: &str| Case {
        name,
        text: text.to_string(),
        told: String::new(),
    };
    vec![
        refused("line 1: none", ""),
        refused("line 1: empty", "\ncard|0001|0000\nused\n"),
        refused("line 1: a question", "used\ncard|0001|0000\nused\n"),
        refused("line 1: a request", "R|O|-|0|-\ncard|0001|0000\n"),
        refused("line 1: a node", "svc|1|1049|2|0000\nused\n"),
        refused("line 1: no name", "?\n"),
        refused("line 1: a card malformed", "card|0001\nused\n"),
        quiet("line 1: a card alone", "card|0001|0000"),
        quiet(
            "a card, and nothing asked",
            "card|0001|0000\nroom|0\narena|0\n",
        ),
    ]
}

/// Image, requests and questions in any order.
pub fn mixtures() -> Vec<Case> {
    let lane = block(0x11);
    let write = format!("W|O|1049|1|8001|{lane}");
    let told = format!("block|{lane}");
    let read = format!("3|00|00|-|{lane}|-");
    let empty: String = (1..=8).map(|lane| format!("{lane}|-|-\n")).collect();
    let eight = "card|0001|0000\nsvc|1|1049|8|0000\n";
    let codes = format!("R|O|{}|0|-", "1049".repeat(17));
    vec![
        case(
            "ordinals: of requests alone",
            CARD,
            &[
                ("used", "used|0"),
                ("svc|1|1049|2|0000", ""),
                ("R|O|-|0|-", "1|00|00|-|-|-"),
                ("", "?|5"),
                ("used", "used|2"),
                ("W|O|1049|1|8001|1111", "2|FF|AC|*|-|-"),
                ("room|4", ""),
                ("R|O|1049|1|8002", "3|01|A8|1|-|-"),
                ("R", "4|!|6|-|-|-"),
                ("W|O", "5|!|6|-|-|-"),
                ("L", "6|!|6|-|-|-"),
                ("R|S|1049|1|8000|", "7|!|6|-|-|-"),
                ("R|O|1049|513|-", "8|!|1|-|-|-"),
                ("R|O|1049|2|8000", "9|!|3|-|-|-"),
                ("W|O|1048|1|8000|11", "10|FF|AC|*|-|-"),
                ("R|O|1048|1|8000", "11|01|A6|1|-|-"),
                ("R ", "?|18"),
                ("R|O|-|0|-", "12|00|00|-|-|-"),
            ],
        ),
        case(
            "an image that goes on after requests and questions",
            JOINING,
            &[
                ("list|0000|0", "list|000000"),
                ("svc|1|1049|2|0000", ""),
                ("list|0000|0", "list|0000014910"),
                (write.as_str(), "1|00|00|-|-|-"),
                ("block|1049|1", told.as_str()),
                ("svc|1|104B|5|0000", ""),
                ("block|104B|1", told.as_str()),
                ("used", "used|2"),
                ("area|1|2000|2FFF|0007", ""),
                ("R|O|104B|1|8002", "2|01|A8|1|-|-"),
                ("svc|2|2051|1|0000", ""),
                ("lim|10|-10|1", ""),
                ("blk|2051|0|05000000000000000000000000000000", ""),
                ("block|2051|0", "block|05000000000000000000000000000000"),
                ("R|O|104B|1|8001", read.as_str()),
                ("used", "used|3"),
                ("list|0000|0", "list|00010020FF2F0249104B10"),
                ("list|2000|0", "list|0000015120"),
                ("ver|2000", "ver|0007"),
            ],
        ),
        case(
            "boards as in replay",
            eight,
            &[
                ("L|1049", empty.trim_end()),
                ("used", "used|8"),
                ("blk|1049|0|0207004C45414E444552202020202000", ""),
                ("L|1049", "2|!|41|-|-|-"),
                ("blk|1049|0|0107004C45414E444552000000000000", ""),
                ("L|1049", "3|!|42|-|-|-"),
                ("blk|1049|0|0107004C45414E444552202020202001", ""),
                ("L|1049", "4|!|43|-|-|-"),
                ("blk|1049|0|0107004C45414E444552202020202000", ""),
                ("blk|1049|1|0208004C45414E444552202020202000", ""),
                ("L|1049", "5|!|40|-|-|-"),
                ("L|1048", "6|01|A6|1|-|-"),
                (codes.as_str(), "7|!|2|-|-|-"),
            ],
        ),
        case(
            "names that are nearly right",
            CARD,
            &[
                "",
                " ",
                "?",
                "-",
                "image",
                "List|0000|0",
                "LIST|0000|0",
                "lists|0000|0",
                "lis|0000|0",
                " list|0000|0",
                "list |0000|0",
                "list 0000 0",
                "infos|-",
                "Info|-",
                "readList|000000",
                "read|000000",
                "Dir",
                "dirs",
                "dir\r",
                "used\r",
                "used ",
                "Used",
                "blocks|1049|0",
                "blk |1049|0",
                "rooms|1",
                "Room|1",
                "arenas|1",
                "r|O|-|0|-",
                "RW|O|-|0|-",
                "w",
                "l|1049",
                "Card|0001|0000",
                "card |0001|0000",
                "cards",
                "svc1|1049|2|0000",
                "Area|1|0100|01FF|0000",
                "\0",
                "|",
                "||used",
                "\u{FEFF}used",
            ]
            .iter()
            .zip(2..)
            .map(|(&line, number)| (line, format!("?|{number}")))
            .chain([("used", "used|0".to_string())])
            .collect::<Vec<_>>(),
        ),
        Case {
            name: "the last line without its LF",
            text: "card|0001|0000\nused\nused".to_string(),
            told: "used|0\nused|0\n".to_string(),
        },
        Case {
            name: "an LF too many",
            text: "card|0001|0000\nused\n\n".to_string(),
            told: "used|0\n?|3\n".to_string(),
        },
    ]
}

/// Image lines that are refused after a request and a question, one text for each refusal. Nothing is
/// answered after them.
pub fn refused() -> Vec<Case> {
    let image = "svc|1|1049|2|0000\narea|1|0100|01FF|0000\n";
    let no_block = format!("blk|1049|2|{}", block(0));
    let full = format!("svc|1|{:04X}|1|0000\n", code_of(0x41)).repeat(61);
    let on = |card, name, before: &str, line: &str, refusal: u8| {
        let number = 6 + before.matches('\n').count();
        Case {
            name,
            text: format!("{card}{image}R|O|-|0|-\nused\n{before}{line}\nused\nR|O|-|0|-\n"),
            told: format!("1|00|00|-|-|-\nused|2\nimage|{number}|{refusal}\n"),
        }
    };
    let of = |name, before: &str, line: &str, refusal| on(CARD, name, before, line, refusal);
    let table_full = on(JOINING, "image refused 20", &full, "svc|1|1049|1|0000", 20);
    let forbids = "area|1|0201|02FF|0000\n";
    vec![
        of("image refused 11", "", "area|1|0200|01FF|0000", 11),
        of("image refused 12", "", "area|1|0000|FFFD|0000", 12),
        of("image refused 13", "", "svc|1|FFFF|1|0000", 13),
        of("image refused 14", "", "area|1|0102|01FF|0000", 14),
        of("image refused 15", forbids, "area|2|0240|02FF|0000", 15),
        of("image refused 16", "", "svc|1|1047|1|0000", 16),
        of("image refused 17", "", "svc|2|0249|1|0000", 17),
        of("image refused 18", "", "area|2|0100|0200|0000", 18),
        of("image refused 19", "", "svc|1|104C|1|0000", 19),
        table_full,
        of("image refused 21", "", "svc|3|0149|1|0000", 21),
        of("image refused 22", "", "svc|1|2049|4095|0000", 22),
        of("image refused 23", "", &no_block, 23),
        of("image refused 28", "", "lim|1|0|0", 28),
        of("image refused 30, malformed", "", "area|1|0100", 30),
        of("image refused 30, a second card", "", "card|0001|0000", 30),
    ]
}

/// What is lent to questions, and what is not touched by it.
pub fn lent() -> Vec<Case> {
    let lane = block(0x22);
    let set = format!("blk|1049|0|{lane}");
    let write = format!("W|O|1049|1|8001|{lane}");
    let read = format!("2|00|00|-|{lane}|-");
    let told = format!("block|{lane}");
    vec![
        case(
            "room and arena: of questions alone",
            CARD,
            &[
                ("room|0", ""),
                ("arena|0", ""),
                ("svc|1|1049|2|0000", ""),
                (set.as_str(), ""),
                ("list|0000|0", "list|!|5"),
                ("info|0000", "info|!|7"),
                ("dir", "dir|!|5"),
                ("block|1049|0", "block|-"),
                (write.as_str(), "1|00|00|-|-|-"),
                ("R|O|1049|1|8001", read.as_str()),
                ("used", "used|2"),
                ("total|0000", "total|2"),
                ("ver|1049", "ver|0000"),
                ("areas|0000", "areas|yes"),
                ("svcs|1049", "svcs|no"),
                ("attr|1049", "attr|65|random|read-write|free"),
                ("readlist|0000014910", "readlist|0|-|1049"),
                ("readinfo|0102000000", "readinfo|0002|0000"),
                ("arena|32", ""),
                ("block|1049|1", told.as_str()),
                ("room|5", ""),
                ("info|0000", "info|0102000000"),
                ("list|0000|0", "list|0000014910"),
                ("dir", "dir|!|5"),
            ],
        ),
        case(
            "room and arena: the greatest, and beyond",
            CARD,
            &[
                ("room|3", ""),
                ("room|4097", "?|3"),
                ("list|0000|0", "list|000000"),
                ("dir", "dir|!|5"),
                ("room|4096", ""),
                ("dir", "dir|0000FFFE"),
                ("room|0", ""),
                ("room|-1", "?|9"),
                ("room|00", "?|10"),
                ("room|65536", "?|11"),
                ("room|4294967297", "?|12"),
                ("list|0000|0", "list|!|5"),
                ("room|3", ""),
                ("list|0000|0", "list|000000"),
                ("arena|65537", "?|16"),
                ("room|5", ""),
                ("info|0000", "info|0100000010"),
                ("arena|65535", ""),
                ("info|0000", "info|010000FF0F"),
                ("arena|4294967296", "?|21"),
                ("arena|70000", "?|22"),
                ("arena|", "?|23"),
                ("info|0000", "info|010000FF0F"),
                ("arena|65536", ""),
                ("info|0000", "info|0100000010"),
            ],
        ),
    ]
}

/// Lines of about the greatest length.
pub fn long() -> Vec<Case> {
    let filled =
        |start: &str, length: usize| format!("{start}{}", "0".repeat(length - start.len()));
    let lines = [
        (filled("W|O|10491049|1|8000|", MOST_BYTES), "1|00|00|-|-|-"),
        (filled("readlist|", MOST_BYTES - 1), "readlist|!|47"),
        (filled("readlist|", MOST_BYTES + 1), "?|5"),
        (filled("R|O|", MOST_BYTES + 1), "2|!|6|-|-|-"),
        (filled("svc|1|1049|2|", MOST_BYTES + 1), "image|7|30"),
    ];
    let image = "card|0001|0000\nsvc|1|1049|2|0000\n";
    vec![case("lines of the greatest length", image, &lines)]
}
