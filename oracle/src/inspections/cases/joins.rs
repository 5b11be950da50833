//! Services that join a store, on cards that join and on such as do not; and where `join` may not stand.

use super::{CARD, Case, JOINING, case};

/// A text whose line of this number is refused. Nothing is answered after it.
fn refused(name: &'static str, text: &str, line: usize, refusal: u8) -> Case {
    Case {
        name,
        text: format!("{text}used\nR|O|-|0|-\n"),
        told: format!("image|{line}|{refusal}\n"),
    }
}

/// A card of two services of one number, the second of which is refused.
fn second(name: &'static str, first: &str, second: &str, refusal: u8) -> Case {
    refused(name, &format!("{CARD}{first}\n{second}\n"), 3, refusal)
}

/// Counts that agree or differ.
pub fn counts() -> Vec<Case> {
    let two = "svc|1|1049|2|0000";
    let after_none = format!("{CARD}svc|1|1049|0|0000\nsvc|1|2049|2|0000\nsvc|1|204B|0|0000\n");
    vec![
        case(
            "join: counts differ on a card that joins",
            JOINING,
            &[
                (two, ""),
                ("svc|1|104B|5|0000", ""),
                ("svc|1|1048|0|0000", ""),
                ("used", "used|2"),
                ("total|0000", "total|6"),
                ("total|104B", "total|2"),
                ("info|1049104B1048", "info|03020002000200000000000000"),
                ("R|O|104B|1|8002", "1|01|A8|1|-|-"),
                ("svc|1|104C|2|0000", "image|10|19"),
            ],
        ),
        case(
            "join: counts agree with the store, also where no block is left",
            CARD,
            &[
                ("svc|1|1049|4096|0000", ""),
                ("svc|1|104B|4096|0000", ""),
                ("info|0000104B", "info|020020001000000000"),
                ("used", "used|4096"),
                ("svc|1|2049|0|0000", ""),
                ("svc|1|204B|0|0000", ""),
                ("total|0000", "total|8192"),
                ("svc|1|1048|4095|0000", "image|9|24"),
            ],
        ),
        case(
            "join: 24 after a request and a question",
            CARD,
            &[
                (two, ""),
                ("R|O|1049|1|8002", "1|01|A8|1|-|-"),
                ("used", "used|2"),
                ("svc|1|104B|3|0000", "image|5|24"),
                ("used", ""),
            ],
        ),
        second("join: fewer blocks", two, "svc|1|104B|1|0000", 24),
        second(
            "join: a count of the same low half",
            two,
            "svc|1|104B|65538|0000",
            24,
        ),
        second(
            "join: none against one",
            "svc|1|1049|1|0000",
            "svc|1|104B|0|0000",
            24,
        ),
        second(
            "join: one against none",
            "svc|1|1049|0|0000",
            "svc|1|104B|1|0000",
            24,
        ),
        refused("join: after a store of no blocks", &after_none, 4, 24),
        second("join: 19 ahead of 24", two, "svc|1|104D|5|0000", 19),
    ]
}

/// Lines that `join` makes malformed.
pub fn malformed() -> Vec<Case> {
    let first = |name, line: &str| refused(name, &format!("{line}\n"), 1, 30);
    let later = |name, line: &str| {
        let image = format!("{JOINING}svc|1|1055|1|0000\n{line}|join\n");
        refused(name, &image, 3, 30)
    };
    let block = format!("blk|1055|0|{}", "0".repeat(32));
    vec![
        first("join: in capitals", "card|0001|0000|JOIN"),
        first("join: another word", "card|0001|0000|joint"),
        first("join: an empty field", "card|0001|0000|"),
        first("join: a field after it", "card|0001|0000|join|"),
        first("join: twice", "card|0001|0000|join|join"),
        later("join: on a service", "svc|1|1057|1|0000"),
        later("join: on an area", "area|1|0100|01FF|0000"),
        later("join: on a limit", "lim|9|-9|1"),
        later("join: on a block", &block),
    ]
}
