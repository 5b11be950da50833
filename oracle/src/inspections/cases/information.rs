//! Block information: what is assigned and what is free, and the refusals.

use super::{CARD, Case, JOINING, case};

/// The message of block information that tells the same of so many nodes.
fn same(count: usize, assigned: &str, free: &str) -> String {
    let (assigned, free) = (assigned.repeat(count), free.repeat(count));
    format!("info|{count:02X}{assigned}{free}")
}

/// A line that asks about so many nodes of the root's code.
fn roots(count: usize) -> String {
    format!("info|{}", "0000".repeat(count))
}

/// Counts of every kind of node.
pub fn counts() -> Vec<Case> {
    let image = "card|0001|0000|join\narea|1|0100|01FF|0000\nsvc|2|0149|3|0000\nsvc|1|1049|2|0000\n\
                 svc|1|104B|9|0000\nsvc|1|2051|0|0000\n";
    let joined = |count: usize| {
        let joined = "svc|1|104B|1|0000\n".repeat(count - 1);
        format!("{JOINING}svc|1|1049|3855|0000\n{joined}")
    };
    let told =
        "info|08 0700 0300 0300 0200 0200 0000 0000 0000 FB0F FB0F 0000 0000 0000 0000 0000 0000";
    let told = told.replace(' ', "");
    vec![
        case(
            "info: every kind of node",
            image,
            &[
                ("info|0000010001491049104B2051FFFF104A", told.as_str()),
                ("info|01000100", "info|0203000300FB0FFB0F"),
                ("info|ffff", "info|0100000000"),
                ("info|-", "info|00"),
            ],
        ),
        case(
            "info: a total that just fits, and one that stops",
            &joined(17),
            &[
                ("info|00001049", "info|02FFFF0F0FF1000000"),
                ("total|0000", "total|65535"),
                ("svc|1|1049|0|0000", ""),
                ("info|0000", "info|01FFFFF100"),
                ("total|0000", "total|65535"),
                ("total|104B", "total|3855"),
            ],
        ),
        case(
            "info: a total below it",
            &joined(16),
            &[
                ("info|0000", "info|01F0F0F100"),
                ("total|0000", "total|61680"),
            ],
        ),
    ]
}

/// Each refusal, and each ahead of those that come later; arenas and rooms that just do.
pub fn refused() -> Vec<Case> {
    let image = "card|0001|0000\nsvc|1|1049|2|0000\n";
    let at_most = same(32, "0200", "FE0F");
    let (most, more) = (roots(32), roots(33));
    vec![
        case(
            "info: thirty-two nodes, and thirty-three",
            image,
            &[
                (most.as_str(), at_most.as_str()),
                (&more, "info|!|46"),
                ("room|129", ""),
                (&most, &at_most),
                ("room|128", ""),
                (&most, "info|!|5"),
                (&more, "info|!|46"),
                (&roots(4_000), "info|!|46"),
            ],
        ),
        case(
            "info: room for it and a byte less",
            image,
            &[
                ("room|9", ""),
                ("info|00001049", "info|0202000200FE0F0000"),
                ("room|8", ""),
                ("info|00001049", "info|!|5"),
                ("info|1049", "info|0102000000"),
                ("room|1", ""),
                ("info|-", "info|00"),
                ("room|0", ""),
                ("info|-", "info|!|5"),
            ],
        ),
        case(
            "info: arenas that just do, and a byte less",
            image,
            &[
                ("arena|32", ""),
                ("info|0000", "info|0102000000"),
                ("arena|31", ""),
                ("info|0000", "info|!|7"),
                ("info|-", "info|!|7"),
                ("arena|47", ""),
                ("info|0000", "info|0102000000"),
                ("arena|48", ""),
                ("info|00001049", "info|020200020001000000"),
                ("arena|65535", ""),
                ("info|0000", "info|010200FD0F"),
                ("arena|65536", ""),
                ("info|0000", "info|010200FE0F"),
                ("arena|0", ""),
                ("info|0000", "info|!|7"),
            ],
        ),
        case(
            "info: no arena, and no blocks in use",
            CARD,
            &[
                ("arena|0", ""),
                ("info|0000", "info|0100000000"),
                ("arena|15", ""),
                ("info|0000", "info|0100000000"),
                ("arena|16", ""),
                ("info|0000", "info|0100000100"),
            ],
        ),
        case(
            "info: 7 ahead of 46 ahead of 5",
            image,
            &[
                ("arena|31", ""),
                ("room|0", ""),
                (&more, "info|!|7"),
                ("info|0000", "info|!|7"),
                ("arena|32", ""),
                (&more, "info|!|46"),
                ("info|0000", "info|!|5"),
                ("arena|31", ""),
                ("room|4096", ""),
                (&more, "info|!|7"),
            ],
        ),
    ]
}
