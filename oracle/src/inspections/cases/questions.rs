//! The other questions: totals, versions, the directory, both list checks, blocks, attributes.

use super::{CARD, Case, JOINING, case};

/// Questions about the tree.
pub fn tree() -> Vec<Case> {
    let image = "card|0001|0012|join\narea|1|0101|01FF|0034\nsvc|2|0148|3|0056\nsvc|1|1048|2|0078\n\
                 svc|1|1049|9|009A\nsvc|1|1048|9|00BC\narea|1|0101|02FF|00DE\n";
    let forty = format!("svcs|{}", "1048".repeat(40));
    vec![
        case(
            "total: of every kind of node",
            image,
            &[
                ("total|0000", "total|9"),
                ("total|0101", "total|3"),
                ("total|0148", "total|3"),
                ("total|1048", "total|2"),
                ("total|1049", "total|2"),
                ("total|104A", "total|0"),
                ("total|0100", "total|0"),
                ("total|FFFF", "total|0"),
            ],
        ),
        case(
            "ver: of every kind of node, the first of a code",
            image,
            &[
                ("ver|FFFF", "ver|0012"),
                ("ver|ffff", "ver|0012"),
                ("ver|0000", "ver|0000"),
                ("ver|0101", "ver|0034"),
                ("ver|0148", "ver|0056"),
                ("ver|1048", "ver|0078"),
                ("ver|1049", "ver|009A"),
                ("ver|104A", "ver|FFFF"),
            ],
        ),
        case(
            "dir: with room for it and less",
            image,
            &[
                (
                    "dir",
                    "dir|0000FFFE010101FF0148FFFF1048FFFF1049FFFF1048FFFF010102FF",
                ),
                ("room|28", ""),
                (
                    "dir",
                    "dir|0000FFFE010101FF0148FFFF1048FFFF1049FFFF1048FFFF010102FF",
                ),
                ("room|27", ""),
                ("dir", "dir|!|5"),
                ("room|26", ""),
                ("dir", "dir|!|5"),
                ("room|24", ""),
                ("dir", "dir|!|5"),
                ("room|0", ""),
                ("dir", "dir|!|5"),
            ],
        ),
        case(
            "dir: a root alone",
            CARD,
            &[
                ("dir", "dir|0000FFFE"),
                ("room|4", ""),
                ("dir", "dir|0000FFFE"),
                ("room|3", ""),
                ("dir", "dir|!|5"),
            ],
        ),
        case(
            "areas: well formed and not",
            image,
            &[
                ("areas|-", "areas|no"),
                ("areas|0000", "areas|yes"),
                ("areas|0101", "areas|yes"),
                ("areas|0101FFFF0000", "areas|yes"),
                ("areas|FFFF", "areas|no"),
                ("areas|FFFF0000", "areas|no"),
                ("areas|00000100", "areas|no"),
                ("areas|00001048", "areas|no"),
                ("areas|1048", "areas|no"),
            ],
        ),
        case(
            "svcs: well formed and not",
            image,
            &[
                ("svcs|-", "svcs|no"),
                ("svcs|1048", "svcs|yes"),
                ("svcs|1049", "svcs|no"),
                ("svcs|10481049", "svcs|yes"),
                ("svcs|10491048", "svcs|no"),
                ("svcs|FFFF", "svcs|yes"),
                ("svcs|1049FFFF", "svcs|no"),
                ("svcs|0101", "svcs|yes"),
                ("svcs|01011049", "svcs|yes"),
                ("svcs|10490101", "svcs|no"),
                ("svcs|1048104A", "svcs|no"),
                (&forty, "svcs|yes"),
            ],
        ),
    ]
}

/// Stored blocks, and blocks in use.
pub fn blocks() -> Vec<Case> {
    let image = "card|0001|0000|join\narea|1|0100|01FF|0000\nsvc|1|1049|2|0000\nsvc|1|104B|9|0000\n\
                 svc|1|2049|0|0000\nblk|104B|1|00112233445566778899AABBCCDDEEFF\n";
    let zeros = format!("block|{}", "0".repeat(32));
    let stored = "block|00112233445566778899AABBCCDDEEFF";
    let write = "W|O|1049|1|8000|0102030405060708090a0b0c0d0e0f10";
    vec![
        case(
            "block: stored ones, and none",
            image,
            &[
                ("block|1049|0", zeros.as_str()),
                ("block|1049|1", stored),
                ("block|104B|1", stored),
                ("block|104b|1", stored),
                ("block|104B|2", "block|-"),
                ("block|2049|0", "block|-"),
                ("block|1048|0", "block|-"),
                ("block|0100|0", "block|-"),
                ("block|FFFF|0", "block|-"),
                ("block|1049|65536", "block|-"),
                ("block|1049|4294967295", "block|-"),
                ("block|1049|4294967296", "?|18"),
                (write, "1|00|00|-|-|-"),
                ("block|104B|0", "block|0102030405060708090A0B0C0D0E0F10"),
            ],
        ),
        case(
            "block: arenas that just do, and a byte less",
            image,
            &[
                ("arena|32", ""),
                ("block|1049|1", stored),
                ("arena|31", ""),
                ("block|1049|1", "block|-"),
                ("block|1049|0", "block|-"),
                ("arena|0", ""),
                ("block|1049|0", "block|-"),
                ("arena|65536", ""),
                ("block|1049|0", &zeros),
            ],
        ),
        case(
            "used: stores of blocks, of none, and joined",
            JOINING,
            &[
                ("used", "used|0"),
                ("svc|1|1049|2|0000", ""),
                ("used", "used|2"),
                ("svc|1|104B|9|0000", ""),
                ("used", "used|2"),
                ("svc|1|2049|0|0000", ""),
                ("used", "used|2"),
                ("svc|1|3051|4094|0000", ""),
                ("used", "used|4096"),
                ("info|0000", "info|0102100000"),
            ],
        ),
    ]
}

/// What codes say of a service, on the card or not.
pub fn codes() -> Vec<Case> {
    let names = [
        ("random", "read-write"),
        ("random", "read-only"),
        ("cyclic", "read-write"),
        ("cyclic", "read-only"),
        ("purse", "direct"),
        ("purse", "cashback"),
        ("purse", "decrement"),
        ("purse", "read-only"),
    ];
    let line = |attribute: u16| {
        let (kind, right, key) = match attribute {
            0x08..=0x17 => {
                let (kind, right) = names[usize::from(attribute - 8) / 2];
                (kind, right, if attribute & 1 == 0 { "key" } else { "free" })
            }
            _ => ("-", "-", "-"),
        };
        let told = format!("attr|65|{kind}|{right}|{key}");
        (format!("attr|{:04X}", 0x1040 | attribute), told)
    };
    let lines: Vec<(String, String)> = (0..64).map(line).collect();
    vec![
        case("attr: every attribute", CARD, &lines),
        case(
            "attr: the least and the greatest numbers",
            CARD,
            &[
                ("attr|0000", "attr|0|-|-|-"),
                ("attr|0008", "attr|0|random|read-write|key"),
                ("attr|FFC9", "attr|1023|random|read-write|free"),
                ("attr|ffd7", "attr|1023|purse|read-only|free"),
                ("attr|FFFF", "attr|1023|-|-|-"),
            ],
        ),
    ]
}
