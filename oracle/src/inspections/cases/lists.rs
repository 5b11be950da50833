//! Code lists: which children, which packets, which refusals.

use super::{CARD, Case, case, code_of, low_first, services};

/// The message of a packet of services of these numbers.
fn packet(more: bool, numbers: std::ops::RangeInclusive<u16>) -> String {
    let count = numbers.clone().count();
    let codes: String = numbers.map(|number| low_first(code_of(number))).collect();
    format!("list|{:02X}00{count:02X}{codes}", u8::from(more))
}

/// The line of an area of this number alone.
fn area(number: u16) -> String {
    let code = number << 6;
    format!("area|1|{code:04X}|{:04X}|0000\n", code | 0x3F)
}

/// Code and end of that area in a message.
fn range(number: u16) -> String {
    let code = number << 6;
    low_first(code) + &low_first(code | 0x3F)
}

/// Which nodes are the children of an area.
pub fn children() -> Vec<Case> {
    let deep = "card|0001|0000\narea|1|0100|01FF|0000\narea|2|0140|017F|0000\nsvc|3|0149|1|0000\n\
                svc|2|0189|1|0000\narea|2|01C1|01FF|0000\nsvc|1|1049|2|0000\narea|1|0200|02FF|0000\n";
    let again = "card|0001|0000|join\narea|1|0100|01FF|0000\nsvc|2|0149|1|0000\narea|1|0100|02FF|0000\n\
                 svc|2|0189|1|0000\nsvc|1|1049|1|0000\nsvc|1|1049|7|0000\n";
    let within = "card|0001|0000\narea|1|0100|02FF|0000\narea|2|0100|01FF|0000\nsvc|3|0149|1|0000\n\
                  area|1|0000|FFFE|0000\nsvc|2|1049|1|0000\n";
    vec![
        case(
            "list: no child",
            CARD,
            &[("list|0000|0", "list|000000"), ("list|0000|1", "list|!|45")],
        ),
        case(
            "list: children, and no grandchildren",
            deep,
            &[
                ("list|0000|0", "list|00020001FF010002FF02014910"),
                ("list|0100|0", "list|000240017F01C101FF01018901"),
                ("list|0140|0", "list|0000014901"),
                ("list|01c1|0", "list|000000"),
                ("list|0200|0", "list|000000"),
                ("list|0200|1", "list|!|45"),
            ],
        ),
        case(
            "list: repeated codes, and the first area answers",
            again,
            &[
                ("list|0000|0", "list|00020001FF010001FF020249104910"),
                ("list|0100|0", "list|0000014901"),
                ("info|01000149", "info|0201000100FD0F0000"),
            ],
        ),
        case(
            "list: repeated codes, one within the other",
            within,
            &[
                ("list|0000|0", "list|00020001FF020000FEFF00"),
                ("list|0100|0", "list|00010001FF0100"),
                ("total|0000", "total|2"),
                ("total|0100", "total|1"),
            ],
        ),
    ]
}

/// What a packet holds, and whether more follow.
pub fn packets() -> Vec<Case> {
    let of = |count: u16| format!("{CARD}{}", services(count));
    let odd = |number: &u16| number % 2 == 1;
    let mixed: String = (1..=17)
        .map(|number| match odd(&number) {
            true => area(number),
            false => format!("svc|1|{:04X}|0|0000\n", code_of(number)),
        })
        .collect();
    let areas: String = (1..=15).filter(odd).map(range).collect();
    let codes = (1..=16).filter(|number| !odd(number));
    let codes: String = codes.map(|number| low_first(code_of(number))).collect();
    let sixteen: String = (1..=16).map(area).collect();
    let ranges: String = (1..=16).map(range).collect();
    vec![
        case(
            "list: sixteen children",
            &of(16),
            &[
                ("list|0000|0", packet(false, 1..=16)),
                ("list|0000|1", "list|!|45".to_string()),
            ],
        ),
        case(
            "list: seventeen children",
            &of(17),
            &[
                ("list|0000|0", packet(true, 1..=16)),
                ("list|0000|1", packet(false, 17..=17)),
                ("list|0000|2", "list|!|45".to_string()),
                ("list|0000|17", "list|!|45".to_string()),
            ],
        ),
        case(
            "list: thirty-two children, and one more",
            &of(32),
            &[
                ("list|0000|1", packet(false, 17..=32)),
                ("list|0000|2", "list|!|45".to_string()),
                ("svc|1|0849|1|0000", String::new()),
                ("list|0000|1", packet(true, 17..=32)),
                ("list|0000|2", packet(false, 33..=33)),
                ("list|0000|0", packet(true, 1..=16)),
            ],
        ),
        case(
            "list: a full table",
            &of(63),
            &[
                ("list|0000|0", packet(true, 1..=16)),
                ("list|0000|1", packet(true, 17..=32)),
                ("list|0000|2", packet(true, 33..=48)),
                ("list|0000|3", packet(false, 49..=63)),
                ("list|0000|4", "list|!|45".to_string()),
            ],
        ),
        case(
            "list: areas and services by turns, counted together",
            &format!("{CARD}{mixed}"),
            &[
                ("list|0000|0", format!("list|0108{areas}08{codes}")),
                ("list|0000|1", format!("list|0001{}00", range(17))),
                ("list|0000|2", "list|!|45".to_string()),
            ],
        ),
        case(
            "list: sixteen areas, with room for them and a byte less",
            &format!("{CARD}{sixteen}"),
            &[
                ("room|67", String::new()),
                ("list|0000|0", format!("list|0010{ranges}00")),
                ("room|66", String::new()),
                ("list|0000|0", "list|!|5".to_string()),
            ],
        ),
        case(
            "list: packets of every width",
            &of(17),
            &[
                ("list|0000|255", "list|!|45"),
                ("list|0000|256", "list|!|45"),
                ("list|0000|4096", "list|!|45"),
                ("list|0000|4097", "list|!|45"),
                ("list|0000|65536", "list|!|45"),
                ("list|0000|65537", "list|!|45"),
                ("list|0000|268435456", "list|!|45"),
                ("list|0000|268435457", "list|!|45"),
                ("list|0000|4294967295", "list|!|45"),
                ("list|0000|4294967296", "?|28"),
                ("list|0000|4294967297", "?|29"),
            ],
        ),
    ]
}

/// Each refusal, and each ahead of those that come later.
pub fn refused() -> Vec<Case> {
    let image = "card|0001|0000\narea|1|0101|01FF|0000\nsvc|1|1049|2|0000\n";
    vec![
        case(
            "list: a parent that is no area",
            image,
            &[
                ("list|1049|0", "list|!|44"),
                ("list|104B|0", "list|!|44"),
                ("list|0100|0", "list|!|44"),
                ("list|0101|0", "list|000000"),
                ("list|01FF|0", "list|!|44"),
                ("list|FFFF|0", "list|!|44"),
                ("list|FFFE|0", "list|!|44"),
                ("list|ffff|1", "list|!|44"),
            ],
        ),
        case(
            "list: room for it and a byte less",
            image,
            &[
                ("room|9", ""),
                ("list|0000|0", "list|00010101FF01014910"),
                ("room|8", ""),
                ("list|0000|0", "list|!|5"),
                ("list|0101|0", "list|000000"),
                ("room|3", ""),
                ("list|0101|0", "list|000000"),
                ("room|2", ""),
                ("list|0101|0", "list|!|5"),
                ("room|0", ""),
                ("list|0101|0", "list|!|5"),
            ],
        ),
        case(
            "list: 44 ahead of 45 ahead of 5",
            image,
            &[
                ("room|0", ""),
                ("list|1049|1", "list|!|44"),
                ("list|FFFF|0", "list|!|44"),
                ("list|0000|1", "list|!|45"),
                ("list|0000|0", "list|!|5"),
                ("room|4096", ""),
                ("list|1049|1", "list|!|44"),
            ],
        ),
    ]
}
