//! Damaged images that have names, each with what becomes of its lines, worked out by hand: `|` stands
//! for a tab, and beside each line stands what the report says of it, nothing where it is kept.

mod rules;

use super::ADDED;
use super::texts::BETWEEN;

/// A text with its name, and what is printed for it.
pub struct Case {
    pub name: &'static str,
    pub text: Vec<u8>,
    pub told: String,
}

/// An accepted first line, and one of a card that joins.
const CARD: (&str, &str) = ("card|0001|0000", "");
const JOIN: (&str, &str) = ("card|0001|0000|join", "");

/// An area that is accepted, and one that ends before it begins.
const AREA: &str = "area|1|1000|10FF|0000";
const TURNED: &str = "area|1|2000|1FFF|0000";

/// Services inside the first area and beside it: random, purse, of no defined attribute.
const INSIDE: &str = "svc|2|1009|1|0000";
const BESIDE: &str = "svc|1|3009|1|0000";
const PURSE: &str = "svc|1|3051|1|0000";
const NO_KIND: &str = "svc|1|3000|1|0000";

/// A limit, and a block of the service beside.
const LIMIT: &str = "lim|100|0|1";
const BLOCK: &str = "blk|3009|0|000102030405060708090A0B0C0D0E0F";

/// The text of these lines, each ended by a LF, with what is told of it.
fn case(name: &'static str, lines: &[(&str, &str)]) -> Case {
    let added = lines.first().is_none_or(|(_, fate)| !fate.is_empty());
    written(name, lines, added, true)
}

/// The same, with the added line or without it, and with the last LF or without it.
fn written(name: &'static str, lines: &[(&str, &str)], added: bool, ended: bool) -> Case {
    let (mut text, mut report, mut image) = (String::new(), String::new(), String::new());
    if added {
        report += "0\tadded\n";
        image += ADDED;
    }
    for (at, (line, fate)) in lines.iter().enumerate() {
        let lf = if at + 1 < lines.len() || ended {
            "\n"
        } else {
            ""
        };
        let piece = line.replace('|', "\t") + lf;
        text += &piece;
        match *fate {
            "" => image += &piece,
            fate => report += &format!("{}\t{fate}\n", at + 1),
        }
    }
    Case {
        name,
        text: text.into_bytes(),
        told: report + BETWEEN + &image,
    }
}

/// Those of the first line and of what ends lines.
fn ends() -> Vec<Case> {
    let kept = [CARD, (AREA, ""), (INSIDE, ""), (BESIDE, ""), (BLOCK, "")];
    vec![
        case("a sound image", &kept),
        written("a sound image without a last LF", &kept, false, false),
        case(
            "a card that joins",
            &[JOIN, (BESIDE, ""), ("svc|1|300B|2|0000", "")],
        ),
        case("nothing", &[]),
        case("a single LF", &[("", "30")]),
        case("empty lines", &[CARD, ("", "30"), (BESIDE, ""), ("", "30")]),
        written(
            "line 1 is judged again",
            &[(AREA, ""), (INSIDE, "")],
            true,
            true,
        ),
        case(
            "a card line that is malformed",
            &[("card|0001|000", "30"), (BESIDE, "")],
        ),
        case("a request first", &[("R|O|-|0|-", "30"), (BESIDE, "")]),
        case(
            "a byte order mark",
            &[("\u{FEFF}card|0001|0000", "30"), (BESIDE, "")],
        ),
        case(
            "the added card does not join",
            &[("", "30"), (BESIDE, ""), ("svc|1|300B|2|0000", "24")],
        ),
        case(
            "requests and a refresh",
            &[
                CARD,
                ("R|O|-|0|-", "30"),
                (BESIDE, ""),
                ("W|S|-|0|-|-", "30"),
                ("L|3009", "30"),
                (BLOCK, ""),
            ],
        ),
        case(
            "a CR is a byte of the line",
            &[CARD, ("svc|1|3009|1|0000\r", "30"), (AREA, "")],
        ),
        written(
            "a dropped line without a LF",
            &[CARD, (BESIDE, ""), ("svc|1", "30")],
            false,
            false,
        ),
    ]
}

/// Those of lines that are too long: the first field counts, a depth there is none.
fn long() -> Vec<Case> {
    let service = format!("svc|1|3091|1|0000|{}", "0".repeat(32_768));
    let area = format!("area|1|2000|1FFF|0000|{}", "0".repeat(32_768));
    vec![case(
        "lines that are too long",
        &[
            CARD,
            (PURSE, ""),
            (&service, "30"),
            (LIMIT, "parent"),
            (AREA, ""),
            (&area, "30"),
            (INSIDE, ""),
        ],
    )]
}

/// That of a table that is full: the root and 63 services.
fn full() -> Case {
    let services: Vec<String> = (1..64)
        .map(|number: u32| format!("svc|1|{:04X}|0|0000", number << 6 | 0x09))
        .collect();
    let services = services.iter().map(|line| (line.as_str(), ""));
    let beyond = [
        (AREA, "20"),
        (INSIDE, "parent"),
        (BESIDE, "20"),
        (LIMIT, "parent"),
    ];
    let lines: Vec<(&str, &str)> = [CARD].into_iter().chain(services).chain(beyond).collect();
    case("a full table", &lines)
}

/// All of them.
pub fn all() -> Vec<Case> {
    [
        ends(),
        rules::stretches(),
        rules::orphans(),
        long(),
        vec![full()],
    ]
    .into_iter()
    .flatten()
    .collect()
}
