//! What the two readers take for a message, and what they do not.

use super::{CARD, Case, case};

/// A line for the reader of code lists, with so many areas and services of the codes given.
fn list(areas: usize, services: usize) -> String {
    let (ranges, codes) = ("0001FF01".repeat(areas), "4910".repeat(services));
    format!("readlist|00{areas:02X}{ranges}{services:02X}{codes}")
}

/// What that is told.
fn listed(areas: usize, services: usize) -> String {
    let some = |text: &str, count: usize| match count {
        0 => "-".to_string(),
        _ => text.repeat(count),
    };
    let (ranges, codes) = (some("010001FF", areas), some("1049", services));
    format!("readlist|0|{ranges}|{codes}")
}

/// A line for the reader of block information, with so many nodes, and what it is told.
fn nodes(count: usize) -> (String, String) {
    let line = format!(
        "readinfo|{count:02X}{}{}",
        "0200".repeat(count),
        "FE0F".repeat(count)
    );
    let told = format!("readinfo|{}|{}", "0002".repeat(count), "0FFE".repeat(count));
    (line, told)
}

/// The line without its last byte, and with one more.
fn cut_and_longer(line: &str) -> [String; 2] {
    [line[..line.len() - 2].to_string(), format!("{line}00")]
}

/// Readers of code lists.
pub fn lists() -> Vec<Case> {
    let taken = [
        (0, 0),
        (1, 0),
        (0, 1),
        (1, 1),
        (16, 0),
        (0, 16),
        (8, 8),
        (15, 1),
        (1, 15),
    ];
    let refused = [
        (17, 0),
        (0, 17),
        (8, 9),
        (9, 8),
        (16, 1),
        (1, 16),
        (255, 0),
        (0, 255),
        (128, 128),
    ];
    let taken_lines: Vec<(String, String)> = (taken.iter())
        .map(|&(areas, services)| (list(areas, services), listed(areas, services)))
        .collect();
    let ends: Vec<(String, &str)> = (taken.iter())
        .flat_map(|&(areas, services)| cut_and_longer(&list(areas, services)))
        .map(|line| (line, "readlist|!|47"))
        .collect();
    let beyond: Vec<(String, &str)> = (refused.iter())
        .map(|&(areas, services)| (list(areas, services), "readlist|!|47"))
        .collect();
    vec![
        case("readlist: messages", CARD, &taken_lines),
        case(
            "readlist: messages cut and lengthened by a byte",
            CARD,
            &ends,
        ),
        case("readlist: over sixteen entries", CARD, &beyond),
        case(
            "readlist: flags, and codes that are not judged",
            CARD,
            &[
                ("readlist|-", "readlist|!|47"),
                ("readlist|00", "readlist|!|47"),
                ("readlist|0000", "readlist|!|47"),
                ("readlist|010000", "readlist|1|-|-"),
                ("readlist|0100014910", "readlist|1|-|1049"),
                ("readlist|020000", "readlist|!|47"),
                ("readlist|030000", "readlist|!|47"),
                ("readlist|800000", "readlist|!|47"),
                ("readlist|FF0000", "readlist|!|47"),
                ("readlist|0001FFFF000001FFFF", "readlist|0|FFFF0000|FFFF"),
                (
                    "readlist|01013F003E000207000700",
                    "readlist|1|003F003E|00070007",
                ),
                ("readlist|0000fF", "readlist|!|47"),
                ("readlist|0000014b1a", "readlist|0|-|1A4B"),
                ("readlist|00FF", "readlist|!|47"),
            ],
        ),
    ]
}

/// Readers of block information.
pub fn informations() -> Vec<Case> {
    let taken = [1, 2, 31, 32].map(nodes);
    let ends: Vec<(String, &str)> = (taken.iter())
        .flat_map(|(line, _)| cut_and_longer(line))
        .map(|line| (line, "readinfo|!|47"))
        .collect();
    let beyond = [33, 34, 64, 255].map(|count| (nodes(count).0, "readinfo|!|47"));
    vec![
        case("readinfo: messages", CARD, &taken),
        case(
            "readinfo: messages cut and lengthened by a byte",
            CARD,
            &ends,
        ),
        case("readinfo: over thirty-two nodes", CARD, &beyond),
        case(
            "readinfo: none, and nothing",
            CARD,
            &[
                ("readinfo|00", "readinfo|-|-"),
                ("readinfo|-", "readinfo|!|47"),
                ("readinfo|0000", "readinfo|!|47"),
                ("readinfo|01", "readinfo|!|47"),
                ("readinfo|010000", "readinfo|!|47"),
                ("readinfo|01fFfE0a0B", "readinfo|FEFF|0B0A"),
                ("readinfo|20", "readinfo|!|47"),
                ("readinfo|FF", "readinfo|!|47"),
            ],
        ),
    ]
}
