//! Where a board is read from, the line that asks for it, and what came before.

use super::{Case, EIGHT, EMPTY, case, set};
use crate::draw::lanes::block;
use crate::hex::hex;
use crate::replay::line::MOST_BYTES;

/// Stores of other sizes and kinds, and codes of no store.
pub fn stores() -> Vec<Case> {
    let lane = |code: u16| set(code, 1, block(1, 7, "LEANDER", 0));
    let leander = EMPTY.replacen("1|-|-", "1|7|LEANDER", 1);
    let of = |code: u16, count: u32| format!("card|0001|0000\nsvc|1|{code:04X}|{count}|0000\n");
    let ninth = format!("blk|1049|8|{}\n", "FF".repeat(16));
    let wrong = set(0x1049, 1, block(2, 7, "A", 0));
    let ring = |list: &str, data: &str| format!("W|S|104C|1|{list}|{data}\n");
    let moved = hex(&block(1, 8, "LEANDER", 0));
    let purse = "W|O|1051|1|8000|0107004C45414E444552202020202000\n";
    let lowered = "W|O|1051|1|8000|0106004C45414E444552202020202000\n";
    let areas = "card|0001|0000\narea|1|1040|107F|0000\nsvc|2|1049|8|0000\n";
    vec![
        case(
            "store: no blocks",
            of(0x1049, 0) + "L|1049\n",
            "1|01|A8|1|-|-\n",
        ),
        case(
            "store: one block",
            of(0x1049, 1) + &lane(0x1049) + "L|1049\n",
            "1|02|A8|2|-|-\n",
        ),
        case(
            "store: seven blocks, ahead of 41",
            of(0x1049, 7) + &wrong + "L|1049\n",
            "1|08|A8|8|-|-\n",
        ),
        case(
            "store: nine blocks, the ninth none of a board",
            of(0x1049, 9) + &lane(0x1049) + &ninth + "L|1049\n",
            &*leander,
        ),
        case(
            "store: 300 blocks",
            of(0x1049, 300) + &lane(0x1049) + "L|1049\n",
            &*leander,
        ),
        case(
            "store: cyclic, and its ring moves on",
            of(0x104C, 8) + &lane(0x104C) + "L|104C\n" + &ring("8000", &moved) + "L|104C\n",
            format!("{leander}2|00|00|-|-|-\n3|!|41|-|-|-\n"),
        ),
        case(
            "store: a purse, lowered",
            of(0x1051, 8) + &lane(0x1051) + "L|1051\n" + purse + lowered + "L|1051\n",
            format!(
                "{leander}2|00|00|-|-|-\n3|00|00|-|-|-\n{}",
                leander.replace("|7|", "|6|")
            ),
        ),
        case(
            "store: keyed, and the read is a session's",
            of(0x1048, 8) + &lane(0x1048) + "R|O|1048|1|8000\nL|1048\n",
            format!("1|01|A5|1|-|1\n{leander}"),
        ),
        case(
            "store: read-only, of a number that others write",
            of(0x1048, 8) + "svc|1|104A|8|0000\n" + &lane(0x1048) + "L|104A\nL|104a\nL|1048\n",
            leander.repeat(3),
        ),
        case(
            "store: two of them",
            of(0x1049, 8)
                + "svc|1|1089|8|0000\n"
                + &set(0x1089, 3, block(3, 9, "X", 0))
                + "L|1049\nL|1089\n",
            format!("{EMPTY}{}", EMPTY.replacen("3|-|-", "3|9|X", 1)),
        ),
        case(
            "no store: unknown, undefined, areas, the system",
            format!("{areas}L|1089\nL|104B\nL|1040\nL|1041\nL|0000\nL|FFFF\nL|ffff\nL|1049\n"),
            format!(
                "1|01|A6|1|-|-\n2|01|A6|1|-|-\n3|01|A4|1|-|-\n4|01|A4|1|-|-\n5|01|A4|1|-|-\n6|01|A4|1|-|-\n7|01|A4|1|-|-\n{EMPTY}"
            ),
        ),
    ]
}

/// The line itself, its place in a text, and what came before it.
pub fn lines() -> Vec<Case> {
    let written = |lane: u8, race: u16, crew: &str| {
        let block = hex(&block(lane, race, crew, 0));
        format!("W|O|1049|1|800{}|{block}\n", lane - 1)
    };
    let (drawn, redrawn) = (written(1, 7, "LEANDER"), written(1, 7, "THAMES"));
    let board = |crew: &str| EMPTY.replacen("1|-|-", &format!("1|7|{crew}"), 1);
    let read = "R|O|-|0|-\n";
    let long = |length: usize| format!("L|1049{}", "0".repeat(length - 6));
    let (most, over) = (long(MOST_BYTES), long(MOST_BYTES + 1));
    vec![
        case("line: the first request", format!("{EIGHT}L|1049"), EMPTY),
        case("line: on line 1", "L|1049\n", "image|1|30\n"),
        case("line: malformed, on line 1", "L", "image|1|30\n"),
        case(
            "line: malformed, and yet the first request",
            format!("{EIGHT}L\nblk|1049|0|\n{read}"),
            "1|!|6|-|-|-\n2|!|6|-|-|-\n3|00|00|-|-|-\n",
        ),
        case(
            "line: another first field in an image",
            format!("{EIGHT}l|1049\nL|1049\n"),
            "image|3|30\n",
        ),
        case(
            "line: a longer first field in an image",
            format!("{EIGHT}L |1049\nL|1049\n"),
            "image|3|30\n",
        ),
        case(
            "line: another first field after a request",
            format!("{EIGHT}{read}l|1049\nLL|1049\nL|1049\n"),
            format!("1|00|00|-|-|-\n2|!|6|-|-|-\n3|!|6|-|-|-\n{EMPTY}"),
        ),
        case(
            "line: it takes an ordinal",
            format!("{EIGHT}{read}L|1049\n{read}L|1049\n{read}"),
            format!("1|00|00|-|-|-\n{EMPTY}3|00|00|-|-|-\n{EMPTY}5|00|00|-|-|-\n"),
        ),
        case(
            "line: too long, and yet the first request",
            format!("{EIGHT}{over}\n{most}\nL|1049\n"),
            format!("1|!|6|-|-|-\n2|!|6|-|-|-\n{EMPTY}"),
        ),
        case(
            "line: no LF, and CR",
            format!("{EIGHT}L|1049\r\nL|1049\nL|1049"),
            format!("1|!|6|-|-|-\n{EMPTY}{EMPTY}"),
        ),
        case(
            "refreshes: a redraw between two",
            format!("{EIGHT}{drawn}L|1049\n{redrawn}L|1049\nL|1049\n"),
            format!(
                "1|00|00|-|-|-\n{}3|00|00|-|-|-\n{}{}",
                board("LEANDER"),
                board("THAMES"),
                board("THAMES")
            ),
        ),
        case(
            "refreshes: a refused write between two",
            format!(
                "{EIGHT}{drawn}L|1049\n{}L|1049\n",
                redrawn.replace("8000", "8008")
            ),
            format!(
                "1|00|00|-|-|-\n{}3|01|A8|1|-|-\n{}",
                board("LEANDER"),
                board("LEANDER")
            ),
        ),
        case(
            "refreshes: refused, mended, refused",
            format!(
                "{EIGHT}{}L|1049\n{drawn}L|1049\n{}L|1049\n",
                written(1, 7, "\u{7F}"),
                written(2, 8, "THAMES")
            ),
            format!(
                "1|00|00|-|-|-\n2|!|42|-|-|-\n3|00|00|-|-|-\n{}5|00|00|-|-|-\n6|!|40|-|-|-\n",
                board("LEANDER")
            ),
        ),
        many(),
    ]
}

/// More boards than a buffer of 65,536 bytes holds, with short answers between them, so that they begin at
/// different places.
fn many() -> Case {
    let crew = "TWELVE BYTES";
    let blocks: String = (1..=8)
        .map(|lane| set(0x1049, lane, block(lane, 65_535, crew, 0)))
        .collect();
    let board: String = (1..=8)
        .map(|lane| format!("{lane}|65535|{crew}\n"))
        .collect();
    let (mut text, mut told) = (format!("{EIGHT}{blocks}"), String::new());
    for ordinal in 1..=420 {
        if ordinal % 7 == 0 {
            text += "R|O|-|0|-\n";
            told += &format!("{ordinal}|00|00|-|-|-\n");
        } else {
            text += "L|1049\n";
            told += &board;
        }
    }
    case("refreshes: more than a buffer holds", text, told)
}
