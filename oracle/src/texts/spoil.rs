//! Malformed lines: one field, a separator or the end of a good line changed. Now and then the
//! change makes another good line.

use super::line::Line;
use crate::random::Random;

/// Bytes beside the digits and letters that a field may have, and some that end lines elsewhere.
pub const STRAY: [u8; 18] = [
    b'/', b':', b'@', b'G', b'`', b'g', b'-', b'+', b'.', b' ', b'_', b'\r', b'\0', 0x0B, 0x7F,
    0x80, 0xC1, 0xFF,
];

/// Decimals that some width cannot hold, or that are not written as they should be.
pub const DECIMALS: [&str; 22] = [
    "00",
    "01",
    "-0",
    "+1",
    "-1",
    "--1",
    "-",
    "1.0",
    "1e3",
    "0x1",
    "256",
    "2147483647",
    "2147483648",
    "-2147483648",
    "-2147483649",
    "4294967295",
    "4294967296",
    "4294967297",
    "18446744073709551615",
    "18446744073709551616",
    "18446744073709551617",
    "340282366920938463463374607431768211457",
];

/// First fields that are nearly one of the rules'.
const NAMES: [&str; 20] = [
    "", "r", "w", "RW", "R ", " R", "W\r", "Card", "CARD", "card ", "cards", "car", "Area",
    "areas", "SVC", "sv", "Lim", "limit", "blk\0", "bl",
];

/// Spoils a line.
pub fn spoil(random: &mut Random, line: &mut Line) {
    let fields = &mut line.0;
    let at = random.below(fields.len());
    match random.below(12) {
        0 => {
            fields.remove(at);
        }
        1 => fields.push(Vec::new()),
        2 => fields.insert(at, b"0000".to_vec()),
        3 => fields[at].clear(),
        4 => fields[at] = b"-".to_vec(),
        5 => {
            let place = random.below(fields[at].len().max(1));
            if let Some(byte) = fields[at].get_mut(place) {
                *byte = random.pick(&STRAY);
            }
        }
        6 => {
            let place = random.below(fields[at].len() + 1);
            fields[at].insert(place, random.pick(b"009AaFf- +"));
        }
        7 => {
            fields[at].pop();
        }
        8 | 9 => decimal(random, fields),
        10 => fields[0] = random.pick(&NAMES).into(),
        _ => end(random, fields),
    }
}

/// Puts another decimal in the place of a short field of digits, if there is one.
fn decimal(random: &mut Random, fields: &mut [Vec<u8>]) {
    let decimals: Vec<usize> = (1..fields.len())
        .filter(|&at| fields[at].len() != 4 && fields[at].iter().all(u8::is_ascii_digit))
        .collect();
    if !decimals.is_empty() {
        let at = random.pick(&decimals);
        fields[at] = random.pick(&DECIMALS).into();
    }
}

/// Changes the last field's end, or joins two fields by a blank.
fn end(random: &mut Random, fields: &mut Vec<Vec<u8>>) {
    let last = fields.len() - 1;
    match random.below(4) {
        0 => fields[last].push(b'\r'),
        1 => fields[last].push(b' '),
        2 => fields[last].push(b'\0'),
        _ => {
            let joined = fields[last.saturating_sub(1)..].join(&b' ');
            fields.truncate(last.saturating_sub(1));
            fields.push(joined);
        }
    }
}
