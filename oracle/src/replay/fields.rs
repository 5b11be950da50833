//! One field of a line. Each function gives nothing for a field that is not of its form.

use crate::felica_standard::emulator::doors::Block;
use std::str::FromStr;

/// Four hex digits as a code or a version.
pub fn code(field: &[u8]) -> Option<u16> {
    let bytes: [u8; 2] = digits(field)?.try_into().ok()?;
    Some(u16::from_be_bytes(bytes))
}

/// Thirty-two hex digits as a block.
pub fn block(field: &[u8]) -> Option<Block> {
    digits(field)?.try_into().ok()
}

/// Any number of bytes in hex, `-` for none.
pub fn bytes(field: &[u8]) -> Option<Vec<u8>> {
    if field == b"-" {
        return Some(Vec::new());
    }
    digits(field).filter(|bytes| !bytes.is_empty())
}

/// Any number of codes in hex, joined, `-` for none.
pub fn codes(field: &[u8]) -> Option<Vec<u16>> {
    let bytes = bytes(field)?;
    let (codes, rest) = bytes.as_chunks();
    let codes = codes.iter().map(|&code| u16::from_be_bytes(code)).collect();
    rest.is_empty().then_some(codes)
}

/// A decimal that the type can hold: no leading zero, and a sign only before a negative one of
/// a signed type.
pub fn decimal<T: FromStr>(field: &[u8]) -> Option<T> {
    let number = match field {
        [b'-', number @ ..] if number != b"0" => number,
        _ => field,
    };
    match number {
        b"0" => {}
        [b'1'..=b'9', ..] => {}
        _ => return None,
    }
    if !number.iter().all(u8::is_ascii_digit) {
        return None;
    }
    // An unsigned type takes no minus sign, and no type takes more than it can hold.
    str::from_utf8(field).ok()?.parse().ok()
}

/// Hex digits of either case, two for each byte.
fn digits(field: &[u8]) -> Option<Vec<u8>> {
    let (pairs, rest) = field.as_chunks();
    let value = |digit: u8| char::from(digit).to_digit(16);
    let bytes = pairs
        .iter()
        .map(|&[high, low]| Some((value(high)? << 4 | value(low)?) as u8))
        .collect::<Option<Vec<u8>>>();
    bytes.filter(|_| rest.is_empty())
}
