//! Bytes and codes as capital hex digits.

use std::fmt::Write;

/// Two digits for each byte, nothing between them; `-` for no bytes.
pub fn hex(bytes: &[u8]) -> String {
    if bytes.is_empty() {
        return "-".to_string();
    }
    let mut text = String::with_capacity(bytes.len() * 2);
    for byte in bytes {
        write!(text, "{byte:02X}").expect("writing to a string does not fail");
    }
    text
}

/// The same for blocks one after another.
pub fn hex_blocks(blocks: &[[u8; 16]]) -> String {
    hex(blocks.as_flattened())
}

/// Four digits for each code, nothing between them; `-` for no codes.
pub fn hex_codes(codes: &[u16]) -> String {
    let bytes: Vec<u8> = codes.iter().flat_map(|code| code.to_be_bytes()).collect();
    hex(&bytes)
}
