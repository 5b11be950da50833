//! One line of a text, without its LF. A line is read as a whole or not at all.

use super::fields::{block, bytes, code, codes, decimal};
use crate::felica_standard::emulator::LimitPurseProperty;
use crate::felica_standard::emulator::doors::Block;
use crate::request::Request;
use crate::tree::Addition;

/// A line has at most this many bytes.
pub const MOST_BYTES: usize = 32_768;

/// What a line of an image says.
pub enum Image {
    Card {
        system: u16,
        version: u16,
        join: bool,
    },
    Add(Addition),
    Block {
        code: u16,
        number: u32,
        block: Block,
    },
}

/// What a line after the image asks.
pub enum Asked {
    Request(Request),
    /// A refresh of the lane board in the store of this code.
    Board(u16),
}

/// Whether a line is a request: its first field decides, whatever else is wrong with it.
pub fn is_request(line: &[u8]) -> bool {
    let first = line.split(|&byte| byte == b'\t').next();
    matches!(first, Some(b"R" | b"W" | b"L"))
}

/// The fields of a line, none if it is too long.
pub fn fields(line: &[u8]) -> Option<Vec<&[u8]>> {
    (line.len() <= MOST_BYTES).then(|| line.split(|&byte| byte == b'\t').collect())
}

/// What a line of an image says; nothing if it is malformed.
pub fn image(line: &[u8]) -> Option<Image> {
    Some(match fields(line)?.as_slice() {
        [b"card", system, version] => Image::Card {
            system: code(system)?,
            version: code(version)?,
            join: false,
        },
        [b"card", system, version, b"join"] => Image::Card {
            system: code(system)?,
            version: code(version)?,
            join: true,
        },
        [b"area", depth, first, end, version] => Image::Add(Addition::Area {
            depth: decimal(depth)?,
            code: code(first)?,
            end: code(end)?,
            version: code(version)?,
        }),
        [b"svc", depth, service, blocks, version] => Image::Add(Addition::Service {
            depth: decimal(depth)?,
            code: code(service)?,
            blocks: decimal(blocks)?,
            version: code(version)?,
        }),
        [b"lim", upper, lower, generation] => Image::Add(Addition::Limit(LimitPurseProperty {
            upper_limit: decimal(upper)?,
            lower_limit: decimal(lower)?,
            generation_number: decimal(generation)?,
        })),
        [b"blk", service, number, content] => Image::Block {
            code: code(service)?,
            number: decimal(number)?,
            block: block(content)?,
        },
        _ => return None,
    })
}

/// What a line after the image asks; nothing if it is malformed.
pub fn asked(line: &[u8]) -> Option<Asked> {
    let fields = fields(line)?;
    Some(match fields.as_slice() {
        [b"L", service] => Asked::Board(code(service)?),
        [b"L", ..] => return None,
        _ => Asked::Request(request(&fields)?),
    })
}

/// The request that these fields make; nothing if one of them is malformed.
fn request(fields: &[&[u8]]) -> Option<Request> {
    let (write, fields, data) = match fields {
        [b"R", fields @ ..] => (false, fields, Vec::new()),
        [b"W", fields @ .., data] => (true, fields, bytes(data)?),
        _ => return None,
    };
    let [kind, service_codes, count, list] = fields else {
        return None;
    };
    let open = match *kind {
        b"O" => true,
        b"S" => false,
        _ => return None,
    };
    Some(Request {
        write,
        open,
        codes: codes(service_codes)?,
        count: decimal(count)?,
        list: bytes(list)?,
        data,
    })
}
