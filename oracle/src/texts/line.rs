//! Lines of a text as their fields, so that one field can be spoilt.

use crate::felica_standard::emulator::doors::Block;
use crate::hex::{hex, hex_codes};
use crate::random::Random;
use crate::request::Request;
use crate::tree::{Addition, Card};

/// The fields of a line.
pub struct Line(pub Vec<Vec<u8>>);

impl Line {
    /// The line whose fields are parted by blanks here.
    pub fn of(fields: String) -> Self {
        Line(fields.split(' ').map(|field| field.into()).collect())
    }

    /// The line that starts an image.
    pub fn card(system: u16, version: u16) -> Self {
        Line::of(format!("card {system:04X} {version:04X}"))
    }

    /// The text with `join` at the end of its first line, if its card has to join.
    pub fn joining(mut text: Vec<u8>, card: &Card) -> Vec<u8> {
        let end = text.iter().position(|&byte| byte == b'\n');
        if let Some(end) = end.filter(|_| card.relies()) {
            text.splice(end..end, *b"\tjoin");
        }
        text
    }

    /// The line of an addition.
    pub fn addition(addition: Addition) -> Self {
        Line::of(match addition {
            Addition::Area {
                depth,
                code,
                end,
                version,
            } => format!("area {depth} {code:04X} {end:04X} {version:04X}"),
            Addition::Service {
                depth,
                code,
                blocks,
                version,
            } => format!("svc {depth} {code:04X} {blocks} {version:04X}"),
            Addition::Limit(limit) => format!(
                "lim {} {} {}",
                limit.upper_limit, limit.lower_limit, limit.generation_number
            ),
        })
    }

    /// The line that sets a block.
    pub fn block((code, number, block): (u16, u32, Block)) -> Self {
        Line::of(format!("blk {code:04X} {number} {}", hex(&block)))
    }

    /// The line of a request.
    pub fn request(request: &Request) -> Self {
        let mut fields = format!(
            "{} {} {} {} {}",
            if request.write { "W" } else { "R" },
            if request.open { "O" } else { "S" },
            hex_codes(&request.codes),
            request.count,
            hex(&request.list)
        );
        if request.write {
            fields += &format!(" {}", hex(&request.data));
        }
        Line::of(fields)
    }

    /// The line of a refresh.
    pub fn board(code: u16) -> Self {
        Line::of(format!("L {code:04X}"))
    }

    /// The line with its LF. In one line of three, hex letters are small or of both cases.
    pub fn bytes(&self, random: &mut Random) -> Vec<u8> {
        let mut fields = self.0.clone();
        let (some, all) = (random.once_in(3), random.once_in(2));
        for byte in fields.iter_mut().skip(1).flatten() {
            if some && (b'A'..=b'F').contains(byte) && (all || random.once_in(2)) {
                byte.make_ascii_lowercase();
            }
        }
        let mut bytes = fields.join(&b'\t');
        bytes.push(b'\n');
        bytes
    }
}
