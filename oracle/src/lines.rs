//! The lines that make a card, which several lists have in common. `README.md` describes them.

use crate::felica_standard::emulator::doors::Block;
use crate::hex::hex;
use crate::refusal::Refusal;
use crate::replay::line::Image;
use crate::tree::{Addition, Card};

/// The line that starts a card that joins or does not, lent an arena of this many bytes.
pub fn start(card: &Card, join: bool, arena: usize) -> String {
    let (system, version) = (card.rust().system_code(), card.key_version(0xFFFF));
    let join = u8::from(join);
    format!("T {system:04X} {version:04X} {join:02X} {arena:08X}\n")
}

/// The line that lends an arena of another length from there on.
pub fn lent(arena: usize) -> String {
    format!("m {arena:08X}\n")
}

/// The line of an addition with the answer, 0 if it was accepted, and the blocks then in use.
pub fn addition(addition: Addition, refusal: Refusal, used: u32) -> String {
    match addition {
        Addition::Area {
            depth,
            code,
            end,
            version,
        } => format!("a {depth:08X} {code:04X} {end:04X} {version:04X} {refusal:02X}\n"),
        Addition::Service {
            depth,
            code,
            blocks,
            version,
        } => format!(
            "s {depth:08X} {code:04X} {blocks:08X} {version:04X} {refusal:02X} {used:04X}\n"
        ),
        Addition::Limit(limit) => {
            let (upper, lower) = (limit.upper_limit, limit.lower_limit);
            let generation = limit.generation_number;
            format!("l {upper:08X} {lower:08X} {generation:02X} {refusal:02X}\n")
        }
    }
}

/// The line that sets a block.
pub fn block(code: u16, number: u32, block: &Block) -> String {
    format!("b {code:04X} {number:04X} {}\n", hex(block))
}

/// The line of an image line that the card accepts with an arena of this many bytes; nothing for another one.
pub fn taken(card: &mut Card, arena: usize, image: Image) -> String {
    match image {
        Image::Add(new) if card.add(arena, new).is_ok() => addition(new, 0, card.used()),
        Image::Block {
            code,
            number,
            block: content,
        } if card.set_block(code, number, content).is_ok() => block(code, number, &content),
        _ => String::new(),
    }
}
