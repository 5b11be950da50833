//! What a card has, as the Rust's own result structs tell it. The Rust has the structs and no handler
//! that fills them: here its own tree does, by what it answers of children, ranges and totals.

use crate::felica_standard::emulator::DirectoryEntry;
use crate::felica_standard::{
    AreaCodeRange, RequestBlockInformationExResult, RequestCodeListResult,
};
use crate::refusal::{self, Refusal};
use crate::tree::{Card, usable};

/// A packet holds this many children.
pub const PACKET: usize = 16;

/// No more nodes than these are asked about at once.
pub const MOST_NODES: usize = 32;

/// A packet of the children of the first area of this code: 44, then 45.
pub fn code_list(card: &Card, parent: u16, packet: u32) -> Result<RequestCodeListResult, Refusal> {
    let children = card.children(parent).ok_or(refusal::NO_AREA)?;
    let packets: Vec<&[DirectoryEntry]> = children.chunks(PACKET).collect();
    let at = packet as usize;
    // Packet 0 exists even where there is no child.
    let held = match packets.get(at) {
        Some(held) => held,
        None if at == 0 => &[][..],
        None => return Err(refusal::NO_PACKET),
    };
    let (mut areas, mut services) = (Vec::new(), Vec::new());
    for child in held {
        match *child {
            DirectoryEntry::Area {
                area_code,
                end_service_code,
            } => areas.push(AreaCodeRange::new(area_code, end_service_code)),
            DirectoryEntry::Service(code) => services.push(code),
        }
    }
    Ok(RequestCodeListResult {
        continue_flag: at + 1 < packets.len(),
        areas,
        services,
    })
}

/// What is assigned to each of these nodes and free for it, with an arena of this many bytes lent: 7,
/// then 46.
pub fn block_information(
    card: &Card,
    arena: usize,
    nodes: &[u16],
) -> Result<RequestBlockInformationExResult, Refusal> {
    let unused = usable(arena).checked_sub(card.used());
    let unused = unused.ok_or(refusal::ARENA_SHORT)? as u16;
    if nodes.len() > MOST_NODES {
        return Err(refusal::TOO_MANY_NODES);
    }
    let free = |&code: &u16| match card.children(code) {
        Some(_) => unused,
        None => 0,
    };
    Ok(RequestBlockInformationExResult {
        assigned_block_counts: nodes.iter().map(|&code| card.total(code)).collect(),
        free_block_counts: nodes.iter().map(free).collect(),
    })
}
