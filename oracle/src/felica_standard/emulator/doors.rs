//! Ours. The doors into the carried code: each function passes a question on to one function
//! of the Rust and hands its answer back. No rule of the card is decided here.

use super::blocks::{CyclicWrite, PurseOperation, apply_cyclic_write, apply_purse_write};
use super::{DirectoryEntry, EmulatedSystem, LimitPurseProperty};
use crate::felica_standard::{BLOCK_SIZE, BlockListElement, ServiceCode};

/// One stored block.
pub type Block = [u8; BLOCK_SIZE];

/// A pair of status bytes, SF1 and SF2.
pub type Pair = (u8, u8);

/// What a purse write does; the Rust's `PurseOperation`, which is not visible outside.
#[derive(Clone, Copy, Debug, PartialEq, Eq)]
pub enum PurseStep {
    Direct,
    Decrement,
    Cashback,
}

/// `apply_purse_write`: the block to store, none if the stored one stays, or SF2.
pub fn purse_write(
    stored: &Block,
    command: &Block,
    step: PurseStep,
    limit: Option<LimitPurseProperty>,
) -> Result<Option<Block>, u8> {
    let operation = match step {
        PurseStep::Direct => PurseOperation::Direct,
        PurseStep::Decrement => PurseOperation::Decrement,
        PurseStep::Cashback => PurseOperation::Cashback,
    };
    apply_purse_write(stored, command, operation, limit)
}

/// `apply_cyclic_write`: the store after a run, none if it stays, or SF2.
pub fn cyclic_write(store: &[Block], run: &[Block]) -> Result<Option<Vec<Block>>, u8> {
    Ok(match apply_cyclic_write(store, run)? {
        CyclicWrite::Updated(after) => Some(after),
        CyclicWrite::Unchanged => None,
    })
}

/// `validate_read_block`: the service and block that one element of a read names, or the pair.
pub fn read_element(
    system: &EmulatedSystem,
    codes: &[ServiceCode],
    index: usize,
    element: &BlockListElement,
    open: bool,
) -> Result<(ServiceCode, usize), Pair> {
    system.validate_read_block(codes, index, element, open)
}

/// `apply_block_writes`: carries a whole write out, or gives the pair and changes nothing.
/// The data must hold 16 bytes for each element.
pub fn write_elements(
    system: &EmulatedSystem,
    codes: &[ServiceCode],
    elements: &[BlockListElement],
    data: &[u8],
    open: bool,
) -> Result<(), Pair> {
    system.apply_block_writes(codes, elements, data, open)
}

/// `find_service`: the blocks that the first service of this code holds, none if there is none.
pub fn store_of(system: &EmulatedSystem, code: u16) -> Option<Vec<Block>> {
    let service = system.find_service(ServiceCode::new(code))?;
    Some(service.blocks().to_vec())
}

/// One block of that store; none if there is no such block.
pub fn block(system: &EmulatedSystem, code: u16, number: usize) -> Option<Block> {
    let service = system.find_service(ServiceCode::new(code))?;
    service.blocks().get(number).copied()
}

/// Puts a block into the store of the first service of this code; false if there is no such
/// block.
pub fn set_block(system: &EmulatedSystem, code: u16, number: usize, block: Block) -> bool {
    let Some(service) = system.find_service(ServiceCode::new(code)) else {
        return false;
    };
    match service.blocks_mut().get_mut(number) {
        Some(place) => {
            *place = block;
            true
        }
        None => false,
    }
}

/// `find_area` and `append_directory_entries`: the first area of this code and all that is below it, as
/// the directory walks it; none if there is none.
pub fn walk_of(system: &EmulatedSystem, code: u16) -> Option<Vec<DirectoryEntry>> {
    let area = system.root_area().find_area(code)?;
    let mut entries = Vec::new();
    area.append_directory_entries(&mut entries);
    Some(entries)
}

/// `block_count_for_node`: the block total of a service or an area, 0 if unknown.
pub fn block_total(system: &EmulatedSystem, code: u16) -> u16 {
    system.block_count_for_node(code)
}

/// `node_key_version`: the key version of the system, a service or an area, FFFF if unknown.
pub fn key_version(system: &EmulatedSystem, code: u16) -> u16 {
    system.node_key_version(ServiceCode::new(code))
}

/// `area_list_well_formed`, by way of `handle_authentication1`. The service list beside it is
/// FFFF alone, which is always well formed: it resolves to the system and is keyed.
pub fn area_list(system: &mut EmulatedSystem, areas: &[u16]) -> bool {
    both_lists(system, areas, &[0xFFFF])
}

/// `service_list_well_formed`, by way of `handle_authentication1`. The area list beside it is
/// the root alone, which is always well formed: every system has it.
pub fn service_list(system: &mut EmulatedSystem, services: &[u16]) -> bool {
    both_lists(system, &[0x0000], services)
}

/// Whether both lists are well formed: exactly then `handle_authentication1` answers, since its
/// other early returns look up nodes that the two tests have just found. What it answers went
/// through stand-ins that give zeros, and is dropped unread.
fn both_lists(system: &mut EmulatedSystem, areas: &[u16], services: &[u16]) -> bool {
    let told = system.handle_authentication1([0; 8], areas, services, [0; 8]);
    system.reset_mode();
    told.is_some()
}
