//! The Rust's own tree of a list of records.
//!
//! An `EmulatedArea` owns its children and is moved into its parent, so a node cannot be added
//! deep inside a finished tree. The tree is therefore built from the leaves up, anew for each
//! list of records.

use super::{Entry, MOST_BLOCKS, Node};
use crate::felica_standard::ServiceCode;
use crate::felica_standard::emulator::{
    EmulatedArea, EmulatedService, EmulatedSystem, EmulatorConfigError,
};

/// What an area takes in.
enum Child {
    Area(EmulatedArea),
    Service(EmulatedService),
}

/// The system that holds these records, the first of which is its root, or the error that the
/// Rust gives for one of them. Every block is zero.
pub fn build(
    system: u16,
    version: u16,
    nodes: &[Node],
) -> Result<EmulatedSystem, EmulatorConfigError> {
    let mut rust = EmulatedSystem::new(system, [0; 8], [0; 8])?;
    rust.set_system_key_version(version);
    for part in children(nodes) {
        match child(part)? {
            Child::Area(area) => rust.add_area(area)?,
            Child::Service(service) => rust.add_service(service)?,
        };
    }
    Ok(rust)
}

/// The children of the first record, each followed by all that is below it.
pub fn children(nodes: &[Node]) -> impl Iterator<Item = &[Node]> {
    let depth = nodes[0].depth + 1;
    nodes[1..].chunk_by(move |_, next| next.depth > depth)
}

/// The first record, with all that is below it inside.
fn child(nodes: &[Node]) -> Result<Child, EmulatorConfigError> {
    let Node { code, version, .. } = nodes[0];
    match nodes[0].entry {
        Entry::Area { end } => {
            let mut area = EmulatedArea::with_key_version(code, end, version)?;
            for part in children(nodes) {
                match child(part)? {
                    Child::Area(inner) => area.add_area(inner)?,
                    Child::Service(service) => area.add_service(service)?,
                };
            }
            Ok(Child::Area(area))
        }
        Entry::Service { blocks, limit } => {
            // A count beyond the largest card is never stored: it is refused with 22, or
            // ignored because the service joins a store. One block too many stands for it.
            let blocks = blocks.min(MOST_BLOCKS + 1) as usize;
            let code = ServiceCode::new(code);
            let mut service = EmulatedService::with_key_version(code, version, blocks);
            if let Some(limit) = limit {
                service.set_limit_purse(limit);
            }
            Ok(Child::Service(service))
        }
    }
}
