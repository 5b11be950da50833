//! Ours. Stands in for `felica_standard/emulator/mod.rs` of the Rust, whose command handlers
//! the card leaves out.
//!
//! It names the three carried modules, gives them the two names they take from here, and opens
//! `doors`, since most of what the oracle asks is visible only inside this module.

#[rustfmt::skip]
#[path = "../../../carried/felica_standard/emulator/blocks.rs"]
mod blocks;
#[rustfmt::skip]
#[path = "../../../carried/felica_standard/emulator/structure.rs"]
mod structure;
// The carried file has handlers that only the left-out dispatcher calls.
#[allow(dead_code)]
#[rustfmt::skip]
#[path = "../../../carried/felica_standard/emulator/system.rs"]
mod system;

pub mod doors;

use super::{BLOCK_SIZE, FelicaStandardResponse, reached};
use std::cell::RefCell;
use std::rc::Rc;

pub use structure::{
    DirectoryEntry, EmulatedArea, EmulatedService, EmulatorConfigError, LimitPurseProperty,
};
pub use system::{CommunicationPerformance, EmulatedSystem};

// As in the original.
type SharedBlocks = Rc<RefCell<Vec<[u8; BLOCK_SIZE]>>>;

/// The frame of a response. Only the one of Authentication1 is ever made, and only its being
/// there is looked at, so it is empty; any other ends the run.
fn encode_response_frame(response: FelicaStandardResponse) -> Option<Vec<u8>> {
    match response {
        FelicaStandardResponse::Authentication1 { .. } => Some(Vec::new()),
        _ => reached("writing a response frame"),
    }
}
