//! The refusal numbers of docs/RULES.md that the oracle gives. Those from 11 to 19 are the Rust's
//! own errors; the others are refusals that the Rust does not have.

use crate::felica_standard::emulator::EmulatorConfigError;

/// A refusal's number in docs/RULES.md.
pub type Refusal = u8;

pub const TOO_MANY_ELEMENTS: Refusal = 1;
pub const TOO_MANY_CODES: Refusal = 2;
pub const LIST_LENGTH: Refusal = 3;
pub const STAGING_SHORT: Refusal = 4;
pub const OUTPUT_SHORT: Refusal = 5;
pub const REQUEST_LINE: Refusal = 6;
pub const ARENA_SHORT: Refusal = 7;
pub const NOT_BUILT: Refusal = 8;
pub const TABLE_FULL: Refusal = 20;
pub const NO_PARENT: Refusal = 21;
pub const NO_BLOCKS_LEFT: Refusal = 22;
pub const NO_SUCH_BLOCK: Refusal = 23;
pub const COUNTS_DIFFER: Refusal = 24;
pub const LIMIT_ON_NO_SERVICE: Refusal = 28;
pub const IMAGE_LINE: Refusal = 30;
pub const RACES_DIFFER: Refusal = 40;
pub const WRONG_LANE: Refusal = 41;
pub const BAD_CREW: Refusal = 42;
pub const TAIL_NOT_ZERO: Refusal = 43;
pub const NO_AREA: Refusal = 44;
pub const NO_PACKET: Refusal = 45;
pub const TOO_MANY_NODES: Refusal = 46;
pub const NO_MESSAGE: Refusal = 47;

/// The number of an error of the Rust.
pub fn of_rust(error: &EmulatorConfigError) -> Refusal {
    match error {
        EmulatorConfigError::InvalidAreaRange { .. } => 11,
        EmulatorConfigError::InvalidRootAreaRange { .. } => 12,
        EmulatorConfigError::NodeCodeOutOfRange { .. } => 13,
        EmulatorConfigError::InvalidAreaAttribute { .. } => 14,
        EmulatorConfigError::ChildAreaForbidden { .. } => 15,
        EmulatorConfigError::UndefinedServiceAttribute { .. } => 16,
        EmulatorConfigError::ServiceOutOfRange { .. } => 17,
        EmulatorConfigError::AreaOutOfRange { .. } => 18,
        EmulatorConfigError::OverlapKindMismatch { .. } => 19,
    }
}
