//! Ours. Stands in for `felica_standard/command` of the Rust: frames read and written.
//!
//! `system.rs` names these in its frame handlers, which the oracle never calls. The types are
//! as small as its text allows; every function ends the run.

use super::reached;
use super::{
    Authentication2Response, BlockListElement, ReadResult, RegisterIssueIdResult,
    RegisterServiceResult,
};
use std::convert::Infallible;

/// The commands that `handle_secure_frame` tells apart, and one that it does not.
pub enum FelicaStandardCommand {
    Read {
        block_list: Vec<BlockListElement>,
    },
    Write {
        block_list: Vec<BlockListElement>,
        data: Vec<u8>,
    },
    RegisterIssueId {},
    RegisterArea {},
    RegisterService {},
    ChangeSystemBlock,
    ResetMode,
}

impl FelicaStandardCommand {
    /// Would read a decrypted payload; ends the run.
    pub fn parse_secure_payload(_code: u8, _payload: &[u8]) -> Result<Self, Infallible> {
        reached("reading a secure payload")
    }
}

/// The responses that `system.rs` makes.
pub enum FelicaStandardResponse {
    Authentication1 {
        idm: [u8; 8],
        challenge_1b: [u8; 8],
        challenge_2a: [u8; 8],
    },
    Authentication2(Authentication2Response),
    Read {
        status_flag1: u8,
        status_flag2: u8,
        result: Option<ReadResult>,
    },
    Write {
        status_flag1: u8,
        status_flag2: u8,
    },
    RegisterIssueId {
        status_flag1: u8,
        status_flag2: u8,
        result: Option<RegisterIssueIdResult>,
    },
    RegisterArea {
        status_flag1: u8,
        status_flag2: u8,
    },
    RegisterService {
        status_flag1: u8,
        status_flag2: u8,
        result: Option<RegisterServiceResult>,
    },
    ChangeSystemBlock {
        status_flag1: u8,
        status_flag2: u8,
    },
}

impl FelicaStandardResponse {
    /// Would write the payload to encrypt; ends the run.
    pub fn to_secure_payload(&self) -> Result<Vec<u8>, Infallible> {
        reached("writing a secure payload")
    }
}

/// Would tell an issuing command; ends the run.
pub(crate) fn is_register_command(_code: u8) -> bool {
    reached("telling an issuing command")
}
