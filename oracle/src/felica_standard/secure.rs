//! Ours. Stands in for `felica_standard/secure` of the Rust: DES and secure frames.
//!
//! Two kinds of stand-in are here. Those that `handle_authentication1` calls after it has
//! judged both lists give zeros: the oracle looks only at whether that function answers, and
//! it always does from there on (see `emulator/mod.rs`). All others end the run.

use super::reached;
use std::convert::Infallible;

type Eight = [u8; 8];

/// The reply to Authentication2; the oracle never makes one.
pub struct Authentication2Response {
    pub encrypted_payload: Vec<u8>,
}

/// The keys of an authentication under way: none, since only Some or None is looked at.
pub(crate) struct AuthenticationContext;

impl AuthenticationContext {
    /// No keys, whatever is given.
    pub(crate) fn new(_idm: &Eight, _group_key: &Eight, _user_key: &Eight) -> Self {
        AuthenticationContext
    }

    /// Zeros: the number is only kept for Authentication2.
    pub(crate) fn decrypt_challenge1a(&self, _challenge: &Eight) -> Eight {
        [0; 8]
    }

    /// Zeros: the number only goes into the frame, which is not looked at.
    pub(crate) fn encrypt_challenge1b(&self, _random: &Eight) -> Eight {
        [0; 8]
    }

    /// Zeros: the number only goes into the frame, which is not looked at.
    pub(crate) fn encrypt_challenge2a(&self, _random: &Eight) -> Eight {
        [0; 8]
    }

    /// Would judge the reader's proof; ends the run.
    pub(crate) fn encrypt_challenge2b(&self, _random: &Eight) -> Eight {
        reached("Authentication2")
    }
}

/// Zeros: the two keys only feed `AuthenticationContext::new`, which ignores them.
pub(crate) fn generate_service_keys_des(
    _system_key: &Eight,
    _area_keys: &[Eight],
    _service_keys: &[Eight],
) -> (Eight, Eight) {
    ([0; 8], [0; 8])
}

/// Would encrypt one block by DES; ends the run.
pub(crate) fn encrypt_des_block(_block: &Eight, _key: &Eight) -> Eight {
    reached("DES")
}

/// Would decrypt a secure frame; ends the run.
pub(crate) fn decrypt_des_cbc_zero_iv(_data: &[u8], _key: &Eight) -> Result<Vec<u8>, Infallible> {
    reached("DES")
}

/// Would compare two secrets; ends the run.
pub(crate) fn ct_eq(_one: &[u8], _other: &[u8]) -> bool {
    reached("comparing secrets")
}

/// Would check a frame's MAC; ends the run.
pub(crate) fn check_packet_mac_des(_data: &[u8], _code: u8) -> bool {
    reached("a MAC")
}

/// Would write the reply to Authentication2; ends the run.
pub(crate) fn build_authentication2_payload(
    _transaction_number: u16,
    _transaction_id: &[u8; 6],
    _issue_id: &Eight,
    _issue_parameter: &Eight,
) -> Vec<u8> {
    reached("Authentication2")
}

/// Would encrypt the reply to Authentication2; ends the run.
pub(crate) fn encrypt_authentication2_payload(_payload: &[u8], _key: &Eight) -> Option<Vec<u8>> {
    reached("Authentication2")
}

/// Would write a secure response; ends the run.
pub(crate) fn build_secure_response_frame_des(
    _code: u8,
    _transaction_number: u16,
    _transaction_id: &[u8; 6],
    _transaction_key: &Eight,
    _payload: &[u8],
) -> Option<Vec<u8>> {
    reached("writing a secure frame")
}
