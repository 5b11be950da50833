//! Ours. Stands in for the crate `zeroize`, which clears keys from memory.
//!
//! The oracle has no keys: every key stays zero from the start. No answer depends on what
//! memory holds after a value is gone, so the derives write no code at all.

pub use zeroize_derive::{Zeroize, ZeroizeOnDrop};

/// Clearing a value in place; the carried code asks for it only where a key is replaced.
pub trait Zeroize {
    /// Clears the value.
    fn zeroize(&mut self);
}

impl Zeroize for [u8; 8] {
    /// Stops the run: the oracle never replaces a key.
    fn zeroize(&mut self) {
        panic!("oracle shim reached: zeroize of a key, but the oracle sets no key");
    }
}
