//! Ours. Stands in for `felica_standard/mod.rs` of the Rust, which was not published to us.
//!
//! It names the modules, the carried ones by their path under `carried/`, and gives out their
//! names as the original does. It holds no rule of its own. `rustfmt::skip` keeps the carried
//! files from being formatted.

#[rustfmt::skip]
#[path = "../../carried/felica_standard/constants.rs"]
mod constants;
#[rustfmt::skip]
#[path = "../../carried/felica_standard/redact.rs"]
mod redact;
// The carried file has crate-wide helpers that only its left-out neighbours call.
#[allow(dead_code)]
#[rustfmt::skip]
#[path = "../../carried/felica_standard/types.rs"]
mod types;

mod command;
pub mod emulator;
mod secure;

pub use command::{FelicaStandardCommand, FelicaStandardResponse};
pub use constants::*;
pub use secure::Authentication2Response;
pub use types::*;

/// Ends the run: a stand-in was reached whose result an answer could show.
fn reached(what: &str) -> ! {
    panic!("oracle shim reached: {what} is not carried, so there is no answer");
}
