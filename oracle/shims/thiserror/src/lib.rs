//! Ours. Stands in for the crate `thiserror`.
//!
//! The derive accepts `#[error(..)]` and writes no code: the oracle tells errors apart by
//! their variant and never prints one. Whatever leaned on the text would not compile.

use proc_macro::TokenStream;

/// Accepts `#[derive(Error)]` and adds nothing.
#[proc_macro_derive(Error, attributes(error))]
pub fn error(_item: TokenStream) -> TokenStream {
    TokenStream::new()
}
