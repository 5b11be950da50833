//! Ours. Stands in for the crate `zeroize_derive`.
//!
//! Both derives accept `#[zeroize(skip)]` and write no code. Whatever leaned on an
//! implementation would not compile, so none of this can reach an answer.

use proc_macro::TokenStream;

/// Accepts `#[derive(Zeroize)]` and adds nothing.
#[proc_macro_derive(Zeroize, attributes(zeroize))]
pub fn zeroize(_item: TokenStream) -> TokenStream {
    TokenStream::new()
}

/// Accepts `#[derive(ZeroizeOnDrop)]` and adds nothing.
#[proc_macro_derive(ZeroizeOnDrop, attributes(zeroize))]
pub fn zeroize_on_drop(_item: TokenStream) -> TokenStream {
    TokenStream::new()
}
