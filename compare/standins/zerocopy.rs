//! Stand-in for the crate `zerocopy`: the four derives that table.rs names. They make nothing, as gpt.rs and table.rs use nothing of them.

extern crate proc_macro;
use proc_macro::TokenStream;

#[proc_macro_derive(FromBytes)]
pub fn from_bytes(_: TokenStream) -> TokenStream {
    TokenStream::new()
}

#[proc_macro_derive(IntoBytes)]
pub fn into_bytes(_: TokenStream) -> TokenStream {
    TokenStream::new()
}

#[proc_macro_derive(KnownLayout)]
pub fn known_layout(_: TokenStream) -> TokenStream {
    TokenStream::new()
}

#[proc_macro_derive(Immutable)]
pub fn immutable(_: TokenStream) -> TokenStream {
    TokenStream::new()
}
