//! Accepts `#[derive(Logos)]` with its attributes and makes nothing: no source text is read here.

use proc_macro::TokenStream;

#[proc_macro_derive(Logos, attributes(logos, token, regex))]
pub fn logos(_: TokenStream) -> TokenStream {
    TokenStream::new()
}
