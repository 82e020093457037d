//! Stands in for bytemuck, whose two derives gf names and never uses.

use proc_macro::TokenStream;

#[proc_macro_derive(Pod)]
pub fn pod(_: TokenStream) -> TokenStream {
    TokenStream::new()
}

#[proc_macro_derive(Zeroable)]
pub fn zeroable(_: TokenStream) -> TokenStream {
    TokenStream::new()
}
