//! A derive that adds nothing, under the name of `thiserror`.

use proc_macro::TokenStream;

#[proc_macro_derive(Error, attributes(error))]
pub fn error(_item: TokenStream) -> TokenStream {
    TokenStream::new()
}
