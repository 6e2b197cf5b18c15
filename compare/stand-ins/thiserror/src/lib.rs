//! Stand-in for `thiserror`: `derive(Error)` shows a value by its `Debug` form.

use proc_macro::{TokenStream, TokenTree};

#[proc_macro_derive(Error, attributes(error, source, from))]
pub fn derive_error(item: TokenStream) -> TokenStream {
    let mut tokens = item.into_iter();
    let keyword = |t: &TokenTree| matches!(t, TokenTree::Ident(word) if ["enum", "struct"].contains(&word.to_string().as_str()));
    tokens.find(keyword).expect("an enum or a struct");
    let name = tokens.next().expect("its name");
    format!(
        "impl std::fmt::Display for {name} {{
            fn fmt(&self, f: &mut std::fmt::Formatter<'_>) -> std::fmt::Result {{ std::fmt::Debug::fmt(self, f) }}
        }}
        impl std::error::Error for {name} {{}}"
    )
    .parse()
    .expect("two implementations")
}
